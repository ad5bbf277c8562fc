/* Writes what the program `cases` has to print: document 01's worked meshes and files, and meshes, files and questions that tell misreadings apart,
 * each answered by the plain C program of bench/, with every lent buffer after it. The numbers of the cases are those of crates/cases/src. */
#include "lists.h"
#include "plain.h"
#include <stdio.h>
#include <string.h>

/* What stands in a buffer before, in entries and in bytes. */
enum { FILL = 60000, FILL_BYTE = 77 };
enum { NONE = NDP_NO_PARENT, NODES = NDP_MAX_NODES, MOST_BYTES = 64, ALL = NODES + 2 };

/* ---- the lent results of planning and reading */

typedef struct {
    size_t order, positions, sizes, parents, column_starts, rows;
} Lengths;

static uint16_t order[NODES + 1], positions[NODES + 1], sizes[NODES + 1], parents[NODES + 1], rows[32];
static uint32_t column_starts[NODES + 2];

static void fill(uint16_t *entries, size_t length) {
    for (size_t i = 0; i < length; i++) entries[i] = FILL;
}

static void fill_results(void) {
    fill(order, NODES + 1);
    fill(positions, NODES + 1);
    fill(sizes, NODES + 1);
    fill(parents, NODES + 1);
    fill(rows, 32);
    for (size_t j = 0; j < NODES + 2; j++) column_starts[j] = FILL;
}

/* The last entries of a buffer in a line, all where it has fewer. */
static void print_last(const uint16_t *entries, size_t length, size_t last) {
    for (size_t i = length < last ? 0 : length - last; i < length; i++) printf(" %u", entries[i]);
    printf("\n");
}

static void print_results(NdpPlan reply, Lengths l, size_t last) {
    if (reply.refusal) printf("refused %u\n", reply.refusal);
    else printf("accepted %u %u %u %llu %u\n", reply.nodes, reply.parts, reply.slots, (unsigned long long)reply.multiplications, reply.unknowns);
    print_last(order, l.order, last);
    print_last(positions, l.positions, last);
    print_last(sizes, l.sizes, last);
    print_last(parents, l.parents, last);
    for (size_t j = l.column_starts < last ? 0 : l.column_starts - last; j < l.column_starts; j++) printf(" %u", column_starts[j]);
    printf("\n");
    print_last(rows, l.rows, last);
}

/* ---- meshes */

static void plan_lent(int title, size_t unknowns, size_t n, List32 starts, List16 neighbours, Lengths l, size_t last) {
    printf("case %d\n", title);
    fill_results();
    NdpPlan reply = plain_plan(unknowns, n, starts.at, starts.length, neighbours.at, neighbours.length, order, l.order, positions, l.positions,
                               sizes, l.sizes, parents, l.parents, column_starts, l.column_starts, rows, l.rows);
    print_results(reply, l, last);
}

/* Any lists of n nodes with so many unknowns each, planned into buffers of this length, one more for the column starts, and rows of their length. */
static void plan_unknowns(int title, size_t unknowns, size_t n, List32 starts, List16 neighbours, size_t length, size_t slots) {
    plan_lent(title, unknowns, n, starts, neighbours, (Lengths){length, length, length, length, length + 1, slots}, ALL);
}

/* Such lists with one unknown for each node. */
static void plan_lists(int title, size_t n, List32 starts, List16 neighbours, size_t length, size_t slots) {
    plan_unknowns(title, 1, n, starts, neighbours, length, slots);
}

static void plan_edges(int title, size_t n, const char *edges, size_t slots) {
    Mesh mesh = mesh_of_edges(n, edges);
    plan_lists(title, n, mesh.starts, mesh.neighbours, n + 1, slots);
}

/* n nodes without entries: the last three entries of each buffer, which has one more than 4,096 nodes need. */
static void plan_bare(int title, size_t n) {
    static const uint32_t starts[NODES + 2];
    plan_lent(title, 1, n, (List32){starts, n + 1}, EMPTY16, (Lengths){NODES + 1, NODES + 1, NODES + 1, NODES + 1, NODES + 2, 1}, 3);
}

static void worked_meshes(void) {
    plan_edges(1, 1, "", 1);
    plan_edges(2, 2, "", 1);
    plan_edges(3, 3, "01 02 12", 2);
    plan_edges(3, 3, "01 02 12", 3);
    plan_edges(4, 5, "01 12 23 34", 6);
    plan_edges(5, 4, "01 12 23 03", 6);
    plan_edges(6, 4, "01 02 03", 4);
    plan_lists(7, 0, LIST32(0), EMPTY16, 2, 1);
    plan_lists(8, 2, LIST32(0, 1, 1), LIST16(1), 3, 1);
    plan_lists(9, 2, LIST32(0, 2, 2), LIST16(5, 0), 3, 1);
    plan_bare(13, 4096);
    plan_bare(13, 4097);
}

/* Which neighbours a degree counts, and that a widest level is looked at. If a degree counted nodes already chosen, a region of 31 would stay uncut,
 * though no clique; if it counted neighbours in the last level only, 34 would be cut in another way. If the root's and a candidate's widest levels
 * were not compared, a region that a cut has left in 32, and the first region of 33, would be cut in another way. */
static void telling_degrees(void) {
    plan_edges(31, 7, "01 05 12 13 16 23 26 34 45 46", 24);
    plan_edges(32, 9, "01 02 06 14 15 17 18 23 35 37 45 48 78", 24);
    plan_edges(33, 7, "01 02 03 04 14 15 23 24 25 56", 24);
    plan_edges(34, 6, "01 02 13 14 23 25 34", 16);
}

/* Which candidate replaces the root. If the best one did, and not the first that improves, 35 and 38 would be cut in another way; if the last level
 * were taken for the widest, 35 and 37; if the widest were not looked at, 35. In 36 the first candidate is as far as the root and its widest level
 * as wide: the root stays, until the second, which is farther, replaces it. */
static void telling_widths(void) {
    plan_edges(35, 6, "02 03 05 13 34 35 45", 16);
    plan_edges(36, 5, "01 02 13 23 24", 12);
    plan_edges(37, 5, "01 03 04 12", 8);
    plan_edges(38, 7, "01 02 06 13 15 23 24", 16);
}

/* Which neighbours a degree counts, in deeper regions. If it counted nodes already chosen, in 39 only a region two cuts deep would be left uncut,
 * though no clique; in 40 two nodes would not be equal, and the greater would be taken. */
static void telling_deep_degrees(void) {
    plan_edges(39, 8, "01 02 06 07 14 24 25 26 27 34 46 47 56 57", 24);
    plan_edges(40, 7, "02 03 04 13 14 15 16 35 45 46", 24);
}

/* The order of the candidates. If they came by their own numbers, or if the last level's components were joined through the region, 48 would be cut
 * in another way. */
static void telling_candidates(void) {
    plan_edges(48, 6, "01 02 03 04 05 14 15 23", 16);
}

/* The root search and the cut, then the order of the checks, and of the candidates. */
static void telling_meshes(void) {
    plan_edges(21, 4, "01 02 03 12", 6);
    plan_edges(22, 4, "01 02 13", 6);
    plan_edges(23, 7, "01 02 13 14 25 26 35", 16);
    plan_edges(24, 5, "01 02 03 04 12 13 24", 12);
    plan_edges(25, 5, "01 02 13 14", 8);
    plan_edges(26, 7, "03 04 12 14 23 36 45", 16);
    plan_edges(27, 5, "01 02 03 04 14 34", 12);
    plan_edges(28, 5, "01 02 03 04 13 34", 12);
    plan_edges(29, 7, "01 02 03 12 13 24 25 34 35 46 56", 24);
    plan_edges(30, 7, "01 12 23 34 45 56", 12);
    telling_degrees();
    telling_widths();
    telling_deep_degrees();
    plan_lists(41, 0, EMPTY32, EMPTY16, 2, 1);
    plan_lists(42, 3, LIST32(0, 0, 0), EMPTY16, 4, 1);
    plan_lists(43, 2, LIST32(0, 2, 2), LIST16(1, 0), 3, 1);
    plan_lists(44, 3, LIST32(0, 2, 2, 2), LIST16(2, 1), 4, 1);
    plan_lists(45, 2, LIST32(0, 1, 2), LIST16(0, 2), 3, 1);
    plan_lists(46, 2, LIST32(0, 1, 2), LIST16(1, 0), 1, 0);
    plan_lists(47, 2, LIST32(0, 1, 2), LIST16(1, 0), 2, 0);
    telling_candidates();
}

/* ---- files */

typedef struct {
    uint8_t bytes[MOST_BYTES];
    size_t length;
} File;

/* The file with another number of two bytes there. */
static File changed(File file, size_t at, uint16_t x) {
    file.bytes[at] = x & 255;
    file.bytes[at + 1] = x >> 8;
    return file;
}

/* The first bytes of a file, or all of them and zeros. */
static File resized(File file, size_t length) {
    file.length = length;
    return file;
}

/* The file of a version with n, which stands at `at`, p and s, all below 65,536, and the numbers behind them. */
static File file_from(uint16_t version, size_t at, uint16_t n, uint16_t p, uint16_t s, List16 numbers) {
    File file = {"NDP", at + 12 + 2 * numbers.length};
    file = changed(changed(changed(changed(file, 3, version), at, n), at + 4, p), at + 8, s);
    for (size_t k = 0; k < numbers.length; k++) file = changed(file, at + 12 + 2 * k, numbers.at[k]);
    return file;
}

static File file_1_of(uint16_t n, uint16_t p, uint16_t s, List16 numbers) { return file_from(1, 5, n, p, s, numbers); }

/* The file of version 2, with one unknown for each node. */
static File file_2_of(uint16_t n, uint16_t p, uint16_t s, List16 numbers) { return changed(file_from(2, 7, n, p, s, numbers), 5, 1); }

#define PATH_NUMBERS LIST16(0, 1, 3, 4, 2, 2, 2, 2, 2, 1, NONE, 1, 1, 2, 1, 0, 1, 4, 3, 4, 4)

/* Mesh 4's file of 61 bytes: the unknowns stand at 5, n at 7, the order at 19, sizes and parents at 29, row counts at 41, rows at 51. */
static File path_file(void) { return file_2_of(5, 3, 5, PATH_NUMBERS); }

/* Its file of version 1, 59 bytes: n stands at 5, the order at 17, sizes and parents at 27, row counts at 39, rows at 49. */
static File path_file_1(void) { return file_1_of(5, 3, 5, PATH_NUMBERS); }

/* A header of 19 bytes with zeros behind the version. */
static File bare_file(uint16_t version) { return resized(changed((File){"NDP", 0}, 3, version), 19); }

static void read_lent(int title, File file, Lengths l) {
    printf("case %d\n", title);
    fill_results();
    NdpPlan reply = plain_read(file.bytes, file.length, order, l.order, positions, l.positions, sizes, l.sizes, parents, l.parents, column_starts,
                               l.column_starts, rows, l.rows);
    print_results(reply, l, ALL);
}

/* A file read into buffers that are long enough for mesh 4. */
static void read_path(int title, File file) { read_lent(title, file, (Lengths){6, 6, 6, 6, 7, 6}); }

static void write_lent(int title, size_t unknowns, size_t n, size_t p, size_t s, List16 lent_order, List16 lent_sizes, List16 lent_parents,
                       List32 starts, List16 lent_rows, size_t room) {
    uint8_t bytes[MOST_BYTES];
    memset(bytes, FILL_BYTE, sizeof bytes);
    NdpWritten reply = plain_write(unknowns, n, p, s, lent_order.at, lent_order.length, lent_sizes.at, lent_sizes.length, lent_parents.at,
                                   lent_parents.length, starts.at, starts.length, lent_rows.at, lent_rows.length, bytes, room);
    printf("case %d\n", title);
    if (reply.refusal) printf("refused %u\n", reply.refusal);
    else printf("written %u\n", (unsigned)reply.length);
    for (size_t k = 0; k < room; k++) printf(" %u", bytes[k]);
    printf("\n");
}

/* Mesh 4's sizes and parents with so many unknowns for each node and these lists. */
static void write_unknowns(int title, size_t unknowns, List16 lent_order, List32 starts, List16 lent_rows, size_t room) {
    write_lent(title, unknowns, 5, 3, 5, lent_order, LIST16(2, 2, 1), LIST16(2, 2, NONE), starts, lent_rows, room);
}

/* With one unknown. */
static void write_path(int title, List16 lent_order, List32 starts, List16 lent_rows, size_t room) {
    write_unknowns(title, 1, lent_order, starts, lent_rows, room);
}

static void worked_files(void) {
    List16 whole = LIST16(0, 1, 2, 3, NONE, 2, 0, 0, 1, 2), apart = LIST16(0, 1, 1, NONE, 1, NONE, 1, 0, 1);
    write_path(4, LIST16(0, 1, 3, 4, 2), LIST32(0, 1, 2, 4, 5, 5), LIST16(1, 4, 3, 4, 4), 61);
    read_path(4, path_file());
    read_path(4, path_file_1());
    read_lent(10, resized(bare_file(2), 17), (Lengths){1, 1, 1, 1, 2, 1});
    read_lent(10, resized(bare_file(2), 16), (Lengths){1, 1, 1, 1, 2, 1});
    read_lent(11, file_2_of(3, 1, 2, whole), (Lengths){4, 4, 4, 4, 5, 3});
    read_lent(11, file_1_of(3, 1, 2, whole), (Lengths){4, 4, 4, 4, 5, 3});
    read_lent(12, file_2_of(2, 2, 1, apart), (Lengths){3, 3, 3, 3, 4, 2});
    read_lent(12, file_1_of(2, 2, 1, apart), (Lengths){3, 3, 3, 3, 4, 2});
}

/* Short buffers, then the order of the checks and sums that would be right if cut to two bytes. */
static void telling_files(void) {
    File f = path_file(), moved = changed(changed(f, 41, 2), 43, 0);
    read_lent(51, f, (Lengths){5, 4, 5, 5, 6, 5});
    read_lent(52, f, (Lengths){5, 5, 3, 5, 6, 5});
    read_lent(53, f, (Lengths){5, 5, 4, 5, 6, 4});
    read_lent(54, f, (Lengths){5, 5, 5, 5, 6, 4});
    read_path(55, resized(changed(f, 1, 0), 16));
    read_path(56, changed(changed(f, 1, 0), 3, 3));
    read_path(57, changed(changed(f, 3, 3), 7, 0));
    read_path(58, changed(f, 3, 3));
    read_path(59, changed(f, 9, 1));
    read_path(60, changed(f, 7, 0));
    read_path(61, resized(f, 60));
    read_path(61, resized(f, 62));
    read_path(62, changed(changed(f, 29, 65535), 33, 5));
    read_path(63, changed(changed(changed(changed(f, 45, 0), 47, 0), 41, 65535), 43, 6));
    read_path(64, changed(changed(f, 41, 2), 51, 3));
    read_path(65, changed(f, 51, 7));
    read_path(66, changed(moved, 53, 3));
    read_path(67, moved);
    read_path(68, changed(changed(f, 21, 0), 29, 0));
    read_path(69, changed(f, 35, 1));
}

/* Lists that are too short or longer than needed, wrong column starts, and little room. */
static void writings(void) {
    List16 path_order = LIST16(0, 1, 3, 4, 2), path_rows = LIST16(1, 4, 3, 4, 4);
    List32 path_starts = LIST32(0, 1, 2, 4, 5, 5);
    write_lent(71, 1, 1, 1, 0, LIST16(0), LIST16(1), LIST16(NONE), LIST32(0, 0), EMPTY16, 28);
    write_path(72, path_order, LIST32(0, 1, 2, 4, 5), path_rows, 61);
    write_path(73, path_order, path_starts, LIST16(1, 4, 3, 4), 61);
    write_path(74, LIST16(0, 1, 3, 4, 2, 0), LIST32(0, 1, 2, 4, 5, 5, 9), LIST16(1, 4, 3, 4, 4, 0), 63);
    write_path(75, path_order, LIST32(1, 1, 2, 4, 5, 5), path_rows, 61);
    write_path(76, path_order, LIST32(0, 1, 2, 4, 5, 6), path_rows, 61);
    write_path(77, path_order, LIST32(0, 2, 1, 4, 5, 5), path_rows, 61);
    write_path(78, path_order, path_starts, path_rows, 60);
    write_path(79, LIST16(0, 1, 3, 4, 4), path_starts, path_rows, 0);
}

/* ---- questions */

static void ask_pair(int title, size_t n, List32 starts, List16 lent_rows, size_t a, size_t b) {
    NdpSlot reply = plain_slot(n, starts.at, starts.length, lent_rows.at, lent_rows.length, a, b);
    printf("case %d\n", title);
    if (reply.refusal) printf("refused %u\n", reply.refusal);
    else if (reply.kind == NDP_SLOT) printf("slot %u\n", reply.slot);
    else printf("%s\n", reply.kind == NDP_DIAGONAL ? "diagonal" : "no slot");
}

/* The companion's number, and the rows. */
static void ask_column(int title, size_t n, List32 starts, List16 lent_rows, size_t j) {
    NdpRows reply = plain_rows(n, starts.at, starts.length, lent_rows.at, lent_rows.length, j);
    printf("case %d\n%u\n", title, reply.refusal);
    for (uint32_t k = 0; k < reply.count; k++) printf(" %u", lent_rows.at[reply.start + k]);
    printf("\n");
}

/* The layout of mesh 4: every kind of answer. */
static void answered_questions(void) {
    List32 starts = LIST32(0, 1, 2, 4, 5, 5);
    List16 path_rows = LIST16(1, 4, 3, 4, 4);
    ask_pair(81, 5, starts, path_rows, 0, 1);
    ask_pair(81, 5, starts, path_rows, 4, 2);
    ask_pair(81, 5, starts, path_rows, 4, 0);
    ask_pair(81, 5, starts, path_rows, 3, 3);
    for (size_t j = 1; j < 5; j++) ask_column(82, 5, starts, path_rows, j);
    ask_column(83, 5, starts, path_rows, 5);
    ask_pair(83, 5, starts, path_rows, 5, 5);
    ask_pair(83, 5, starts, path_rows, 0, 5);
    ask_pair(83, 5, starts, path_rows, 5, 0);
}

/* Layouts that are unsound, or look so. */
static void telling_questions(void) {
    List32 starts = LIST32(0, 1, 2, 4, 5, 5);
    List16 path_rows = LIST16(1, 4, 3, 4, 4);
    ask_pair(84, 5, LIST32(0, 1, 2, 4, 5, 5, 5), path_rows, 0, 1);
    ask_column(84, 5, LIST32(0, 1, 2, 4, 5, 5, 5), path_rows, 2);
    ask_pair(85, 5, starts, LIST16(1, 4, 3, 5, 4), 0, 1);
    ask_column(85, 5, starts, LIST16(1, 4, 3, 5, 4), 0);
    ask_pair(86, 5, starts, LIST16(2, 4, 3, 4, 4), 0, 2);
    ask_pair(87, 5, starts, LIST16(1, 4, 3, 4, 4, 0, 9, 0), 4, 3);
    ask_column(87, 5, starts, LIST16(1, 4, 3, 4, 4, 0, 9, 0), 3);
    ask_pair(88, 0, EMPTY32, EMPTY16, 0, 0);
    ask_pair(88, 4097, EMPTY32, EMPTY16, 0, 0);
    ask_column(88, 0, LIST32(0), EMPTY16, 0);
    ask_pair(89, 5, starts, LIST16(1, 4, 3, 4), 9, 9);
    ask_column(89, 5, LIST32(0, 1, 2, 4, 3, 5), path_rows, 9);
}

/* Numbers at both ends of each family, and just outside. */
static void families(void) {
    static const char *const names[] = {"none", "mesh", "file", "program", "question"};
    static const uint32_t numbers[] = {0, 1, 9, 10, 19, 20, 21, 22, 23, 27, 28};
    printf("case 91\n");
    for (size_t k = 0; k < sizeof numbers / sizeof *numbers; k++) printf("%u %s\n", numbers[k], names[plain_family(numbers[k])]);
}

/* ---- lists of 26 entries, the most that a node may have, and of 27 */

static void plan_star(int title, size_t leaves, size_t length, size_t slots) {
    Mesh mesh = mesh_of_star(leaves);
    plan_lists(title, mesh.nodes, mesh.starts, mesh.neighbours, length, slots);
}

/* 28 nodes of which the first has a list, and no other, planned into buffers that are too short. */
static void plan_first(int title, const uint16_t *list, uint32_t length) {
    uint32_t starts[29] = {0};
    for (size_t v = 1; v < 29; v++) starts[v] = length;
    plan_lists(title, 28, (List32){starts, 29}, (List16){list, length}, 2, 1);
}

/* 29 nodes of which the last has a list, and no other, planned likewise. */
static void plan_last(int title, const uint16_t *list, uint32_t length) {
    uint32_t starts[30] = {[29] = length};
    plan_lists(title, 29, (List32){starts, 30}, (List16){list, length}, 2, 1);
}

/* The list of a star's centre, and others that begin like it, as the first node's alone and as the last's: 26 comes after 4, 5 and 6, before 7, and
 * all of them before 8. */
static void lists_alone(void) {
    uint16_t ascending[27], skipping[27], swapped[27];
    for (uint16_t k = 0; k < 27; k++) ascending[k] = skipping[k] = swapped[k] = k + 1;
    skipping[26] = 28;
    swapped[0] = 2;
    swapped[1] = 1;
    plan_first(103, skipping, 27);
    plan_first(104, swapped, 27);
    plan_first(105, ascending, 27);
    plan_first(106, ascending, 26);
    plan_last(107, skipping, 27);
    plan_last(108, ascending, 27);
    plan_last(109, ascending, 26);
}

static void long_lists(void) {
    plan_star(101, 26, 28, 28);
    plan_star(102, 27, 29, 28);
    lists_alone();
    plan_star(110, 27, 2, 0);
    plan_star(111, 26, 2, 0);
    plan_star(112, 26, 27, 25);
}

/* ---- questions about slots */

static void ask_slot(int title, size_t n, List32 starts, List16 lent_rows, size_t slot) {
    NdpPair reply = plain_pair(n, starts.at, starts.length, lent_rows.at, lent_rows.length, slot);
    printf("case %d\n", title);
    if (reply.refusal) printf("refused %u\n", reply.refusal);
    else printf("pair %u %u\n", reply.row, reply.column);
}

/* The layout of mesh 4: every slot; numbers that are no slot's, some with a slot's number in their low 16 or 32 bits; and rows that are longer than
 * the last start. */
static void slots_of_path(void) {
    List32 starts = LIST32(0, 1, 2, 4, 5, 5);
    List16 path_rows = LIST16(1, 4, 3, 4, 4), longer = LIST16(1, 4, 3, 4, 4, 0, 9, 0);
    static const size_t none[] = {5, 6, 65536, 4294967295, 4294967296, 4294967300, SIZE_MAX}, lent[] = {4, 5, 7, 8};
    for (size_t slot = 0; slot < 5; slot++) ask_slot(121, 5, starts, path_rows, slot);
    for (size_t k = 0; k < sizeof none / sizeof *none; k++) ask_slot(122, 5, starts, path_rows, none[k]);
    for (size_t k = 0; k < sizeof lent / sizeof *lent; k++) ask_slot(123, 5, starts, longer, lent[k]);
}

/* Columns without rows, which share their start with the next: at the front, between others and at the end; and layouts without slots. */
static void slots_of_empty_columns(void) {
    for (size_t slot = 0; slot < 5; slot++) ask_slot(124, 8, LIST32(0, 0, 0, 2, 2, 2, 4, 4, 4), LIST16(3, 7, 6, 7), slot);
    ask_slot(124, 4, LIST32(0, 0, 0, 1, 1), LIST16(3), 0);
    ask_slot(124, 4, LIST32(0, 1, 1, 1, 1), LIST16(3), 0);
    ask_slot(125, 1, LIST32(0, 0), EMPTY16, 0);
    ask_slot(125, 3, LIST32(0, 0, 0, 0), LIST16(1, 2, 2), 0);
}

/* The numbers of nodes at both ends, and just outside. */
static void slots_at_limits(void) {
    static const uint32_t bare[NODES + 2], starts[NODES + 1] = {[NODES - 1] = 1, [NODES] = 1};
    ask_slot(126, 0, EMPTY32, EMPTY16, 0);
    ask_slot(126, 0, LIST32(0), EMPTY16, 0);
    ask_slot(126, 4097, EMPTY32, EMPTY16, 0);
    ask_slot(126, 4097, (List32){bare, 4098}, EMPTY16, 0);
    ask_slot(126, 4096, (List32){bare, 4097}, EMPTY16, 0);
    ask_slot(126, 4096, (List32){starts, 4097}, LIST16(4095), 0);
    ask_slot(126, 2, LIST32(0, 1, 1), LIST16(1), 0);
}

/* Unsound layouts, for mesh 4's nodes: with a number that is no slot's, and with one whose column and row are sound. */
static void slots_of_unsound(void) {
    List32 starts = LIST32(0, 1, 2, 4, 5, 5);
    List16 path_rows = LIST16(1, 4, 3, 4, 4);
    ask_slot(127, 5, LIST32(0, 1, 2, 4, 5, 5, 5), path_rows, 5);
    ask_slot(127, 5, LIST32(1, 1, 2, 4, 5, 5), path_rows, 5);
    ask_slot(127, 5, LIST32(0, 1, 2, 4, 3, 5), path_rows, 5);
    ask_slot(127, 5, starts, LIST16(1, 4, 3, 4), 5);
    ask_slot(127, 5, starts, LIST16(1, 4, 3, 5, 4), 5);
    ask_slot(127, 5, EMPTY32, EMPTY16, 0);
    ask_slot(128, 5, LIST32(0, 1, 2, 4, 5), path_rows, 0);
    ask_slot(128, 5, LIST32(0, 1, 2, 4, 5, 5, 5), path_rows, 0);
    ask_slot(128, 5, LIST32(1, 1, 2, 4, 5, 5), path_rows, 4);
    ask_slot(128, 5, LIST32(0, 2, 1, 4, 5, 5), path_rows, 4);
    ask_slot(128, 5, LIST32(0, 1, 2, 4, 3, 5), path_rows, 0);
    ask_slot(128, 5, starts, LIST16(1, 4, 3, 4), 0);
    ask_slot(128, 5, starts, LIST16(0, 4, 3, 4, 4), 4);
    ask_slot(128, 5, starts, LIST16(1, 4, 3, 4, 5), 0);
    ask_slot(128, 5, starts, LIST16(1, 4, 4, 3, 4), 0);
}

static void slots(void) {
    slots_of_path();
    slots_of_empty_columns();
    slots_at_limits();
    slots_of_unsound();
}

/* ---- rows that break 17, 18 or both */

/* Four nodes, each a part. The parents of parts 0, 1 and 2 are 2, 3 and 3, so part 1, which is not below part 2, stands between it and part 0, which
 * is. Columns 0, 1 and 2 have one row each, in the parent. The parents stand at 29, 33, 37 and 41, row counts at 43, rows at 51. */
static File branches_file(void) { return file_2_of(4, 4, 3, LIST16(3, 1, 0, 2, 1, 2, 1, 3, 1, 3, 1, NONE, 1, 1, 1, 0, 2, 3, 3)); }

/* The same parts with these lists. */
static void write_branches(int title, List16 lent_parents, List32 starts, List16 lent_rows) {
    write_lent(title, 1, 4, 4, 3, LIST16(3, 1, 0, 2), LIST16(1, 1, 1, 1), lent_parents, starts, lent_rows, 57);
}

/* A row of n or more, no fault, and a fault of 18 alone in the first column, the middle one and the last one that has a row. */
static void single_faults(void) {
    File f = branches_file();
    List16 joined = LIST16(2, 3, 3, NONE);
    List32 starts = LIST32(0, 1, 2, 3, 3);
    read_lent(131, file_2_of(2, 1, 1, LIST16(0, 1, 2, NONE, 1, 0, 7)), (Lengths){3, 3, 3, 3, 4, 2});
    write_lent(131, 1, 2, 1, 1, LIST16(0, 1), LIST16(2), LIST16(NONE), LIST32(0, 1, 1), LIST16(7), 33);
    read_path(132, f);
    write_branches(132, joined, starts, LIST16(2, 3, 3));
    read_path(133, changed(f, 51, 1));
    write_branches(133, joined, starts, LIST16(1, 3, 3));
    read_path(134, changed(f, 53, 2));
    write_branches(134, joined, starts, LIST16(2, 2, 3));
    read_path(135, changed(f, 37, NONE));
    write_branches(135, LIST16(2, 3, NONE, NONE), starts, LIST16(2, 3, 3));
}

/* 18 in column 0 and 17 behind it; 17 in column 0 and 18 behind it; both in column 0, and the same rows ascending. */
static void two_faults(void) {
    File f = branches_file(), first = changed(f, 51, 1), last = changed(f, 37, NONE), two = changed(changed(f, 43, 2), 47, 0);
    List16 joined = LIST16(2, 3, 3, NONE), apart = LIST16(2, 3, NONE, NONE);
    List32 starts = LIST32(0, 1, 2, 3, 3);
    read_path(136, changed(first, 55, 4));
    write_branches(136, joined, starts, LIST16(1, 3, 4));
    read_path(137, changed(changed(first, 47, 0), 49, 1));
    write_branches(137, joined, LIST32(0, 1, 2, 2, 3), LIST16(1, 3, 3));
    read_path(138, changed(last, 51, 0));
    write_branches(138, apart, starts, LIST16(0, 3, 3));
    read_path(139, changed(last, 51, 4));
    write_branches(139, apart, starts, LIST16(4, 3, 3));
    read_path(140, changed(two, 53, 1));
    write_branches(140, joined, LIST32(0, 2, 3, 3, 3), LIST16(2, 1, 3));
    read_path(141, changed(changed(two, 51, 1), 53, 2));
    write_branches(141, joined, LIST32(0, 2, 3, 3, 3), LIST16(1, 2, 3));
}

/* Mesh 4: 18 and then 17, 17 and then 18, 18 in two columns, and a row twice. */
static void faults_of_path(void) {
    File f = path_file();
    List16 path_order = LIST16(0, 1, 3, 4, 2);
    List32 starts = LIST32(0, 1, 2, 4, 5, 5);
    read_path(142, changed(changed(f, 51, 2), 59, 5));
    write_path(142, path_order, starts, LIST16(2, 4, 3, 4, 5), 61);
    read_path(143, changed(changed(f, 51, 5), 53, 3));
    write_path(143, path_order, starts, LIST16(5, 3, 3, 4, 4), 61);
    read_path(144, changed(changed(f, 51, 2), 53, 3));
    write_path(144, path_order, starts, LIST16(2, 3, 3, 4, 4), 61);
    read_path(145, changed(f, 57, 3));
    write_path(145, path_order, starts, LIST16(1, 4, 3, 3, 4), 61);
}

static void row_faults(void) {
    single_faults();
    two_faults();
    faults_of_path();
}

/* ---- the versions of the file, and the unknowns for each node */

/* The path of five nodes with so many unknowns each, planned into buffers of this length. */
static void plan_path(int title, size_t unknowns, size_t length) {
    Mesh mesh = mesh_of_edges(5, "01 12 23 34");
    plan_unknowns(title, unknowns, 5, mesh.starts, mesh.neighbours, length, 6);
}

/* The plan does not depend on the unknowns; 28 comes before 1 and 8, and is not fooled by low bits that would be right. */
static void planned_unknowns(void) {
    plan_path(151, 2, 6);
    plan_path(151, 6, 6);
    plan_path(152, 0, 6);
    plan_path(152, 7, 6);
    plan_path(152, 65537, 6);
    plan_path(152, 4294967297, 6);
    plan_path(153, 0, 4);
    plan_unknowns(153, 0, 0, LIST32(0), EMPTY16, 2, 1);
    plan_unknowns(153, 7, 4097, EMPTY32, EMPTY16, 2, 1);
    plan_unknowns(154, 6, 0, LIST32(0), EMPTY16, 2, 1);
}

/* 28 comes before 13, for wrong numbers and for short lists, and before 15 and 8. */
static void written_unknowns(void) {
    List16 path_order = LIST16(0, 1, 3, 4, 2), path_rows = LIST16(1, 4, 3, 4, 4);
    List32 starts = LIST32(0, 1, 2, 4, 5, 5);
    write_unknowns(155, 6, path_order, starts, path_rows, 63);
    write_unknowns(156, 0, path_order, starts, path_rows, 61);
    write_unknowns(156, 7, path_order, starts, path_rows, 61);
    write_unknowns(156, 65537, path_order, starts, path_rows, 61);
    write_unknowns(156, 4294967297, path_order, starts, path_rows, 61);
    write_lent(157, 0, 0, 0, 0, EMPTY16, EMPTY16, EMPTY16, EMPTY32, EMPTY16, 19);
    write_unknowns(157, 7, LIST16(0, 1, 3, 4), starts, path_rows, 61);
    write_unknowns(157, 7, LIST16(0, 1, 3, 4, 4), starts, path_rows, 60);
    write_lent(158, 6, 0, 0, 0, EMPTY16, EMPTY16, EMPTY16, EMPTY32, EMPTY16, 19);
    write_unknowns(158, 6, LIST16(0, 1, 3, 4), starts, path_rows, 61);
}

/* Files of version 2: numbers of unknowns; 28 comes before 13, 14 and 15. */
static void read_unknowns(void) {
    File f = path_file(), none = changed(f, 5, 0);
    read_path(161, changed(f, 5, 6));
    read_path(162, none);
    read_path(162, changed(f, 5, 7));
    read_path(162, changed(f, 5, 256));
    read_path(162, changed(f, 5, 65535));
    read_path(163, changed(none, 7, 0));
    read_path(163, resized(none, 60));
    read_path(163, changed(none, 21, 0));
}

/* Files of 16 to 19 bytes: 10 comes for the second time right after the version, before 28, and for version 2 only. */
static void short_files(void) {
    File f = path_file(), whole = changed(bare_file(2), 5, 1);
    read_path(164, resized(f, 16));
    read_path(164, resized(f, 17));
    read_path(164, resized(f, 18));
    read_path(164, resized(f, 19));
    read_path(165, resized(bare_file(2), 18));
    read_path(165, bare_file(2));
    read_path(165, whole);
    read_path(166, resized(changed(f, 1, 0), 17));
    read_path(166, resized(changed(f, 3, 3), 17));
    read_path(167, resized(bare_file(1), 17));
    read_path(167, resized(path_file_1(), 17));
}

/* Versions that are neither 1 nor 2, some with one of them in a byte; and the file of a version told to be of the other. */
static void other_versions(void) {
    File f = path_file(), older = path_file_1();
    read_path(171, changed(f, 3, 0));
    read_path(171, changed(f, 3, 3));
    read_path(171, changed(f, 3, 256));
    read_path(171, changed(f, 3, 258));
    read_path(171, changed(f, 3, 512));
    read_path(171, changed(older, 3, 0));
    read_path(171, changed(older, 3, 257));
    read_path(172, changed(f, 3, 1));
    read_path(172, changed(older, 3, 2));
}

/* Files of version 1, and lengths that are those of the other version. */
static void older_files(void) {
    File f = path_file_1();
    read_path(173, resized(f, 61));
    read_path(173, resized(path_file(), 59));
    read_path(174, changed(f, 5, 0));
    read_path(174, changed(f, 19, 0));
    read_path(174, changed(f, 27, 0));
    read_path(174, changed(f, 49, 5));
    read_path(174, changed(f, 49, 2));
    read_lent(175, f, (Lengths){5, 4, 5, 5, 6, 5});
    read_lent(175, f, (Lengths){5, 5, 5, 5, 6, 4});
}

static void versions(void) {
    planned_unknowns();
    written_unknowns();
    read_unknowns();
    short_files();
    other_versions();
    older_files();
}

int main(void) {
    worked_meshes();
    telling_meshes();
    worked_files();
    telling_files();
    writings();
    answered_questions();
    telling_questions();
    families();
    long_lists();
    slots();
    row_faults();
    versions();
    return 0;
}
