/* The planner's C interface, in libndplan.a (`tools/staticlib ndplan`, for x86-64). It cuts a mesh into parts by nested dissection, numbers the nodes
 * in the order of their elimination, lays out the triangular factor slot by slot, and writes and reads plan files. It also reads a mesh from a
 * Matrix Market text, and joins two meshes into one.
 *
 * THE MESH has n nodes, 0 to n - 1, with n from 1 to NDP_MAX_NODES. `starts` has n + 1 entries: starts[0] is 0, they never fall, and starts[n] is
 * the length of `neighbours`, at most NDP_MAX_ENTRIES. The neighbours of node v are neighbours[starts[v]] up to, not including,
 * neighbours[starts[v + 1]]. They ascend strictly and never hold v itself, and w is a neighbour of v exactly when v is one of w. A node has at most
 * NDP_MAX_NEIGHBOURS neighbours, and may have none.
 *
 * THE PLAN of n nodes, p parts and s slots stands at the front of six buffers; p is 1 to n, and s is n (n - 1) / 2 at most. Positions, rows and
 * columns are places in the order of elimination, 0 to n - 1, and not numbers of nodes. The plan also carries the number of unknowns for each node, 1
 * to NDP_MAX_UNKNOWNS; order, slots and multiplications do not depend on it, since the layout is that of nodes.
 *   order          n entries      order[i] is the node at position i.
 *   positions      n entries      positions[v] is the position of node v.
 *   sizes          p entries      sizes[q] is the number of nodes of part q, at least 1; together they are n. Parts take the positions in turn:
 *                                 those of part q are the sizes[q] positions from sizes[0] + .. + sizes[q - 1] on.
 *   parents        p entries      parents[q] is the part whose cut left the region of part q, a later part: above q and below p. It is
 *                                 NDP_NO_PARENT where there is none. A part's ancestors are its parent and its parent's ancestors.
 *   column_starts  n + 1 entries  column_starts[0] is 0, they never fall, and column_starts[n] is s, the number of all slots.
 *   rows           s entries      the rows of column j are rows[column_starts[j]] up to, not including, rows[column_starts[j + 1]]: strictly
 *                                 ascending, above j and below n.
 * Slots are numbered from 0, column after column: slot k is the factor's entry in row rows[k] of the column j with column_starts[j] <= k and
 * k < column_starts[j + 1]; ndp_pair finds the two. The diagonal has no slot; every other entry without one is zero in the factor. The stiffness
 * between two nodes v and w goes to the slot of positions[v] and positions[w], in the column of the smaller. So with one unknown for each node
 * a solver keeps s numbers for the slots and n for the diagonal.
 *
 * THE FILE, little-endian: bytes 0 to 2 are the letters NDP, 3 and 4 the version. Version 1 is for one unknown for each node, which is not written:
 * bytes 5 to 8 are n, 9 to 12 p, 13 to 16 s. In version 2 bytes 5 and 6 are the unknowns for each node, and everything after stands two bytes
 * further on: 7 to 10 are n, 11 to 14 p, 15 to 18 s. Numbers of 2 bytes follow in both: the order, n of them; a size and a parent for each of the p
 * parts; the number of rows for each of the n columns; the s rows. This library reads versions 1 and 2 and writes version 2 only: a version 2 file
 * that was read is written back byte for byte, a version 1 file as the version 2 file of the same plan. A library that knows version 1 only answers
 * 12 to every version 2 file of 17 bytes or more.
 *
 * THE TEXT is a Matrix Market text of the coordinate pattern symmetric kind. Its first line is %%MatrixMarket matrix coordinate pattern symmetric,
 * the five words in any letter case. Lines that begin with % may follow. Then comes the size line: rows, columns, which are as many, and pairs; then
 * the pairs, one to a line: a row number and a column number, counted from 1, the row number at least the column number. A line ends at a line feed,
 * with or without a carriage return directly before it, or at the text's end. Words are separated by spaces or tabs, which may also stand at a line's
 * ends; lines after the first that hold nothing else are skipped. Numbers are digits only, leading zeros allowed, and 4294967295 at most. Row r and
 * column c make nodes r - 1 and c - 1 neighbours. Pairs come in any order, each once; a diagonal one, r = c, counts as a pair and gives no neighbour.
 *
 * THE JOINED MESH is made of two meshes, of n1 and n2 nodes, and a list of pairs, a node of the first with a node of the second: `first` and `second`
 * are equally long, and pair k is node first[k] of the first mesh and node second[k] of the second. A node of either mesh is in one pair at most;
 * there may be no pair at all. The first mesh keeps its node numbers, a paired node of the second gets its partner's, and the unpaired nodes of the
 * second follow in their order, from n1 on. Two nodes of the joined mesh are neighbours exactly when, in either mesh, the nodes they come from were:
 * an edge that both meshes have is there once. So along k pairs it has n1 + n2 - k nodes, and at most as many entries as the two together.
 *
 * THE CALLS. A buffer is a pointer and a length in entries. The caller sees to it that a pointer is valid for its length and aligned as its type
 * asks, that it is null only where the length is 0, and that no buffer that is written overlaps another. Beyond that every function takes every
 * number and every content of its buffers, and ends. Where it refuses, the reply's other fields are 0 and every buffer is as it was; where it
 * accepts, entries past those used are as they were. Nothing is allocated and there is no static state: threads may call at once, each with result
 * buffers of its own. ndp_matrix_market needs less than 320 KB of stack, ndp_plan less than 168 KB, ndp_read less than 112 KB, every other function
 * less than 80 KB.
 *
 * REFUSALS. A reply has the number of the first check that fails, or 0; ndp_refusal_text, at the end, says what each number means. Planning checks
 * 28, 1 to 6, 26, then 7 to 9, reading 10 to 12, 10 for the length that version 2 needs, 28, 13 to 19, then 8 and 9, writing 28, 13, 15 to 19, then
 * 8, a question 1, 22, then 21 where it names positions and 27 where it names a slot, reading a text 23 to 25, 1, 3, 26, then 8, joining 1 to 6, 26
 * and 7 of the first mesh, the same of the second, 32, 33, 1, 3 and 26 of the joined mesh, then 8, in this order. Each check covers the whole input,
 * in joining the whole mesh that it is about, before the next begins. */
#ifndef NDPLAN_H
#define NDPLAN_H
#include <stddef.h>
#include <stdint.h>

#ifdef __cplusplus
extern "C" {
#endif

/* The most nodes and neighbour entries of a mesh, the most neighbours of a node, the most unknowns for each node and slots of a plan, and the parent
 * of a part that has none. */
#define NDP_MAX_NODES 4096
#define NDP_MAX_ENTRIES 65536
#define NDP_MAX_NEIGHBOURS 26
#define NDP_MAX_UNKNOWNS 6
#define NDP_MAX_SLOTS 8386560
#define NDP_NO_PARENT 65535

/* The version of the files that are written, the bytes before such a file's order, and the bytes of a whole one. A version 1 file, which is read too,
 * is 2 bytes shorter. */
#define NDP_FILE_VERSION 2
#define NDP_FILE_HEADER 19
#define NDP_FILE_LENGTH(n, p, s) (NDP_FILE_HEADER + 4 * (size_t)(n) + 4 * (size_t)(p) + 2 * (size_t)(s))

/* Planning and reading: n, p and s, the unknowns for each node, and the multiplications of a factorization: the sum over the columns of
 * c (c + 3) / 2, c being the number of the column's rows. */
typedef struct {
    uint32_t refusal, nodes, parts, slots, unknowns;
    uint64_t multiplications;
} NdpPlan;

/* Writing: the length of the file in bytes. */
typedef struct {
    uint32_t refusal;
    uint64_t length;
} NdpWritten;

/* The slot of a pair of positions. `slot` is 0 where `kind` is not NDP_SLOT. */
enum { NDP_SLOT = 1, NDP_DIAGONAL = 2, NDP_NO_SLOT = 3 };
typedef struct {
    uint32_t refusal, kind, slot;
} NdpSlot;

/* Where the rows of a column stand in `rows`. */
typedef struct {
    uint32_t refusal, start, count;
} NdpRows;

/* The row and the column of a slot. */
typedef struct {
    uint32_t refusal, row, column;
} NdpPair;

/* Reading a text and joining: the nodes n of the mesh that was made, and its neighbour entries. A text gives two for each pair that is not
 * diagonal. */
typedef struct {
    uint32_t refusal, nodes, entries;
} NdpMesh;

/* Plans a mesh of n nodes with so many unknowns each. `order`, `positions`, `sizes` and `parents` need room for n entries each, though only p of the
 * sizes and parents are written, `column_starts` for n + 1, and `rows` for as many as there are slots; n (n - 1) / 2 always suffice, and a refusal 9
 * does not tell how many are needed. In the plan of a mesh the nodes of a part that is no part's parent are all neighbours of one another.
 * Refuses with 28, 1 to 6, 26, and 7 to 9. */
NdpPlan ndp_plan(size_t unknowns, size_t n, const uint32_t *starts, size_t starts_length, const uint16_t *neighbours, size_t neighbours_length,
                 uint16_t *order, size_t order_length, uint16_t *positions, size_t positions_length, uint16_t *sizes, size_t sizes_length,
                 uint16_t *parents, size_t parents_length, uint32_t *column_starts, size_t column_starts_length, uint16_t *rows, size_t rows_length);

/* Reads a plan file of version 1 or 2 into buffers such as ndp_plan's. The file is `file_length` bytes long: bytes behind the plan are refused. Room
 * for NDP_MAX_NODES and NDP_MAX_SLOTS always suffices. A version 1 file is read as a plan of one unknown for each node. Refuses with 10 to 12, 28,
 * 13 to 19, 8 and 9. */
NdpPlan ndp_read(const uint8_t *file, size_t file_length, uint16_t *order, size_t order_length, uint16_t *positions, size_t positions_length,
                 uint16_t *sizes, size_t sizes_length, uint16_t *parents, size_t parents_length, uint32_t *column_starts, size_t column_starts_length,
                 uint16_t *rows, size_t rows_length);

/* Writes the plan of n nodes with so many unknowns each, p parts and s slots to the front of `file`, NDP_FILE_LENGTH(n, p, s) bytes, in version
 * NDP_FILE_VERSION. `order` has n entries, `sizes` and `parents` p each, `column_starts` n + 1 and `rows` s; they may be longer.
 * Refuses with 28, 13, 15 to 19, and 8 where `file` is too short. */
NdpWritten ndp_write(size_t unknowns, size_t n, size_t p, size_t s, const uint16_t *order, size_t order_length, const uint16_t *sizes,
                     size_t sizes_length, const uint16_t *parents, size_t parents_length, const uint32_t *column_starts, size_t column_starts_length,
                     const uint16_t *rows, size_t rows_length, uint8_t *file, size_t file_length);

/* The slot of positions a and b, in either order. `column_starts_length` is n + 1, and no more; `rows` may be longer than the slots.
 * Refuses with 1, 22 and 21. It looks at the whole layout each time, as ndp_rows does. */
NdpSlot ndp_slot(size_t n, const uint32_t *column_starts, size_t column_starts_length, const uint16_t *rows, size_t rows_length, size_t a, size_t b);

/* The rows of column j: rows[start] up to, not including, rows[start + count]. The lengths are as in ndp_slot. Refuses with 1, 22 and 21. */
NdpRows ndp_rows(size_t n, const uint32_t *column_starts, size_t column_starts_length, const uint16_t *rows, size_t rows_length, size_t j);

/* The row and the column of a slot: the row is the later position, and ndp_slot of the two gives the slot again. The lengths are as in ndp_slot, and
 * the slots are numbered from 0 up to, not including, column_starts[n], whatever the length of `rows`.
 * Refuses with 1, 22 and 27. It looks at the whole layout each time, as ndp_slot does. */
NdpPair ndp_pair(size_t n, const uint32_t *column_starts, size_t column_starts_length, const uint16_t *rows, size_t rows_length, size_t slot);

/* Reads the mesh of a Matrix Market text of `text_length` bytes: n + 1 entries go to the front of `starts`, as many as the reply says to the front of
 * `neighbours`. NDP_MAX_NODES + 1 and NDP_MAX_ENTRIES always suffice. The lists are those of the pairs, whatever order these came in, and what is
 * accepted here passes ndp_plan's checks 1 to 7 and 26. Refuses with 23, 24, 25, 1, 3, 26, and 8 where either buffer is too short. */
NdpMesh ndp_matrix_market(const uint8_t *text, size_t text_length, uint32_t *starts, size_t starts_length, uint16_t *neighbours,
                          size_t neighbours_length);

/* Joins two meshes of n1 and n2 nodes along pairs: n + 1 entries go to the front of `starts`, as many as the reply says to the front of `neighbours`,
 * n being n1 + n2 less the number of pairs. NDP_MAX_NODES + 1 and NDP_MAX_ENTRIES always suffice; so do n1 + n2 + 1 starts, and as many neighbours as
 * both meshes have entries. The two may be one mesh, lent twice. What is accepted here passes ndp_plan's checks 1 to 7 and 26.
 * Refuses with 1 to 6, 26 and 7 for the first mesh, then for the second, and does not tell for which; with 32 and 33 for the pairs; with 1 where the
 * joined mesh has more than NDP_MAX_NODES nodes, 3 and 26 where it has too many entries or too long a list, counted after equal entries have merged;
 * and with 8 where either buffer is too short. */
NdpMesh ndp_join(size_t n1, const uint32_t *starts1, size_t starts1_length, const uint16_t *neighbours1, size_t neighbours1_length, size_t n2,
                 const uint32_t *starts2, size_t starts2_length, const uint16_t *neighbours2, size_t neighbours2_length, const uint16_t *first,
                 size_t first_length, const uint16_t *second, size_t second_length, uint32_t *starts, size_t starts_length, uint16_t *neighbours,
                 size_t neighbours_length);

/* What a refusal's number is about: a mesh 1 to 9, a file 10 to 19, the listing program 20, a question 21 and 22, and none of these any other. */
enum { NDP_NONE = 0, NDP_MESH = 1, NDP_FILE = 2, NDP_PROGRAM = 3, NDP_QUESTION = 4 };
uint32_t ndp_family(uint32_t number);

/* What a refusal's number means. 8 is about the five other results of planning and reading, about the writer's file, or about the starts and
 * neighbours of a text's mesh or a joined one. In joining 1, 3 and 26 are about one of the two meshes or about the joined one. In 17 the column
 * starts fit where they begin at 0, never fall and end at s; in 22 where they are n + 1 exactly, begin at 0, never fall and end at the length of
 * `rows` or below. 20 comes from the listing program only, 29 to 31 from the second library (ndfactor.h), where 13 is about the plan's lists as it is
 * in writing. */
static inline const char *ndp_refusal_text(uint32_t number) {
    static const char *const texts[] = {
        /*  0 */ "accepted",
        /*  1 */ "the number of nodes is not 1 to 4096",
        /*  2 */ "there is not one start more than nodes, or the starts do not begin at 0, fall, or do not end at the number of neighbour entries",
        /*  3 */ "there are more than 65536 neighbour entries",
        /*  4 */ "a neighbour is not below the number of nodes",
        /*  5 */ "a node lists itself as a neighbour",
        /*  6 */ "a node's neighbours are not strictly ascending",
        /*  7 */ "an edge is listed by one of its two nodes only",
        /*  8 */ "a result buffer other than the rows is too short",
        /*  9 */ "the rows buffer is shorter than the slots",
        /* 10 */ "the file has fewer than 17 bytes, or fewer than 19 in version 2",
        /* 11 */ "the file does not begin with the letters NDP",
        /* 12 */ "the file's version is neither 1 nor 2",
        /* 13 */ "the nodes n are not 1 to 4096, the parts not 1 to n, the slots above n(n - 1)/2, or a list to be written is too short for these",
        /* 14 */ "the file's length is not 17 + 4 nodes + 4 parts + 2 slots in version 1, or 19 + 4 nodes + 4 parts + 2 slots in version 2",
        /* 15 */ "the order does not hold each node once",
        /* 16 */ "a part's size is 0, the sizes do not sum to the nodes, or a parent is neither 65535 (none) nor the number of a later part",
        /* 17 */ "the column starts or row counts do not fit the slots, or a column's rows are not strictly ascending, above it and below the nodes",
        /* 18 */ "a row lies outside its column's part and the ancestors of that part",
        /* 19 */ "a column's rows after its first are not all rows of the first row's column",
        /* 20 */ "the input of the listing program is cut short or over its size",
        /* 21 */ "a position is not below the number of nodes",
        /* 22 */ "the column starts do not fit the nodes and the rows, or a column's rows are not strictly ascending, above it and below the nodes",
        /* 23 */ "the text is not of the coordinate pattern symmetric kind, a number is beyond 32 bits, or the pairs are not as many as stated",
        /* 24 */ "the matrix is not square, an index is outside it, or a row number is less than its column's",
        /* 25 */ "a pair is given again, diagonal ones too",
        /* 26 */ "a list is longer than 26 entries",
        /* 27 */ "a slot number is not below the number of slots",
        /* 28 */ "the number of unknowns for each node is not 1 to 6",
        /* 29 */ "there is more than one unknown for each node",
        /* 30 */ "the diagonal's values or the vector's are not as many as the nodes, or the slots' values not as many as the slots",
        /* 31 */ "a pivot is not both finite and above zero",
        /* 32 */ "the pairs' two lists differ in length, or a pair names a node that does not exist",
        /* 33 */ "a node of either mesh is paired twice",
    };
    return number < sizeof texts / sizeof *texts ? texts[number] : "unknown refusal";
}

#ifdef __cplusplus
}
#endif
#endif
