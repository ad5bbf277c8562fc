/* Writes the input of the program `listing_cases` (`stored_listing input`), or what it has to print (`stored_listing output`): the listing of each
 * case, planned by the plain C program of bench/. */
#include "lists.h"
#include "plain.h"
#include <stdio.h>
#include <string.h>

enum { MOST_ENTRIES = 2048, MOST_BYTES = 8192, MOST_CASES = 32, MOST_SLOTS = MOST_NODES * (MOST_NODES - 1) / 2 };

typedef struct {
    uint8_t bytes[MOST_BYTES];
    size_t length;
} Case;

static Case cases[MOST_CASES];
static size_t case_count;

/* ---- the cases */

static void put(Case *to, uint32_t x, size_t bytes) {
    for (size_t k = 0; k < bytes; k++) to->bytes[to->length++] = x >> 8 * k & 255;
}

/* A mesh as the listing program reads it. */
static Case *add(uint16_t n, List32 starts, List16 neighbours) {
    Case *added = &cases[case_count++];
    put(added, n, 2);
    for (size_t v = 0; v < starts.length; v++) put(added, starts.at[v], 4);
    for (size_t e = 0; e < neighbours.length; e++) put(added, neighbours.at[e], 2);
    return added;
}

static Case *add_mesh(Mesh mesh) { return add(mesh.nodes, mesh.starts, mesh.neighbours); }

static void add_bytes(const char *bytes, size_t length) {
    memcpy(cases[case_count].bytes, bytes, length);
    cases[case_count++].length = length;
}

/* Document 01's mesh 4, then an input for each check. */
static void add_refused(void) {
    static const uint16_t zeros[MOST_ENTRIES + 1];
    add_mesh(mesh_of_edges(5, "01 12 23 34"));
    add(0, LIST32(0), EMPTY16);                                          /* 1: no node */
    add(2, LIST32(0, 2, 1), LIST16(1, 0));                               /* 2: falling starts */
    add(2, LIST32(0, 1, 2), LIST16(1, 0, 0));                            /* 2: an entry more than the last start says */
    add_mesh(mesh_of_edges(5, "01 12 23 34"))->length -= 2;              /* 2: an entry less than the last start says */
    add(2, LIST32(0, 2, 2), LIST16(5, 0));                               /* 4 */
    add(2, LIST32(0, 1, 1), LIST16(0));                                  /* 5 */
    add(3, LIST32(0, 2, 3, 4), LIST16(2, 1, 0, 0));                      /* 6 */
    add(3, LIST32(0, 0, 0, MOST_ENTRIES), (List16){zeros, MOST_ENTRIES}); /* 6, before 26: so many entries are no 20 */
    add_mesh(mesh_of_star(27));                                          /* 26 */
    add(2, LIST32(0, 1, 1), LIST16(1));                                  /* 7 */
}

/* An input for each way to be cut short or over the size. */
static void add_refused_20(void) {
    static const uint16_t zeros[MOST_ENTRIES + 1];
    static const uint32_t starts[MOST_NODES + 2];
    add_bytes("", 0);                                                    /* no number */
    add_bytes("\5", 1);                                                  /* an incomplete number */
    add(0, EMPTY32, EMPTY16);                                            /* no start */
    add_mesh(mesh_of_edges(5, "01 12 23 34"))->length = 20;              /* an end before the last start */
    add_mesh(mesh_of_edges(5, "01 12 23 34"))->length -= 1;              /* an incomplete neighbour */
    add(MOST_NODES + 1, (List32){starts, MOST_NODES + 2}, EMPTY16);
    add(3, LIST32(0, 0, 0, 0), (List16){zeros, MOST_ENTRIES + 1});
}

static void add_accepted(void) {
    add_mesh(mesh_of_edges(1, ""));
    add_mesh(mesh_of_edges(2, ""));
    add_mesh(mesh_of_edges(4, "01 12 23 03"));
    add_mesh(mesh_of_edges(4, "01 02 03"));
    add_mesh(mesh_of_star(26));
    add_mesh(mesh_of_plate(16, 16));
}

/* ---- the listing */

/* The mesh in an input, and its plan. */
static uint32_t starts[MOST_NODES + 1], column_starts[MOST_NODES + 1];
static uint16_t neighbours[MOST_ENTRIES], order[MOST_NODES], positions[MOST_NODES], sizes[MOST_NODES], parents[MOST_NODES], rows[MOST_SLOTS];

static uint32_t number_at(const Case *input, size_t at, size_t bytes) {
    uint32_t x = 0;
    for (size_t k = 0; k < bytes; k++) x |= (uint32_t)input->bytes[at + k] << 8 * k;
    return x;
}

/* Plans the mesh in an input with one unknown for each node, or refuses it with 20. */
static NdpPlan plan_input(const Case *input) {
    NdpPlan refused = {.refusal = 20};
    if (input->length < 2) return refused;
    size_t n = number_at(input, 0, 2), end = 2 + 4 * (n + 1);
    if (n > MOST_NODES || input->length < end || (input->length - end) % 2 || (input->length - end) / 2 > MOST_ENTRIES) return refused;
    size_t entries = (input->length - end) / 2;
    for (size_t v = 0; v <= n; v++) starts[v] = number_at(input, 2 + 4 * v, 4);
    for (size_t e = 0; e < entries; e++) neighbours[e] = number_at(input, end + 2 * e, 2);
    return plain_plan(1, n, starts, n + 1, neighbours, entries, order, MOST_NODES, positions, MOST_NODES, sizes, MOST_NODES, parents, MOST_NODES,
                      column_starts, MOST_NODES + 1, rows, MOST_SLOTS);
}

/* The counts, then a line for each position: position, node, part, rows. */
static void print_listing(const Case *input) {
    NdpPlan plan = plan_input(input);
    if (plan.refusal) { printf("refused %u\n", plan.refusal); return; }
    printf("nodes %u parts %u slots %u\n", plan.nodes, plan.parts, plan.slots);
    size_t part = 0, part_end = sizes[0];
    for (size_t j = 0; j < plan.nodes; j++) {
        if (j == part_end) part_end += sizes[++part];
        printf("%zu %u %zu", j, order[j], part);
        for (uint32_t k = column_starts[j]; k < column_starts[j + 1]; k++) printf(" %u", rows[k]);
        printf("\n");
    }
}

/* A case in the input: its length in two bytes, then its bytes. */
static void write_input(const Case *input) {
    Case length = {.length = 0};
    put(&length, input->length, 2);
    fwrite(length.bytes, 1, length.length, stdout);
    fwrite(input->bytes, 1, input->length, stdout);
}

int main(int count, char **words) {
    if (count != 2 || (strcmp(words[1], "input") && strcmp(words[1], "output"))) { fprintf(stderr, "stored_listing input|output\n"); return 2; }
    add_refused();
    add_refused_20();
    add_accepted();
    for (size_t k = 0; k < case_count; k++) (words[1][0] == 'i' ? write_input : print_listing)(&cases[k]);
    return 0;
}
