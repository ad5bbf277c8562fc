/* Reads a mesh from a Matrix Market text (its path is the argument, samples/foot.mtx if there is none), joins it with itself, plans it, writes the
 * plan to a file in memory, reads it back, and asks for a column, for a slot, and for that slot's row and column. */
#include "ndplan.h"
#include <stdio.h>

/* Room for every mesh and every plan, and for a text of some size. */
enum { NODES = NDP_MAX_NODES, ENTRIES = NDP_MAX_ENTRIES, SLOTS = NDP_MAX_SLOTS, BYTES = NDP_FILE_LENGTH(NODES, NODES, SLOTS), TEXT_BYTES = 1 << 22 };
/* The unknowns for each node; a sole that needs more gives another number, NDP_MAX_UNKNOWNS at most. */
enum { UNKNOWNS = 1 };
static uint8_t text[TEXT_BYTES], file[BYTES];
static uint32_t starts[NODES + 1], joined_starts[NODES + 1], column_starts[NODES + 1];
static uint16_t neighbours[ENTRIES], joined_neighbours[ENTRIES], nodes[NODES];
static uint16_t order[NODES], positions[NODES], sizes[NODES], parents[NODES], rows[SLOTS];

static int refused(uint32_t number) {
    printf("refused %u: %s\n", number, ndp_refusal_text(number));
    return 1;
}

/* The bytes of a text into `text`. A text that fills it may be longer, so it counts as unreadable; so does an empty one. */
static size_t load(const char *path) {
    FILE *in = fopen(path, "rb");
    size_t length = in ? fread(text, 1, TEXT_BYTES, in) : 0;
    if (in) fclose(in);
    return length < TEXT_BYTES ? length : 0;
}

/* Joins the mesh in the buffers with itself, each node paired with itself. Every entry is in both and merges, so the same mesh comes out. */
static int join_with_itself(NdpMesh mesh) {
    uint32_t n = mesh.nodes;
    for (uint32_t v = 0; v < n; v++) nodes[v] = (uint16_t)v;
    NdpMesh joined = ndp_join(n, starts, n + 1, neighbours, mesh.entries, n, starts, n + 1, neighbours, mesh.entries, nodes, n, nodes, n,
                              joined_starts, NODES + 1, joined_neighbours, ENTRIES);
    if (joined.refusal) return refused(joined.refusal);
    printf("joined with itself: %u nodes, %u neighbour entries\n", joined.nodes, joined.entries);
    return 0;
}

/* Reads the plan of so many bytes in `file`. */
static NdpPlan read_plan(size_t length) {
    return ndp_read(file, length, order, NODES, positions, NODES, sizes, NODES, parents, NODES, column_starts, NODES + 1, rows, SLOTS);
}

/* Writes the plan in the buffers to `file`, reads it back, and asks about it. Then shows what a file of a newer version gives. */
static int write_and_ask(NdpPlan plan) {
    uint32_t n = plan.nodes;
    NdpWritten written = ndp_write(plan.unknowns, n, plan.parts, plan.slots, order, NODES, sizes, NODES, parents, NODES, column_starts, NODES + 1,
                                   rows, SLOTS, file, BYTES);
    if (written.refusal) return refused(written.refusal);
    printf("written: %u bytes\n", (unsigned)written.length);

    NdpPlan read = read_plan(written.length);
    if (read.refusal) return refused(read.refusal);
    NdpSlot slot = ndp_slot(n, column_starts, n + 1, rows, SLOTS, 4, 1);
    if (slot.refusal) return refused(slot.refusal);
    NdpRows column = ndp_rows(n, column_starts, n + 1, rows, SLOTS, 1);
    if (column.refusal) return refused(column.refusal);
    printf("read: %u slots; rows of column 1:", read.slots);
    for (uint32_t k = 0; k < column.count; k++) printf(" %u", rows[column.start + k]);
    printf("; positions 4 and 1: %s %u\n", slot.kind == NDP_SLOT ? "slot" : slot.kind == NDP_DIAGONAL ? "diagonal" : "no slot", slot.slot);
    if (slot.kind == NDP_SLOT) {
        NdpPair pair = ndp_pair(n, column_starts, n + 1, rows, SLOTS, slot.slot);
        if (pair.refusal) return refused(pair.refusal);
        printf("slot %u: row %u, column %u\n", slot.slot, pair.row, pair.column);
    }

    file[3] = NDP_FILE_VERSION + 1; /* a version that this reader does not know */
    NdpPlan newer = read_plan(written.length);
    printf("version %u, family %u: ", file[3], ndp_family(newer.refusal));
    refused(newer.refusal);
    return newer.refusal == 12 ? 0 : 1;
}

int main(int count, char **arguments) {
    const char *path = count > 1 ? arguments[1] : "samples/foot.mtx";
    size_t length = load(path);
    if (length == 0) {
        printf("%s: no text of 1 to %d bytes\n", path, TEXT_BYTES - 1);
        return 1;
    }
    NdpMesh mesh = ndp_matrix_market(text, length, starts, NODES + 1, neighbours, ENTRIES);
    if (mesh.refusal) return refused(mesh.refusal);
    printf("text: %u nodes, %u neighbour entries\n", mesh.nodes, mesh.entries);
    if (join_with_itself(mesh)) return 1;

    uint32_t n = mesh.nodes;
    NdpPlan plan = ndp_plan(UNKNOWNS, n, starts, n + 1, neighbours, mesh.entries, order, NODES, positions, NODES, sizes, NODES, parents, NODES,
                            column_starts, NODES + 1, rows, SLOTS);
    if (plan.refusal) return refused(plan.refusal);
    printf("planned: %u nodes, %u parts, %u slots, order", plan.nodes, plan.parts, plan.slots);
    for (uint32_t i = 0; i < n && i < 10; i++) printf(" %u", order[i]);
    printf("%s\n", n > 10 ? " .." : "");
    return write_and_ask(plan);
}
