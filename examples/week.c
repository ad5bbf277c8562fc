/* From a mesh to pressures, with every piece of both libraries: a clinic reads the mesh of a foot, plans it and writes the plan's file; a workshop
 * opens the file, fills the plan with stiffnesses, factors, solves for a load, and looks how well the solution fits. The stiffnesses and the load are
 * made up.
 *
 * In the repository's root, after `tools/staticlib ndplan` and `tools/staticlib ndfactor`:
 *   gcc -Iinclude examples/week.c target/staticlib/libndfactor.a target/staticlib/libndplan.a -lm -o target/week && target/week
 * Another mesh: its Matrix Market text's path as the argument. bindings/rust/examples/week.rs is the same in Rust, and prints the same. */
#include "ndfactor.h"
#include <math.h>
#include <stdio.h>
#include <stdlib.h>

/* Room for every mesh and every plan, and for a text of some size. */
enum { NODES = NDP_MAX_NODES, ENTRIES = NDP_MAX_ENTRIES, SLOTS = NDP_MAX_SLOTS, BYTES = NDP_FILE_LENGTH(NODES, NODES, SLOTS), TEXT_BYTES = 1 << 22 };
/* Factoring takes one unknown for each node. */
enum { UNKNOWNS = 1 };

/* The mesh, which both have. */
static uint32_t n, starts[NODES + 1];
static uint16_t neighbours[ENTRIES];

/* A plan's lists. The clinic and the workshop have some each: only the file goes from one to the other. */
typedef struct {
    NdpPlan counts;
    uint16_t order[NODES], positions[NODES], sizes[NODES], parents[NODES], rows[SLOTS];
    uint32_t column_starts[NODES + 1];
} Lists;
static Lists clinic, workshop;
static uint8_t file[BYTES];

/* The matrix and then its factor, by position and by slot; all zeros at first. The load and then the solution, by position. */
static double diagonal[NODES], values[SLOTS], vector[NODES];

/* Ends the program where a reply has a refusal's number. */
static void check(const char *call, uint32_t refusal) {
    if (!refusal) return;
    printf("%s refused %u: %s\n", call, refusal, ndp_refusal_text(refusal));
    exit(1);
}

/* ---- the matrix and the load, by node */

/* The stiffness of the edge between nodes v and w: 1 to 3. */
static double stiffness(size_t v, size_t w) { return 1 + (v + w) % 5 / 2.0; }

/* The foundation below every node, without which the foot could move as a whole. */
static const double foundation = 0.125;

/* Node v's entry of the diagonal: its foundation and all its edges. */
static double own_stiffness(size_t v) {
    double sum = foundation;
    for (uint32_t e = starts[v]; e < starts[v + 1]; e++) sum += stiffness(v, neighbours[e]);
    return sum;
}

/* The load on node v: a step's weight, more of it on some nodes than on others. */
static double load(size_t v) { return 1 + v % 7 / 4.0; }

/* ---- the clinic */

static void read_mesh(const char *path) {
    static uint8_t text[TEXT_BYTES];
    FILE *in = fopen(path, "rb");
    size_t length = in ? fread(text, 1, TEXT_BYTES, in) : 0;
    if (in) fclose(in);
    if (length == 0 || length == TEXT_BYTES) {
        printf("%s: no text of 1 to %d bytes\n", path, TEXT_BYTES - 1);
        exit(1);
    }
    NdpMesh mesh = ndp_matrix_market(text, length, starts, NODES + 1, neighbours, ENTRIES);
    check("reading the text", mesh.refusal);
    n = mesh.nodes;
}

static void plan_mesh(Lists *l) {
    l->counts = ndp_plan(UNKNOWNS, n, starts, n + 1, neighbours, starts[n], l->order, NODES, l->positions, NODES, l->sizes, NODES, l->parents, NODES,
                         l->column_starts, NODES + 1, l->rows, SLOTS);
    check("planning", l->counts.refusal);
}

/* Gives the file's length in bytes. */
static size_t write_plan(const Lists *l) {
    NdpPlan c = l->counts;
    NdpWritten written = ndp_write(c.unknowns, c.nodes, c.parts, c.slots, l->order, NODES, l->sizes, NODES, l->parents, NODES, l->column_starts,
                                   NODES + 1, l->rows, SLOTS, file, BYTES);
    check("writing", written.refusal);
    return written.length;
}

/* ---- the workshop */

static void open_plan(Lists *l, size_t length) {
    l->counts = ndp_read(file, length, l->order, NODES, l->positions, NODES, l->sizes, NODES, l->parents, NODES, l->column_starts, NODES + 1,
                         l->rows, SLOTS);
    check("opening the plan", l->counts.refusal);
}

/* The slot of the edge between nodes v and w. A plan that has none for it is of another mesh. */
static uint32_t slot_of_edge(const Lists *l, size_t v, size_t w) {
    NdpSlot slot = ndp_slot(n, l->column_starts, n + 1, l->rows, SLOTS, l->positions[v], l->positions[w]);
    check("asking for a slot", slot.refusal);
    if (slot.kind == NDP_SLOT) return slot.slot;
    printf("nodes %zu and %zu have no slot\n", v, w);
    exit(1);
}

/* Fills the plan: stiffnesses go where the plan has their nodes. Slots of pairs that are no edges stay 0. */
static void fill(const Lists *l) {
    for (size_t v = 0; v < n; v++) {
        diagonal[l->positions[v]] = own_stiffness(v);
        for (uint32_t e = starts[v]; e < starts[v + 1]; e++) {
            size_t w = neighbours[e];
            if (v < w) values[slot_of_edge(l, v, w)] = -stiffness(v, w);
        }
    }
}

static NdfReport factor(const Lists *l) {
    NdpPlan c = l->counts;
    NdfReport report = ndf_factor(c.unknowns, c.nodes, c.parts, c.slots, l->order, NODES, l->sizes, NODES, l->parents, NODES, l->column_starts,
                                  NODES + 1, l->rows, SLOTS, diagonal, c.nodes, values, c.slots);
    check("factoring", report.refusal);
    return report;
}

/* Puts the load into the vector, by position, and solves. */
static void solve(const Lists *l) {
    NdpPlan c = l->counts;
    for (size_t v = 0; v < n; v++) vector[l->positions[v]] = load(v);
    check("solving", ndf_solve(c.unknowns, c.nodes, c.parts, c.slots, l->order, NODES, l->sizes, NODES, l->parents, NODES, l->column_starts,
                               NODES + 1, l->rows, SLOTS, diagonal, c.nodes, values, c.slots, vector, c.nodes));
}

/* The largest difference, over the nodes, between the load and what the solution makes of the matrix, which is computed from the mesh once more. */
static double residual(const Lists *l) {
    double most = 0;
    for (size_t v = 0; v < n; v++) {
        double rest = load(v) - own_stiffness(v) * vector[l->positions[v]];
        for (uint32_t e = starts[v]; e < starts[v + 1]; e++) rest += stiffness(v, neighbours[e]) * vector[l->positions[neighbours[e]]];
        if (!(fabs(rest) <= most)) most = fabs(rest);
    }
    return most;
}

/* What the factor holds at a pair of positions, as a display shows it. */
static void show(const Lists *l, size_t a, size_t b) {
    NdfHeld held = ndf_held(n, l->column_starts, n + 1, l->rows, SLOTS, diagonal, n, values, l->counts.slots, a, b);
    check("reading the factor", held.refusal);
    printf("the factor at positions %zu and %zu: ", a, b);
    if (held.kind == NDF_NUMBER) printf("%.6f\n", held.value);
    else printf("no slot\n");
}

int main(int count, char **arguments) {
    read_mesh(count > 1 ? arguments[1] : "samples/foot.mtx");
    plan_mesh(&clinic);
    size_t length = write_plan(&clinic);
    printf("planned: %u nodes, %u slots, %llu multiplications\n", n, clinic.counts.slots, (unsigned long long)clinic.counts.multiplications);
    printf("file: %zu bytes\n", length);

    open_plan(&workshop, length);
    fill(&workshop);
    NdfReport report = factor(&workshop);
    printf("pivots: %.6f to %.6f\n", report.smallest, report.largest);
    show(&workshop, n - 1, n - 1);
    show(&workshop, 0, n - 1);
    solve(&workshop);
    printf("residual: %.1e\n", residual(&workshop));
    return 0;
}
