/* Runs the proved libraries and the plain C program on the same meshes and texts, compares all their results, times both, and prints the table of
 * docs/PERFORMANCE.md. */
#define _POSIX_C_SOURCE 199309L
#include "plain.h"
#include "seams.h"
#include "texts.h"
#include <math.h>
#include <stdio.h>
#include <string.h>
#include <time.h>

enum { NODES = NDP_MAX_NODES, ENTRIES = NDP_MAX_ENTRIES, SLOTS = NDP_MAX_SLOTS, FILE_BYTES = NDP_FILE_LENGTH(NODES, NODES, SLOTS) };
/* The unknowns for each node in every plan; no time depends on them. */
enum { UNKNOWNS = NDP_MAX_UNKNOWNS };
/* Every slice has GUARD entries more than the largest plan or mesh needs, and before a comparison every byte is FILL. */
enum { GUARD = 8, FILL = 0xA5 };
/* Questions for one timing, so that small layouts take long enough for the clock. */
enum { QUESTIONS = 16 };
/* A mesh is timed for SECONDS, in MOST_ROUNDS of all its operations at most. In a round each operation has TURNS calls, by the programs in
 * turn. */
enum { TURNS = 6, MOST_ROUNDS = 500 };
static const double SECONDS = 1.2;

/* What one program writes to. The values are lent in exact length; what stands behind them is looked at all the same. */
typedef struct {
    uint16_t order[NODES + GUARD], positions[NODES + GUARD], sizes[NODES + GUARD], parents[NODES + GUARD];
    uint32_t column_starts[NODES + 1 + GUARD];
    uint16_t rows[SLOTS + GUARD];
    uint32_t starts[NODES + 1 + GUARD];
    uint16_t neighbours[ENTRIES + GUARD];
    uint8_t file[FILE_BYTES + GUARD];
    double diagonal[NODES + GUARD], values[SLOTS + GUARD], vector[NODES + GUARD];
} Memory;

/* One of the two programs: its functions, its memory and its last replies. */
typedef struct {
    __typeof__(ndp_plan) *plan;
    __typeof__(stage_order) *stage_order;
    __typeof__(ndp_write) *write;
    __typeof__(ndp_read) *read;
    __typeof__(ndp_slot) *slot;
    __typeof__(ndp_rows) *rows;
    __typeof__(ndp_pair) *pair;
    __typeof__(ndp_matrix_market) *matrix_market;
    __typeof__(ndp_join) *join;
    __typeof__(ndf_factor) *factor;
    __typeof__(ndf_solve) *solve;
    __typeof__(ndf_held) *held;
    Memory *memory;
    NdpPlan reply, read_reply;
    size_t parts;
    NdpWritten written;
    NdpSlot pairs[QUESTIONS];
    NdpRows columns[QUESTIONS];
    NdpPair slots[QUESTIONS];
    NdpMesh mesh_reply;
    NdfReport factor_reply;
    uint32_t solve_reply;
    NdfHeld numbers[QUESTIONS];
} Program;

enum { PLAIN, PROVED, PROGRAMS };
static Memory plain_memory, proved_memory, untouched;
static Program programs[PROGRAMS] = {
    {.plan = plain_plan, .stage_order = plain_stage_order, .write = plain_write, .read = plain_read, .slot = plain_slot, .rows = plain_rows,
     .pair = plain_pair, .matrix_market = plain_matrix_market, .join = plain_join, .factor = plain_factor, .solve = plain_solve,
     .held = plain_held, .memory = &plain_memory},
    {.plan = ndp_plan, .stage_order = stage_order, .write = ndp_write, .read = ndp_read, .slot = ndp_slot, .rows = ndp_rows,
     .pair = ndp_pair, .matrix_market = ndp_matrix_market, .join = ndp_join, .factor = ndf_factor, .solve = ndf_solve, .held = ndf_held,
     .memory = &proved_memory},
};

/* The mesh, the text and the plan at hand, the mesh that is joined to the mesh and the seam between them, and the positions and slots that the
 * questions ask about. */
static Mesh mesh, other;
static Seam seam;
static Text text;
static NdpPlan plan;
static uint16_t asked[QUESTIONS][2];
static size_t asked_slots[QUESTIONS];

/* The values that the plan at hand is filled with before each factoring, and what the vector holds before each solution. */
static double full_diagonal[NODES], full_values[SLOTS], full_vector[NODES];

/* ---- the operations */

static void plan_with(Program *p, size_t order_length, size_t rows_length) {
    Memory *m = p->memory;
    p->reply = p->plan(UNKNOWNS, mesh.nodes, mesh.starts, mesh.nodes + 1, mesh.neighbours, mesh.entries, m->order, order_length, m->positions,
                       NODES + GUARD, m->sizes, NODES + GUARD, m->parents, NODES + GUARD, m->column_starts, NODES + 1 + GUARD, m->rows, rows_length);
}

/* Up to refusal 8, which follows the checks of the unknowns and of the mesh. */
static void up_to_check(Program *p) { plan_with(p, 0, SLOTS + GUARD); }

static void up_to_order(Program *p) { p->parts = p->stage_order(mesh.nodes, mesh.starts, mesh.nodes + 1, mesh.neighbours, mesh.entries); }

/* Up to refusal 9, which follows the count of the slots. */
static void up_to_count(Program *p) { plan_with(p, NODES + GUARD, 0); }

static void whole_plan(Program *p) { plan_with(p, NODES + GUARD, SLOTS + GUARD); }

static void write_file(Program *p) {
    Memory *m = p->memory;
    p->written = p->write(plan.unknowns, plan.nodes, plan.parts, plan.slots, m->order, NODES + GUARD, m->sizes, NODES + GUARD, m->parents,
                          NODES + GUARD, m->column_starts, NODES + 1 + GUARD, m->rows, SLOTS + GUARD, m->file, FILE_BYTES + GUARD);
}

static void read_file(Program *p) {
    Memory *m = p->memory;
    p->read_reply = p->read(m->file, p->written.length, m->order, NODES + GUARD, m->positions, NODES + GUARD, m->sizes, NODES + GUARD, m->parents,
                            NODES + GUARD, m->column_starts, NODES + 1 + GUARD, m->rows, SLOTS + GUARD);
}

static void ask_pairs(Program *p) {
    const Memory *m = p->memory;
    for (int k = 0; k < QUESTIONS; k++)
        p->pairs[k] = p->slot(plan.nodes, m->column_starts, plan.nodes + 1, m->rows, plan.slots, asked[k][0], asked[k][1]);
}

static void ask_columns(Program *p) {
    const Memory *m = p->memory;
    for (int k = 0; k < QUESTIONS; k++)
        p->columns[k] = p->rows(plan.nodes, m->column_starts, plan.nodes + 1, m->rows, plan.slots, asked[k][0]);
}

static void ask_slots(Program *p) {
    const Memory *m = p->memory;
    for (int k = 0; k < QUESTIONS; k++)
        p->slots[k] = p->pair(plan.nodes, m->column_starts, plan.nodes + 1, m->rows, plan.slots, asked_slots[k]);
}

static void read_text(Program *p) {
    Memory *m = p->memory;
    p->mesh_reply = p->matrix_market(text.bytes, text.length, m->starts, NODES + 1 + GUARD, m->neighbours, ENTRIES + GUARD);
}

/* Fills the values, which a factoring leaves changed. */
static void fill_values(Program *p) {
    memcpy(p->memory->diagonal, full_diagonal, plan.nodes * sizeof *full_diagonal);
    memcpy(p->memory->values, full_values, plan.slots * sizeof *full_values);
}

/* With one unknown for each node, since more are refused. */
static void factor_values(Program *p) {
    Memory *m = p->memory;
    p->factor_reply = p->factor(1, plan.nodes, plan.parts, plan.slots, m->order, NODES + GUARD, m->sizes, NODES + GUARD, m->parents, NODES + GUARD,
                                m->column_starts, NODES + 1 + GUARD, m->rows, SLOTS + GUARD, m->diagonal, plan.nodes, m->values, plan.slots);
}

static void fill_vector(Program *p) { memcpy(p->memory->vector, full_vector, plan.nodes * sizeof *full_vector); }

/* With the factor in the memory, as factoring left it. */
static void solve_vector(Program *p) {
    Memory *m = p->memory;
    p->solve_reply = p->solve(1, plan.nodes, plan.parts, plan.slots, m->order, NODES + GUARD, m->sizes, NODES + GUARD, m->parents, NODES + GUARD,
                              m->column_starts, NODES + 1 + GUARD, m->rows, SLOTS + GUARD, m->diagonal, plan.nodes, m->values, plan.slots, m->vector,
                              plan.nodes);
}

static void ask_numbers(Program *p) {
    const Memory *m = p->memory;
    for (int k = 0; k < QUESTIONS; k++)
        p->numbers[k] = p->held(plan.nodes, m->column_starts, plan.nodes + 1, m->rows, plan.slots, m->diagonal, plan.nodes, m->values, plan.slots,
                                asked[k][0], asked[k][1]);
}

static void join_with(Program *p, size_t second_length) {
    Memory *m = p->memory;
    p->mesh_reply = p->join(mesh.nodes, mesh.starts, mesh.nodes + 1, mesh.neighbours, mesh.entries, other.nodes, other.starts, other.nodes + 1,
                            other.neighbours, other.entries, seam.first, seam.pairs, seam.second, second_length, m->starts, NODES + 1 + GUARD,
                            m->neighbours, ENTRIES + GUARD);
}

/* Up to refusal 32, which follows the checks of both meshes. */
static void up_to_pairs(Program *p) { join_with(p, seam.pairs - 1); }

static void whole_join(Program *p) { join_with(p, seam.pairs); }

/* The first four make the plan of a mesh, each as far as its name says; the next five need a plan, the next a text, the next a filled plan, the next
 * two a factored one, and the last two, of which the first goes as far as its name says, two meshes and a seam. */
enum { CHECK, ORDER, COUNT, PLAN, WRITE, READ, PAIR, COLUMN, SLOT, TEXT, FACTOR, SOLVE, HELD, JOIN_CHECK, JOIN, OPERATIONS };
static void (*const operations[OPERATIONS])(Program *) = {up_to_check, up_to_order, up_to_count,   whole_plan,   write_file,
                                                          read_file,   ask_pairs,   ask_columns,   ask_slots,    read_text,
                                                          factor_values, solve_vector, ask_numbers, up_to_pairs, whole_join};

/* ---- comparing the results */

static void fill_results(void) {
    for (int p = 0; p < PROGRAMS; p++) memset(programs[p].memory, FILL, offsetof(Memory, file));
}

static void fill_all_values(void) {
    size_t from = offsetof(Memory, diagonal);
    for (int p = 0; p < PROGRAMS; p++) {
        memset((uint8_t *)programs[p].memory + from, FILL, sizeof(Memory) - from);
        fill_values(&programs[p]);
        fill_vector(&programs[p]);
    }
}

static void run_both(int operation) {
    for (int p = 0; p < PROGRAMS; p++) operations[operation](&programs[p]);
}

static int same_memory(void) { return memcmp(&plain_memory, &proved_memory, sizeof plain_memory) == 0; }

static int same_plans(NdpPlan a, NdpPlan b) {
    return a.refusal == b.refusal && a.nodes == b.nodes && a.parts == b.parts && a.slots == b.slots && a.unknowns == b.unknowns &&
           a.multiplications == b.multiplications;
}

/* Whether nothing is written past the entries that the plan uses, `column_starts` of the column starts. A refusal's reply uses none. */
static int guards_kept(const Memory *m, NdpPlan used, size_t column_starts) {
    const Memory *u = &untouched;
    return memcmp(m->order + used.nodes, u->order + used.nodes, sizeof m->order - 2 * used.nodes) == 0 &&
           memcmp(m->positions + used.nodes, u->positions + used.nodes, sizeof m->positions - 2 * used.nodes) == 0 &&
           memcmp(m->sizes + used.parts, u->sizes + used.parts, sizeof m->sizes - 2 * used.parts) == 0 &&
           memcmp(m->parents + used.parts, u->parents + used.parts, sizeof m->parents - 2 * used.parts) == 0 &&
           memcmp(m->column_starts + column_starts, u->column_starts + column_starts, sizeof m->column_starts - 4 * column_starts) == 0 &&
           memcmp(m->rows + used.slots, u->rows + used.slots, sizeof m->rows - 2 * used.slots) == 0;
}

/* Up to the checks planning refuses with 8, and up to the count with 9, since every mesh here has slots; everything is left as it was. */
static int compare_refusal(int operation, uint32_t number) {
    NdpPlan refusal = {.refusal = number};
    fill_results();
    run_both(operation);
    return same_plans(programs[PLAIN].reply, refusal) && same_plans(programs[PROVED].reply, refusal) && guards_kept(&plain_memory, refusal, 0) &&
           guards_kept(&proved_memory, refusal, 0);
}

/* The plans that both programs have made in filled memory. */
static int compare_plans(void) {
    plan = programs[PLAIN].reply;
    return plan.refusal == 0 && same_plans(plan, programs[PROVED].reply) && same_memory() && guards_kept(&plain_memory, plan, plan.nodes + 1);
}

/* Everything that makes the plan of a mesh. Leaves the plan in the memory of both programs. */
static int compare_planning(void) {
    int same = compare_refusal(CHECK, 8) && compare_refusal(COUNT, 9);
    run_both(ORDER);
    fill_results();
    run_both(PLAN);
    return compare_plans() && same && programs[PLAIN].parts == plan.parts && programs[PROVED].parts == plan.parts;
}

/* Draws the slots and the pairs that are asked about; half of the pairs are those of the slots. A pair's first position is the column asked about. */
static void draw_questions(void) {
    for (int k = 0; k < QUESTIONS; k++) {
        size_t slot = next_random(plan.slots), column = 0;
        while (plain_memory.column_starts[column + 1] <= slot) column++;
        asked[k][0] = k % 2 ? plain_memory.rows[slot] : next_random(plan.nodes);
        asked[k][1] = column;
        asked_slots[k] = slot;
    }
}

/* Writing, reading and the questions, of the plan in the memory of both programs. */
static int compare_file(void) {
    const Program *plain = &programs[PLAIN], *proved = &programs[PROVED];
    for (int p = 0; p < PROGRAMS; p++) memset(programs[p].memory->file, FILL, sizeof programs[p].memory->file);
    run_both(WRITE);
    size_t length = plain->written.length;
    int same = plain->written.refusal == 0 && proved->written.refusal == 0 && proved->written.length == length && same_memory() &&
               memcmp(plain_memory.file + length, untouched.file + length, sizeof untouched.file - length) == 0;
    fill_results();
    run_both(READ);
    same = same && same_plans(plain->read_reply, plan) && same_plans(proved->read_reply, plan) && same_memory() &&
           guards_kept(&plain_memory, plan, plan.nodes + 1);
    draw_questions();
    run_both(PAIR);
    run_both(COLUMN);
    run_both(SLOT);
    return same && memcmp(plain->pairs, proved->pairs, sizeof plain->pairs) == 0 &&
           memcmp(plain->columns, proved->columns, sizeof plain->columns) == 0 && memcmp(plain->slots, proved->slots, sizeof plain->slots) == 0;
}

/* Whether in the memory for a mesh nothing is written past so many starts and entries. */
static int mesh_ends(const Memory *m, size_t starts, size_t entries) {
    const Memory *u = &untouched;
    return memcmp(m->starts + starts, u->starts + starts, sizeof m->starts - 4 * starts) == 0 &&
           memcmp(m->neighbours + entries, u->neighbours + entries, sizeof m->neighbours - 2 * entries) == 0;
}

/* Whether the front of the memory for a mesh holds `expected`, and nothing is written past it. */
static int holds_mesh(const Memory *m, size_t starts, size_t entries, const Mesh *expected) {
    return memcmp(m->starts, expected->starts, 4 * starts) == 0 && memcmp(m->neighbours, expected->neighbours, 2 * entries) == 0 &&
           mesh_ends(m, starts, entries);
}

/* The text at hand gives the mesh at hand, or a refusal that leaves everything as it was. */
static int compare_text(uint32_t refusal) {
    size_t starts = refusal ? 0 : mesh.nodes + 1, entries = refusal ? 0 : mesh.entries;
    NdpMesh reply = {refusal, refusal ? 0 : mesh.nodes, entries};
    fill_results();
    run_both(TEXT);
    return memcmp(&programs[PLAIN].mesh_reply, &reply, sizeof reply) == 0 && memcmp(&programs[PROVED].mesh_reply, &reply, sizeof reply) == 0 &&
           same_memory() && holds_mesh(&plain_memory, starts, entries, &mesh);
}

/* Both programs join the two meshes at hand to the same mesh, and refuse a list of pairs that is too short without writing. */
static int compare_join(void) {
    const NdpMesh *plain = &programs[PLAIN].mesh_reply, *proved = &programs[PROVED].mesh_reply, refusal = {.refusal = 32};
    fill_results();
    run_both(JOIN_CHECK);
    int same = memcmp(plain, &refusal, sizeof refusal) == 0 && memcmp(proved, &refusal, sizeof refusal) == 0 && same_memory() &&
               mesh_ends(&plain_memory, 0, 0);
    run_both(JOIN);
    return same && plain->refusal == 0 && memcmp(plain, proved, sizeof *plain) == 0 && same_memory() &&
           mesh_ends(&plain_memory, plain->nodes + 1, plain->entries);
}

/* The values of the mesh's Laplacian with 1 more on the diagonal: a node's neighbours and 1, and -1 for each pair of neighbours. In the vector a
 * number from 1 to 2 for each node. */
static void make_values(void) {
    const Memory *m = &plain_memory;
    memset(full_values, 0, plan.slots * sizeof *full_values);
    for (size_t v = 0; v < mesh.nodes; v++) {
        full_vector[m->positions[v]] = 1.0 + (double)v / mesh.nodes;
        full_diagonal[m->positions[v]] = 1.0 + (mesh.starts[v + 1] - mesh.starts[v]);
        for (uint32_t e = mesh.starts[v]; e < mesh.starts[v + 1]; e++) {
            size_t a = m->positions[v], b = m->positions[mesh.neighbours[e]];
            if (a < b) full_values[plain_slot(plan.nodes, m->column_starts, plan.nodes + 1, m->rows, plan.slots, a, b).slot] = -1;
        }
    }
}

/* Whether nothing is written past the values that the plan uses. */
static int values_end(const Memory *m) {
    const Memory *u = &untouched;
    size_t n = plan.nodes, s = plan.slots;
    return memcmp(m->diagonal + n, u->diagonal + n, sizeof m->diagonal - n * sizeof *m->diagonal) == 0 &&
           memcmp(m->values + s, u->values + s, sizeof m->values - s * sizeof *m->values) == 0 &&
           memcmp(m->vector + n, u->vector + n, sizeof m->vector - n * sizeof *m->vector) == 0;
}

/* Factoring of the plan in the memory of both programs: the same bits, the same reports, and as many operations as planned. */
static int compare_factoring(void) {
    const NdfReport *plain = &programs[PLAIN].factor_reply, *proved = &programs[PROVED].factor_reply;
    fill_all_values();
    run_both(FACTOR);
    return plain->refusal == 0 && proved->refusal == 0 && plain->smallest == proved->smallest && plain->largest == proved->largest &&
           plain->operations == plan.multiplications && proved->operations == plan.multiplications && same_memory() && values_end(&plain_memory);
}

/* The solution by the factor in the memory of both programs: the same bits, and the factor as it was. */
static int compare_solving(void) {
    static Memory factored;
    memcpy(&factored, &plain_memory, sizeof factored);
    run_both(SOLVE);
    return programs[PLAIN].solve_reply == 0 && programs[PROVED].solve_reply == 0 && same_memory() && values_end(&plain_memory) &&
           memcmp(&plain_memory, &factored, offsetof(Memory, vector)) == 0;
}

/* Numbers of the factor at the pairs that are asked about. */
static int compare_numbers(void) {
    draw_questions();
    run_both(HELD);
    return memcmp(programs[PLAIN].numbers, programs[PROVED].numbers, sizeof programs[PLAIN].numbers) == 0;
}

/* ---- timing */

/* A line of the table, of a mesh with its plan, of a text, or of two meshes with the joined one. The times are in microseconds, for one question in
 * the case of questions. */
typedef struct {
    char name[32];
    size_t entries;
    NdpPlan plan;
    struct { size_t nodes, pairs, bytes; int shuffled; uint32_t refusal; } text;
    struct { size_t first, second, pairs; NdpMesh mesh; } join;
    double best[OPERATIONS][PROGRAMS];
    int same;
} Line;

/* First the families, each at all its sizes; then the largest plan; then the other meshes; then the texts, from `first_text` on; then the filled
 * plans, from `first_filled` on; then the joined meshes, from `first_join` on. The first FOOT_LIKE families have plans like a foot's. */
enum { FAMILIES = 6, FOOT_LIKE = 4, SIZES = 5, LARGEST = FAMILIES * SIZES, MOST_LINES = 80 };
static const char *const family_names[FAMILIES] = {"foot", "plate", "plate, holes", "grid", "path", "binary tree"};
static Line lines[MOST_LINES];
static int line_count, first_text, first_filled, first_join;

/* The processor time of this program in microseconds. What other programs take on a busy machine does not count. */
static double now(void) {
    struct timespec t;
    clock_gettime(CLOCK_THREAD_CPUTIME_ID, &t);
    return t.tv_sec * 1e6 + t.tv_nsec / 1e3;
}

/* What one reading of the clock costs; it is taken off every time. */
static double clock_cost = 1e12;

static void measure_clock(void) {
    for (int k = 0; k < 10000; k++) {
        double from = now(), time = now() - from;
        if (time < clock_cost) clock_cost = time;
    }
}

static void time_once(Line *line, int operation, int program) {
    if (operation == FACTOR) fill_values(&programs[program]);
    if (operation == SOLVE) fill_vector(&programs[program]);
    double from = now();
    operations[operation](&programs[program]);
    double time = now() - from - clock_cost, *best = &line->best[operation][program];
    if ((PAIR <= operation && operation <= SLOT) || operation == HELD) time /= QUESTIONS;
    if (*best == 0 || time < *best) *best = time;
}

/* The best times of the operations from `first` to `last`. A busy moment of the machine meets all of them, since they share every round. */
static void time_operations(Line *line, int first, int last) {
    double began = now();
    for (int round = 0; round < MOST_ROUNDS && (round == 0 || now() - began < SECONDS * 1e6); round++)
        for (int o = first; o <= last; o++) for (int turn = 0; turn < TURNS; turn++) time_once(line, o, (round + turn) % PROGRAMS);
}

static Line *new_line(const char *name) {
    Line *line = &lines[line_count++];
    snprintf(line->name, sizeof line->name, "%s", name);
    return line;
}

/* Compares everything on the mesh at hand, and times the operations from `first` to `last`. */
static void measure_mesh(const char *name, int first, int last) {
    Line *line = new_line(name);
    line->same = compare_planning();
    line->same = compare_file() && line->same;
    line->entries = mesh.entries;
    line->plan = plan;
    time_operations(line, first, last);
}

/* A mesh that takes many seconds: each program plans it once, which is compared and timed. */
static void measure_slow_mesh(const char *name) {
    Line *line = new_line(name);
    fill_results();
    for (int p = 0; p < PROGRAMS; p++) time_once(line, PLAN, p);
    line->same = compare_plans();
    line->same = compare_file() && line->same;
    line->entries = mesh.entries;
    line->plan = plan;
}

static void measure_families(void) {
    static const size_t widths[SIZES] = {16, 16, 32, 32, 64};
    for (int family = 0; family < FAMILIES; family++) for (int size = 0; size < SIZES; size++) {
        size_t nodes = (size_t)256 << size;
        char name[32];
        snprintf(name, sizeof name, "%s %zu", family_names[family], nodes);
        switch (family) {
        case 0: make_foot(&mesh, nodes); break;
        case 1: make_plate(&mesh, widths[size], nodes, 1, 0); break;
        case 2: make_plate(&mesh, widths[size], nodes, 1, 1); break;
        case 3: make_plate(&mesh, widths[size], nodes, 0, 0); break;
        case 4: make_plate(&mesh, 1, nodes, 0, 0); break;
        default: make_tree(&mesh, nodes, 2);
        }
        measure_mesh(name, CHECK, SLOT);
    }
}

static void measure_others(void) {
    make_tube(&mesh, 50, 80); measure_mesh("tube 50 x 80", PLAN, PLAN);
    make_plate(&mesh, 4, 4000, 1, 0); measure_mesh("strip 4 x 1000", PLAN, PLAN);
    make_tree(&mesh, 4096, 25); measure_mesh("25-ary tree 4096", PLAN, PLAN);
    make_cliques(&mesh, 4096, 16); measure_mesh("cliques of 16", PLAN, PLAN);
    make_cliques(&mesh, 2600, 26); measure_mesh("cliques of 26", PLAN, PLAN);
    make_random(&mesh, 4096, 8192); measure_mesh("random, 8192 edges", PLAN, PLAN);
    make_random(&mesh, 4096, 32768); measure_mesh("random, 32768 edges", PLAN, PLAN);
    make_random(&mesh, 2600, 32768); measure_mesh("random, 2600 nodes", PLAN, PLAN);
    make_bush(&mesh, 0); measure_mesh("bush, no tails", PLAN, PLAN);
    make_bush(&mesh, 72); measure_slow_mesh("bush, 72 tails");
}

/* The largest legal plan: one part, and every pair of positions has a slot. No mesh within the limits has it, so it is made here. */
static void measure_largest_plan(void) {
    Memory *m = &plain_memory;
    fill_results();
    plan = (NdpPlan){.nodes = NODES, .parts = 1, .unknowns = UNKNOWNS};
    for (size_t i = 0; i < NODES; i++) m->order[i] = m->positions[i] = i;
    m->sizes[0] = NODES;
    m->parents[0] = NDP_NO_PARENT;
    for (size_t j = 0; j < NODES; j++) {
        uint64_t c = NODES - 1 - j;
        m->column_starts[j] = plan.slots;
        for (size_t i = j + 1; i < NODES; i++) m->rows[plan.slots++] = i;
        plan.multiplications += c * (c + 3) / 2;
    }
    m->column_starts[NODES] = plan.slots;
    memcpy(&proved_memory, m, sizeof proved_memory);
    Line *line = new_line("largest plan");
    line->same = compare_file();
    line->plan = plan;
    time_operations(line, WRITE, SLOT);
}

/* Compares and times the reading of the text at hand. */
static void measure_text(const char *name, int shuffled, uint32_t refusal) {
    Line *line = new_line(name);
    line->same = compare_text(refusal);
    line->text.nodes = text.nodes;
    line->text.pairs = text.pairs;
    line->text.bytes = text.length;
    line->text.shuffled = shuffled;
    line->text.refusal = refusal;
    time_operations(line, TEXT, TEXT);
}

/* The text of the mesh at hand, in both orders. */
static void measure_text_of_mesh(const char *name, int diagonal) {
    for (int shuffled = 0; shuffled < 2; shuffled++) {
        make_text(&text, &mesh, diagonal, shuffled);
        measure_text(name, shuffled, 0);
    }
}

static void measure_texts(void) {
    first_text = line_count;
    make_foot(&mesh, 900); measure_text_of_mesh("foot 900", 0);
    make_foot(&mesh, 4096); measure_text_of_mesh("foot 4096", 0);
    make_plate(&mesh, 30, 900, 1, 0); measure_text_of_mesh("plate 900", 0);
    make_plate(&mesh, 64, 4096, 1, 0); measure_text_of_mesh("plate 4096", 0);
    make_random(&mesh, 4096, 32768); measure_text_of_mesh("densest", 0); measure_text_of_mesh("densest, diagonal", 1);
    for (int shuffled = 0; shuffled < 2; shuffled++) for (int again = 0; again < 2; again++) {
        make_band_text(&text, 5000, 60000, again, shuffled);
        measure_text(again ? "too large, a repeat" : "too large", shuffled, again ? 25 : 1);
    }
}

/* Plans the mesh at hand, and compares and times its factoring; then, with the factor that each factoring leaves, the solution and the numbers that are
 * asked for. */
static void measure_factoring(const char *name) {
    Line *line = new_line(name);
    line->same = compare_planning();
    make_values();
    line->same = compare_factoring() && line->same;
    line->same = compare_solving() && line->same;
    line->same = compare_numbers() && line->same;
    line->plan = plan;
    time_operations(line, FACTOR, FACTOR);
    time_operations(line, SOLVE, HELD);
}

static void measure_filled_plans(void) {
    first_filled = line_count;
    make_foot(&mesh, 900); measure_factoring("foot 900");
    make_plate(&mesh, 30, 900, 1, 0); measure_factoring("plate 900");
    make_foot(&mesh, 4096); measure_factoring("foot 4096");
    make_plate(&mesh, 64, 4096, 1, 0); measure_factoring("plate 4096");
}

/* Compares and times the joining of the two meshes at hand along the seam at hand. */
static void measure_join(const char *name) {
    Line *line = new_line(name);
    line->same = compare_join();
    line->join.first = mesh.nodes;
    line->join.second = other.nodes;
    line->join.pairs = seam.pairs;
    line->join.mesh = programs[PLAIN].mesh_reply;
    time_operations(line, JOIN_CHECK, JOIN);
}

static void measure_border(const char *name, size_t pairs) {
    make_border_seam(&seam, &mesh, &other, pairs);
    measure_join(name);
}

/* The mesh at hand, joined with itself node by node. */
static void measure_itself(const char *name) {
    memcpy(&other, &mesh, sizeof other);
    make_whole_seam(&seam, mesh.nodes);
    measure_join(name);
}

static void measure_joins(void) {
    first_join = line_count;
    make_foot(&mesh, 440); make_foot(&other, 490); measure_border("feet, 900 nodes", 30);
    make_plate(&mesh, 21, 441, 1, 0); make_plate(&other, 22, 484, 1, 0); measure_border("plates, 900 nodes", 25);
    make_foot(&mesh, 2000); make_foot(&other, 2096); measure_border("feet, 4056 nodes", 40);
    make_plate(&mesh, 45, 2048, 1, 0); make_plate(&other, 32, 2048, 1, 0); measure_border("plates, 4056 nodes", 40);
    make_foot(&mesh, 4010); measure_itself("foot with itself");
    make_plate(&mesh, 63, 4000, 1, 0); measure_itself("plate with itself");
    make_random(&mesh, 4000, 32768); measure_itself("densest with itself");
    make_foot(&mesh, 2700); make_foot(&other, 2750);
    make_random_seam(&seam, &mesh, &other, 1360); measure_join("feet, half paired");
}

/* ---- the table */

/* The time of an operation by itself: the first ones are timed from the start of planning, and joining with its checks, so the operation before is
 * taken off. */
static double alone(const Line *line, int operation, int program) {
    double time = line->best[operation][program];
    if (operation == CHECK || (operation > PLAN && operation != JOIN)) return time;
    time -= line->best[operation - 1][program];
    return time > 0 ? time : 0;
}

/* Whether a time is long enough to be told from noise: a microsecond, and a twentieth of the time that it is a part of. */
static int is_clear(const Line *line, int operation, int program) {
    double time = alone(line, operation, program);
    return time >= 1 && time >= 0.05 * line->best[operation][program];
}

/* Both times of an operation by itself, and their ratio where both are clear. */
static void print_alone(const Line *line, int operation) {
    double plain = alone(line, operation, PLAIN), proved = alone(line, operation, PROVED);
    printf(" %7.1f %7.1f", plain, proved);
    if (is_clear(line, operation, PLAIN) && is_clear(line, operation, PROVED)) printf(" %5.2f", proved / plain);
    else printf(" %5s", "-");
}

/* A block of `count` operations from `first` on, for the lines before `end`. */
static void print_block(const char *title, const char *const *names, int first, int count, int end) {
    printf("%s, microseconds\n%-19s", title, "");
    for (int k = 0; k < count; k++) printf(" %21s", names[k]);
    printf("\n%-19s", "mesh");
    for (int k = 0; k < count; k++) printf(" %7s %7s %5s", "plain", "proved", "ratio");
    printf("\n");
    for (int l = 0; l < end; l++) {
        printf("%-19s", lines[l].name);
        for (int o = first; o < first + count; o++) print_alone(&lines[l], o);
        printf("\n");
    }
    printf("\n");
}

static void print_planning(void) {
    printf("Whole planning, microseconds\n");
    printf("%-19s %5s %7s %5s %9s %10s %10s %5s\n", "mesh", "nodes", "entries", "parts", "slots", "plain", "proved", "ratio");
    for (int l = 0; l < first_text; l++) {
        const Line *line = &lines[l];
        double plain = line->best[PLAN][PLAIN], proved = line->best[PLAN][PROVED];
        if (l == LARGEST) continue;
        printf("%-19s %5u %7zu %5u %9u", line->name, line->plan.nodes, line->entries, line->plan.parts, line->plan.slots);
        printf(" %10.1f %10.1f %5.2f\n", plain, proved, proved / plain);
    }
    printf("\n");
}

static void print_texts(void) {
    printf("Reading Matrix Market texts, microseconds\n");
    printf("%-19s %-8s %5s %6s %7s %7s %8s %8s %5s\n", "text", "order", "nodes", "pairs", "bytes", "refusal", "plain", "proved", "ratio");
    for (int l = first_text; l < first_filled; l++) {
        const Line *line = &lines[l];
        double plain = line->best[TEXT][PLAIN], proved = line->best[TEXT][PROVED];
        printf("%-19s %-8s", line->name, line->text.shuffled ? "shuffled" : "file");
        printf(" %5zu %6zu %7zu %7u", line->text.nodes, line->text.pairs, line->text.bytes, line->text.refusal);
        printf(" %8.1f %8.1f %5.2f\n", plain, proved, proved / plain);
    }
    printf("\n");
}

static void print_factoring(void) {
    printf("Factoring, microseconds\n");
    printf("%-19s %5s %7s %10s %8s %8s %5s\n", "mesh", "nodes", "slots", "operations", "plain", "proved", "ratio");
    for (int l = first_filled; l < first_join; l++) {
        const Line *line = &lines[l];
        double plain = line->best[FACTOR][PLAIN], proved = line->best[FACTOR][PROVED];
        printf("%-19s %5u %7u %10llu", line->name, line->plan.nodes, line->plan.slots, (unsigned long long)line->plan.multiplications);
        printf(" %8.1f %8.1f %5.2f\n", plain, proved, proved / plain);
    }
    printf("\n");
}

static void print_solving(void) {
    printf("Solving, and a number of the factor, microseconds\n%-19s %5s %7s %21s %21s\n", "", "", "", "solving", "question: number");
    printf("%-19s %5s %7s %7s %7s %5s %7s %7s %5s\n", "mesh", "nodes", "slots", "plain", "proved", "ratio", "plain", "proved", "ratio");
    for (int l = first_filled; l < first_join; l++) {
        printf("%-19s %5u %7u", lines[l].name, lines[l].plan.nodes, lines[l].plan.slots);
        print_alone(&lines[l], SOLVE);
        print_alone(&lines[l], HELD);
        printf("\n");
    }
    printf("\n");
}

static void print_joins(void) {
    printf("Joining two meshes, microseconds\n%-51s %21s %21s %21s\n", "", "their checks", "joining", "whole");
    printf("%-19s %5s %5s %5s %5s %7s", "meshes", "first", "secnd", "pairs", "nodes", "entries");
    for (int k = 0; k < 3; k++) printf(" %7s %7s %5s", "plain", "proved", "ratio");
    printf("\n");
    for (int l = first_join; l < line_count; l++) {
        const Line *line = &lines[l];
        double plain = line->best[JOIN][PLAIN], proved = line->best[JOIN][PROVED];
        printf("%-19s %5zu %5zu %5zu %5u %7u", line->name, line->join.first, line->join.second, line->join.pairs, line->join.mesh.nodes,
               line->join.mesh.entries);
        print_alone(line, JOIN_CHECK);
        print_alone(line, JOIN);
        printf(" %7.1f %7.1f %5.2f\n", plain, proved, proved / plain);
    }
    printf("\n");
}

/* For each family and operation: the times of the proved library, and each as a multiple of the one at half the nodes. */
static void print_growth(void) {
    static const struct { const char *name; int operation; } shown[] = {{"planning", PLAN}, {"write", WRITE}, {"read", READ}};
    printf("Growth of the proved library, microseconds, and the factor from n to 2n nodes\n");
    printf("%-12s %-8s %7d", "mesh", "", 256);
    for (int size = 1; size < SIZES; size++) printf(" %9d %6s", 256 << size, "factor");
    printf("\n");
    for (int family = 0; family < FAMILIES; family++) for (int k = 0; k < 3; k++) {
        const Line *line = &lines[family * SIZES];
        int o = shown[k].operation;
        printf("%-12s %-8s %7.1f", family_names[family], shown[k].name, line[0].best[o][PROVED]);
        for (int size = 1; size < SIZES; size++) {
            double time = line[size].best[o][PROVED];
            printf(" %9.1f %6.2f", time, time / line[size - 1].best[o][PROVED]);
        }
        printf("\n");
    }
    printf("\n");
}

/* The ratio of an operation that was timed, or 0. */
static double ratio_of(const Line *line, int operation) {
    return line->best[operation][PLAIN] > 0 ? line->best[operation][PROVED] / line->best[operation][PLAIN] : 0;
}

/* The ratios of an operation over the lines that it was timed on: the range, and on how many lines they meet the goal. */
typedef struct { double least, most; int timed, met; } Ratios;

static Ratios ratios_of(int operation, double goal) {
    Ratios r = {1e12, 0, 0, 0};
    for (int l = 0; l < line_count; l++) {
        double ratio = ratio_of(&lines[l], operation);
        if (ratio == 0) continue;
        r.timed++;
        if (ratio <= goal) r.met++;
        if (ratio < r.least) r.least = ratio;
        if (ratio > r.most) r.most = ratio;
    }
    return r;
}

/* How the ratios of an operation stand to a goal for every line. */
static void print_goal(const char *name, int operation, double goal) {
    Ratios r = ratios_of(operation, goal);
    printf("%s: ratio %.2f to %.2f, goal %.1f, met on %d of %d\n", name, r.least, r.most, goal, r.met, r.timed);
    for (int l = 0; l < line_count; l++) {
        double ratio = ratio_of(&lines[l], operation);
        if (ratio > goal) printf("  above it: %s%s, %.2f\n", lines[l].name, lines[l].text.shuffled ? ", shuffled" : "", ratio);
    }
}

/* The geometric mean of an operation's ratios over the families whose plans are like a foot's: foot, plate, plate with holes and grid. */
static double mean_ratio(int operation) {
    double sum = 0;
    for (int l = 0; l < FOOT_LIKE * SIZES; l++) sum += log(ratio_of(&lines[l], operation));
    return exp(sum / (FOOT_LIKE * SIZES));
}

/* How that mean stands to a goal, and the range of the ratios of all lines. */
static void print_mean_goal(const char *name, int operation, double goal) {
    Ratios r = ratios_of(operation, goal);
    double mean = mean_ratio(operation);
    printf("%s: geometric mean %.2f over foot, plate, plate with holes and grid, goal %.1f, %s; ratio %.2f to %.2f on %d lines\n", name, mean, goal,
           mean <= goal ? "met" : "not met", r.least, r.most, r.timed);
}

/* Names the lines on which the programs differ. Gives their number. */
static int print_differences(void) {
    int different = 0;
    for (int l = 0; l < line_count; l++) if (!lines[l].same) { printf("DIFFERENT results: %s\n", lines[l].name); different++; }
    if (!different) printf("The same replies and memory from both programs on all %d lines\n", line_count);
    return different;
}

int main(void) {
    static const char *const stages[4] = {"check", "order", "count", "rows"};
    static const char *const uses[5] = {"write", "read", "question: pair", "question: column", "question: slot"};
    memset(&untouched, FILL, sizeof untouched);
    measure_clock();
    measure_families();
    measure_largest_plan();
    measure_others();
    measure_texts();
    measure_filled_plans();
    measure_joins();
    print_block("Stages of planning", stages, CHECK, 4, LARGEST);
    print_planning();
    print_block("File and questions", uses, WRITE, 5, LARGEST + 1);
    print_texts();
    print_factoring();
    print_solving();
    print_joins();
    print_growth();
    print_goal("Planning", PLAN, 1.5);
    print_mean_goal("Writing", WRITE, 1.2);
    print_mean_goal("Reading", READ, 1.2);
    print_goal("Reading texts", TEXT, 2.0);
    print_goal("Factoring", FACTOR, 1.0);
    print_goal("Solving", SOLVE, 1.2);
    print_goal("Joining", JOIN, 1.5);
    return print_differences() ? 1 : 0;
}
