/* Plain C: the solution by a factored plan, in document 02's order of operations for every entry. Numbers of checks are documents 01's and 02's. It is
 * compiled with -ffp-contract=off, so that a product and a difference are two operations that round once each.
 *
 * Two things are done otherwise than word by word, and leave the same bits. Forward, two columns are taken at once where the first has the second for
 * its first row and otherwise the same rows: each entry is read and written once for both. Backward, an entry waits for one subtraction after the
 * other; so the columns of two branches of the tree of parts are worked side by side. By check 18 the rows of a column lie in its part and that part's
 * ancestors, so neither branch touches what the other reads. The branches are those whose smaller one has the most slots, as far as one walk down the
 * tree finds them.
 * Of the shapes that were tried it is the fastest over feet and plates, but for four columns at once and four branches, which gain 1 to 4 hundredths
 * of the whole for twice the code. As fast as word by word or slower are unrolled loops, pointers that run, rows that stand one after the other taken
 * in lanes, and neighbouring columns side by side; columns by their depth in the elimination tree gain less than two branches. */
#include "plain.h"
#include "plain_checks.h"
#include <float.h>

_Static_assert(FLT_EVAL_METHOD == 0, "every operation rounds to the type of its operands");

enum { NODES = NDP_MAX_NODES, NONE = NDP_NO_PARENT };

/* A plan with its factor, that has passed the checks. */
typedef struct {
    const uint32_t *starts;
    const uint16_t *rows;
    const double *values;
} Factor;

/* 31: NaN is not above zero. */
static int pivots_fit(size_t n, const double *diagonal) {
    for (size_t j = 0; j < n; j++) if (!(diagonal[j] > 0 && diagonal[j] <= DBL_MAX)) return 0;
    return 1;
}

/* ---- forward and division */

/* Whether column j has j + 1 for its first row, and besides as many rows as column j + 1: by check 19 these are the same. */
static inline int next_is_alike(const Factor *f, size_t j) {
    uint32_t start = f->starts[j], end = f->starts[j + 1];
    return start < end && f->rows[start] == j + 1 && f->starts[j + 2] - end == end - start - 1;
}

static inline void forward_one(const Factor *f, size_t j, double *restrict x) {
    double entry = x[j];
    for (uint32_t k = f->starts[j]; k < f->starts[j + 1]; k++) x[f->rows[k]] -= f->values[k] * entry;
}

/* Columns j and j + 1, which are alike. */
static inline void forward_two(const Factor *f, size_t j, double *restrict x) {
    uint32_t start = f->starts[j], next = f->starts[j + 1], count = f->starts[j + 2] - next;
    const uint16_t *rows = f->rows + next;
    const double *first = f->values + start + 1, *second = f->values + next;
    double entry = x[j], below = x[j + 1] - f->values[start] * entry;
    x[j + 1] = below;
    for (uint32_t k = 0; k < count; k++) {
        double less = x[rows[k]] - first[k] * entry;
        x[rows[k]] = less - second[k] * below;
    }
}

static void forward(const Factor *f, size_t n, double *restrict x) {
    for (size_t j = 0; j < n;) {
        if (next_is_alike(f, j)) {
            forward_two(f, j, x);
            j += 2;
        } else forward_one(f, j++, x);
    }
}

static void divide(size_t n, const double *restrict diagonal, double *restrict x) {
    for (size_t j = 0; j < n; j++) x[j] /= diagonal[j];
}

/* ---- two branches */

/* The columns from `left` up to, not including, `right` are of one branch, those from `right` up to `end` of another. */
typedef struct { size_t left, right, end; } Branches;

/* The parts: the first column of each, and behind the last the number of columns; and the first part of each one's branch. */
typedef struct { uint16_t column[NODES + 1], first[NODES]; } Parts;

/* Notes the parts. Gives 0 where the parts of a branch do not all follow one another, which a plan may have. */
static int note_parts(const Plan *plan, Parts *parts) {
    static uint16_t count[NODES];
    for (size_t q = 0; q < plan->p; q++) {
        count[q] = 1;
        parts->first[q] = q;
    }
    parts->column[0] = 0;
    for (size_t q = 0; q < plan->p; q++) {
        size_t parent = plan->parents[q];
        parts->column[q + 1] = parts->column[q] + plan->sizes[q];
        if (parts->first[q] + count[q] != (int)q + 1) return 0;
        if (parent == NONE) continue;
        count[parent] += count[q];
        if (parts->first[q] < parts->first[parent]) parts->first[parent] = parts->first[q];
    }
    return 1;
}

/* Walks down from the last part, each time to the heavier side: to the branch of the last part below, or to what stands left of it. */
static Branches find_branches(const Plan *plan) {
    static Parts parts;
    const uint32_t *starts = plan->column_starts;
    Branches best = {0, 0, 0};
    uint32_t most = 0;
    if (!note_parts(plan, &parts)) return best;
    for (size_t q = plan->p - 1; parts.first[q] < q;) {
        Branches b = {parts.column[parts.first[q]], parts.column[parts.first[q - 1]], parts.column[q]};
        uint32_t left = starts[b.right] - starts[b.left], right = starts[b.end] - starts[b.right], less = left < right ? left : right;
        if (less > most) {
            most = less;
            best = b;
        }
        q = left > right ? parts.first[q - 1] - (size_t)1 : q - 1;
    }
    return best;
}

/* ---- backward */

/* An entry less the products of so many slots, from slot k on. */
static inline double less_products(const Factor *f, uint32_t k, uint32_t end, const double *restrict x, double entry) {
    for (; k < end; k++) entry -= f->values[k] * x[f->rows[k]];
    return entry;
}

/* The columns from `first` up to, not including, `end`, descending. */
static void backward_columns(const Factor *f, size_t first, size_t end, double *restrict x) {
    for (size_t j = end; j-- > first;) x[j] = less_products(f, f->starts[j], f->starts[j + 1], x, x[j]);
}

/* Columns a and b, neither of which is a row of the other, side by side. */
static inline void backward_two(const Factor *f, size_t a, size_t b, double *restrict x) {
    uint32_t j = f->starts[a], k = f->starts[b], a_end = f->starts[a + 1], b_end = f->starts[b + 1];
    double entry_a = x[a], entry_b = x[b];
    for (; j < a_end && k < b_end; j++, k++) {
        entry_a -= f->values[j] * x[f->rows[j]];
        entry_b -= f->values[k] * x[f->rows[k]];
    }
    x[a] = less_products(f, j, a_end, x, entry_a);
    x[b] = less_products(f, k, b_end, x, entry_b);
}

static void backward(const Factor *f, size_t n, Branches branches, double *restrict x) {
    size_t a = branches.end, b = branches.right;
    backward_columns(f, branches.end, n, x);
    while (a > branches.right && b > branches.left) backward_two(f, --a, --b, x);
    backward_columns(f, branches.right, a, x);
    backward_columns(f, 0, b, x);
}

uint32_t plain_solve(size_t unknowns, size_t n, size_t p, size_t s, const uint16_t *order, size_t order_length, const uint16_t *sizes,
                     size_t sizes_length, const uint16_t *parents, size_t parents_length, const uint32_t *column_starts,
                     size_t column_starts_length, const uint16_t *rows, size_t rows_length, const double *diagonal, size_t diagonal_length,
                     const double *values, size_t values_length, double *vector, size_t vector_length) {
    Plan plan = {unknowns, n, p, s, order, sizes, parents, rows, column_starts};
    Factor factor = {column_starts, rows, values};
    uint32_t refusal = plain_check_plan(&plan, order_length, sizes_length, parents_length, column_starts_length, rows_length);
    if (refusal) return refusal;
    if (unknowns != 1) return 29;
    if (diagonal_length != n || values_length != s || vector_length != n) return 30;
    if (!pivots_fit(n, diagonal)) return 31;
    forward(&factor, n, vector);
    divide(n, diagonal, vector);
    backward(&factor, n, find_branches(&plan), vector);
    return 0;
}
