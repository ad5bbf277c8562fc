/* Plain C: the LDLᵀ factorization by a plan, in document 02's order of operations. Numbers of checks are documents 01's and 02's. It is compiled
 * with -ffp-contract=off, so that a product and a difference are two operations that round once each.
 *
 * By check 19 the rows of a column behind its row k are all rows of column k, so both lists are run down side by side: a run of rows that agree,
 * then a gap of rows that column k has alone. Where column k has as many slots left as there are rows left, these are the same rows, and none is
 * looked at any more. That is asked at the front and behind each gap. Of the shapes that were tried it is the fastest over feet and plates; without
 * the question behind a gap feet are some 8 % faster and large plates 20 % slower. Slower on both are a question at each row, a merge without a
 * branch, and a map from row to slot. */
#include "plain.h"
#include "plain_checks.h"
#include <float.h>

_Static_assert(FLT_EVAL_METHOD == 0, "every operation rounds to the type of its operands");

enum { NODES = NDP_MAX_NODES };

/* The column at hand: how many rows it has, its rows, and its values before the division by the pivot and behind it. */
typedef struct {
    size_t count;
    const uint16_t *rows;
    double v[NODES], l[NODES];
} Column;

/* 31: NaN is not above zero. */
static int pivot_fits(double pivot) { return pivot > 0 && pivot <= DBL_MAX; }

static void divide(Column *column, double *values, double pivot) {
    for (size_t b = 0; b < column->count; b++) {
        column->v[b] = values[b];
        column->l[b] = values[b] = column->v[b] / pivot;
    }
}

/* Subtracts at slots that stand one after the other; by fours, since gcc makes pairs of lanes of a loop whose length it knows. */
static inline void subtract_all(double *restrict values, const double *restrict l, double v, size_t count) {
    size_t b = 0;
    for (; b + 4 <= count; b += 4) for (int c = 0; c < 4; c++) values[b + c] -= l[b + c] * v;
    for (; b < count; b++) values[b] -= l[b] * v;
}

/* Subtracts in a later column, of so many slots, the products of v with `left` numbers l, of these rows. */
static inline void subtract_below(const uint16_t *column_rows, double *restrict values, size_t slots, const uint16_t *rows, const double *restrict l,
                                  size_t left, double v) {
    size_t t = 0, b = 0;
    while (slots - t != left - b) {
        for (; b < left && column_rows[t] == rows[b]; t++, b++) values[t] -= l[b] * v;
        if (b == left) return;
        do t++; while (column_rows[t] != rows[b]);
    }
    subtract_all(values + t, l + b, v, left - b);
}

/* Subtracts at all pairs of the column's rows, those of the diagonal among them. */
static void subtract_pairs(const Column *column, const Plan *plan, double *restrict diagonal, double *restrict values) {
    const uint32_t *starts = plan->column_starts;
    for (size_t a = 0; a < column->count; a++) {
        size_t k = column->rows[a], start = starts[k], left = column->count - a - 1;
        diagonal[k] -= column->l[a] * column->v[a];
        subtract_below(plan->rows + start, values + start, starts[k + 1] - start, column->rows + a + 1, column->l + a + 1, left, column->v[a]);
    }
}

/* Factors by a plan that has passed its checks, in buffers of its lengths. Refuses with 31. */
static NdfReport factor_columns(const Plan *plan, double *restrict diagonal, double *restrict values) {
    static Column column;
    NdfReport report = {.smallest = DBL_MAX};
    for (size_t j = 0; j < plan->n; j++) {
        double pivot = diagonal[j];
        uint32_t start = plan->column_starts[j];
        if (!pivot_fits(pivot)) return (NdfReport){.refusal = 31};
        column.count = plan->column_starts[j + 1] - start;
        column.rows = plan->rows + start;
        divide(&column, values + start, pivot);
        subtract_pairs(&column, plan, diagonal, values);
        if (pivot < report.smallest) report.smallest = pivot;
        if (pivot > report.largest) report.largest = pivot;
        report.operations += (uint64_t)column.count * (column.count + 3) / 2;
    }
    return report;
}

NdfReport plain_factor(size_t unknowns, size_t n, size_t p, size_t s, const uint16_t *order, size_t order_length, const uint16_t *sizes,
                       size_t sizes_length, const uint16_t *parents, size_t parents_length, const uint32_t *column_starts,
                       size_t column_starts_length, const uint16_t *rows, size_t rows_length, double *diagonal, size_t diagonal_length,
                       double *values, size_t values_length) {
    Plan plan = {unknowns, n, p, s, order, sizes, parents, rows, column_starts};
    uint32_t refusal = plain_check_plan(&plan, order_length, sizes_length, parents_length, column_starts_length, rows_length);
    if (!refusal && unknowns != 1) refusal = 29;
    if (!refusal && (diagonal_length != n || values_length != s)) refusal = 30;
    if (refusal) return (NdfReport){.refusal = refusal};
    return factor_columns(&plan, diagonal, values);
}
