/* Plain C: the checks of a plan. Numbers of checks are documents 01's and 02's. */
#include "plain_checks.h"
#include <string.h>

enum { NODES = NDP_MAX_NODES, NONE = NDP_NO_PARENT };

/* 28: the number of unknowns for each node is 1 to 6. */
int plain_unknowns_fit(size_t unknowns) { return 1 <= unknowns && unknowns <= NDP_MAX_UNKNOWNS; }

/* 13, as far as the numbers tell. */
int plain_counts_fit(size_t n, size_t p, size_t s) {
    return 1 <= n && n <= NODES && 1 <= p && p <= n && s <= n * (n - 1) / 2;
}

/* 15: the order is each node once. */
static int order_fits(const Plan *plan) {
    static uint8_t seen[NODES];
    memset(seen, 0, plan->n);
    for (size_t i = 0; i < plan->n; i++) {
        size_t v = plan->order[i];
        if (v >= plan->n || seen[v]) return 0;
        seen[v] = 1;
    }
    return 1;
}

/* 16: no size is 0, the sizes sum to n, each parent is none or a later part. */
static int parts_fit(const Plan *plan) {
    size_t sum = 0;
    for (size_t q = 0; q < plan->p; q++) {
        size_t parent = plan->parents[q];
        if (plan->sizes[q] == 0) return 0;
        if (parent != NONE && (parent <= q || parent >= plan->p)) return 0;
        sum += plan->sizes[q];
    }
    return sum == plan->n;
}

/* A part with all parts below it, in a numbering of the parts in which these follow one another: the numbers from `first` on, `count` of them. The
 * part's own number is `first`. */
typedef struct { uint16_t first, count; } Branch;

/* How many parts each branch has. A parent is a later part, so all that stand below a part are counted in its branch before that is counted in its
 * parent's. */
static void count_branches(const Plan *plan, Branch *branches) {
    for (size_t q = 0; q < plan->p; q++) branches[q].count = 1;
    for (size_t q = 0; q < plan->p; q++) if (plan->parents[q] != NONE) branches[plan->parents[q]].count += branches[q].count;
}

/* Gives each branch its numbers, from the last part to the first, so that a parent has them before its children: each child takes the next numbers
 * that are left of its parent's, and a part without parent the next numbers of all. */
static void number_branches(const Plan *plan, Branch *branches) {
    static uint16_t left[NODES];
    uint16_t left_of_all = 0;
    for (size_t q = plan->p; q-- > 0;) {
        uint16_t *from = plan->parents[q] == NONE ? &left_of_all : &left[plan->parents[q]];
        branches[q].first = *from;
        *from += branches[q].count;
        left[q] = branches[q].first + 1;
    }
}

/* For each position the branch of the part that it lies in. */
static const Branch *branches_by_position(const Plan *plan) {
    static Branch branches[NODES], by_position[NODES];
    size_t i = 0;
    count_branches(plan, branches);
    number_branches(plan, branches);
    for (size_t q = 0; q < plan->p; q++) for (size_t end = i + plan->sizes[q]; i < end; i++) by_position[i] = branches[q];
    return by_position;
}

/* 17, as far as the rows tell, and 18: each row lies in its column's part or in one of that part's ancestors, so that the column's part is in the
 * branch of the row's. (Where the number of the column's part is less than the branch's first, the difference, cut to 16 bits, is above every count.)
 * Both in one walk over the rows. A fault of 17 ends it; one of 18 is kept to the end, since one of 17 may follow. */
static uint32_t check_rows(const Plan *plan) {
    const Branch *branch = branches_by_position(plan);
    const uint16_t *rows = plan->rows;
    size_t n = plan->n;
    uint32_t refusal = 0;
    for (size_t j = 0; j < n; j++) {
        uint16_t own = branch[j].first;
        size_t before = j;
        for (uint32_t k = plan->column_starts[j]; k < plan->column_starts[j + 1]; k++) {
            size_t row = rows[k];
            if (row <= before || row >= n) return 17;
            if ((uint16_t)(own - branch[row].first) >= branch[row].count) refusal = 18;
            before = row;
        }
    }
    return refusal;
}

/* Columns in lists by their first row: `head` has for each row the first column of its list, and `next` for each column the one behind it; NONE ends
 * a list. */
typedef struct { uint16_t head[NODES], next[NODES]; } Lists;

/* 19 for the columns whose rows after the first are as many as the first row's column has, or more: they have to be the same. The columns with fewer
 * are put in the lists. */
static int equal_columns_fit(const Plan *plan, Lists *lists) {
    const uint16_t *rows = plan->rows;
    const uint32_t *starts = plan->column_starts;
    for (size_t j = 0; j < plan->n; j++) {
        if (starts[j + 1] - starts[j] < 2) continue;
        size_t first = rows[starts[j]], count = starts[j + 1] - starts[j] - 1, most = starts[first + 1] - starts[first];
        if (count < most) {
            lists->next[j] = lists->head[first];
            lists->head[first] = j;
        } else if (count > most || memcmp(rows + starts[j] + 1, rows + starts[first], count * sizeof *rows) != 0) return 0;
    }
    return 1;
}

/* Whether the rows of column j after its first are all marked with the first. */
static int rows_are_marked(const Plan *plan, const uint16_t *marks, size_t first, size_t j) {
    for (uint32_t k = plan->column_starts[j] + 1; k < plan->column_starts[j + 1]; k++) if (marks[plan->rows[k]] != first) return 0;
    return 1;
}

/* 19 for the columns in the lists. The rows of a first row's column are marked once for all columns of its list. */
static int listed_columns_fit(const Plan *plan, const Lists *lists) {
    static uint16_t marks[NODES];
    for (size_t i = 0; i < plan->n; i++) marks[i] = NONE;
    for (size_t first = 0; first < plan->n; first++) {
        if (lists->head[first] == NONE) continue;
        for (uint32_t k = plan->column_starts[first]; k < plan->column_starts[first + 1]; k++) marks[plan->rows[k]] = first;
        for (size_t j = lists->head[first]; j != NONE; j = lists->next[j]) if (!rows_are_marked(plan, marks, first, j)) return 0;
    }
    return 1;
}

/* 19: each column's rows after the first are all in the first row's column. */
static int rows_in_first_column(const Plan *plan) {
    static Lists lists;
    for (size_t i = 0; i < plan->n; i++) lists.head[i] = NONE;
    return equal_columns_fit(plan, &lists) && listed_columns_fit(plan, &lists);
}

/* Checks 15 to 19. */
uint32_t plain_check_contents(const Plan *plan) {
    if (!order_fits(plan)) return 15;
    if (!parts_fit(plan)) return 16;
    if (!plain_starts_fit(plan->n, plan->column_starts) || plan->column_starts[plan->n] != plan->s) return 17;
    uint32_t refusal = check_rows(plan);
    if (refusal) return refusal;
    return rows_in_first_column(plan) ? 0 : 19;
}

uint32_t plain_check_plan(const Plan *plan, size_t order_length, size_t sizes_length, size_t parents_length, size_t column_starts_length,
                          size_t rows_length) {
    size_t n = plan->n, p = plan->p, s = plan->s;
    if (!plain_unknowns_fit(plan->unknowns)) return 28;
    if (!plain_counts_fit(n, p, s)) return 13;
    if (order_length < n || sizes_length < p || parents_length < p || column_starts_length < n + 1 || rows_length < s) return 13;
    return plain_check_contents(plan);
}
