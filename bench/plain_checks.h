/* Plain C: the checks of a mesh that planning and joining share, and those of a plan that the reader, the writer, the questions, factoring and
 * solving share. Their working memory is static. */
#ifndef PLAIN_CHECKS_H
#define PLAIN_CHECKS_H
#include "ndplan.h"

/* Checks 1 to 6, 26 and 7 of a mesh, from plain_plan.c: the number of the first that fails, or 0. */
uint32_t plain_check_mesh(size_t n, const uint32_t *starts, size_t starts_length, const uint16_t *neighbours, size_t entries);

/* A plan of n nodes, p parts and s slots, with its unknowns for each node. */
typedef struct {
    size_t unknowns, n, p, s;
    const uint16_t *order, *sizes, *parents, *rows;
    const uint32_t *column_starts;
} Plan;

/* 28: the number of unknowns for each node is 1 to 6. */
int plain_unknowns_fit(size_t unknowns);

/* 13, as far as the numbers tell. */
int plain_counts_fit(size_t n, size_t p, size_t s);

/* 17 and 22: the column starts begin at 0 and never fall. It stands here so that the questions have it inlined. */
static inline int plain_starts_fit(size_t n, const uint32_t *column_starts) {
    if (column_starts[0] != 0) return 0;
    for (size_t j = 0; j < n; j++) if (column_starts[j + 1] < column_starts[j]) return 0;
    return 1;
}

/* Checks 15 to 19 of a plan that has passed 13. */
uint32_t plain_check_contents(const Plan *plan);

/* Checks 28, 13 and 15 to 19 of a plan in lists of these lengths, as the writer makes them. */
uint32_t plain_check_plan(const Plan *plan, size_t order_length, size_t sizes_length, size_t parents_length, size_t column_starts_length,
                          size_t rows_length);
#endif
