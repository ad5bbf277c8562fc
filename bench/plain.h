/* A plain C program of the same rules as the proved libraries, written apart from them; nothing in it is proved. The benchmark compares speed and
 * results with it, the tests of bindings/rust results, and tests/stored makes stored outputs with it. Its functions have the libraries' interface:
 * each is declared with the type of the function that it stands beside. Its working memory is static, so only one call may run at a time. */
#ifndef PLAIN_H
#define PLAIN_H
#include "ndfactor.h"

/* From libstages.a, for the benchmark alone: the checks of a mesh and the dissection, without the layout. Gives the number of parts, 0 where a
 * check refuses. */
size_t stage_order(size_t n, const uint32_t *starts, size_t starts_length, const uint16_t *neighbours, size_t neighbours_length);

__typeof__(ndp_plan) plain_plan;
__typeof__(stage_order) plain_stage_order;
__typeof__(ndp_read) plain_read;
/* The reader of a workshop that never updates, which knows version 1 of the file only. Of a file that it accepts the reply's unknowns are 1. */
__typeof__(ndp_read) plain_read_version_1;
__typeof__(ndp_write) plain_write;
__typeof__(ndp_slot) plain_slot;
__typeof__(ndp_rows) plain_rows;
__typeof__(ndp_pair) plain_pair;
__typeof__(ndp_matrix_market) plain_matrix_market;
__typeof__(ndp_join) plain_join;
__typeof__(ndp_family) plain_family;
__typeof__(ndf_factor) plain_factor;
__typeof__(ndf_solve) plain_solve;
__typeof__(ndf_held) plain_held;
#endif
