/* The factoring's C interface, in libndfactor.a (`tools/staticlib ndfactor`, for x86-64), a second library above the planner's. It fills a plan of
 * ndplan.h: ndf_factor makes of the values of a symmetric matrix the factors L and D of L D Lᵀ, in place, in 64-bit floats; ndf_solve finds with them
 * the x of L D Lᵀ x = b; ndf_held reads, for display, what they hold at a pair of positions.
 *
 * THE VALUES stand in two buffers that the caller fills and ndf_factor works in; the other two functions only read them.
 *   diagonal  n entries  diagonal[i] is the matrix's entry at position i and itself: for the node v at that position, of v and v.
 *   values    s entries  values[k] is the entry of slot k: row rows[k] of the column that the slot is in (ndp_pair, ndp_slot). A slot that stands for
 *                        no entry of the matrix, which elimination fills, has to hold 0.
 * Entries are by position and not by node: that of nodes v and w belongs to positions[v] and positions[w]. So are those of a solution:
 *   vector    n entries  vector[i] is the entry of b at position i, for the node order[i], and in the end that of x.
 *
 * FACTORING. Columns go in ascending order. Column j's pivot d is diagonal[j] as it is then. Let v of i be the value in row i of the column. Every
 * slot of the column gets l of i = v of i / d. Then for each pair of the column's rows k <= i, in ascending k and within it ascending i, the product
 * (l of i) * (v of k), in which v of k is the value before its division, is subtracted: from diagonal[k] where i = k, else from the slot of row i
 * in column k. The checks see to it that there is one.
 * In the end diagonal[j] is entry j of D, and values[k] the entry of L in slot k; L has ones on its diagonal, which are not written.
 *
 * SOLVING has three passes over the vector, in this order. Let l of i be the value in row i of a column.
 *   forward    Columns go in ascending order. In column j, for each of its rows i, ascending, (l of i) * vector[j] is subtracted from vector[i].
 *   division   Every vector[j] is divided by diagonal[j].
 *   backward   Columns go in descending order. In column j, for each of its rows i, ascending, (l of i) * vector[i] is subtracted from vector[j].
 *
 * THE BITS. In factoring and in solving every quotient, every product and every difference is rounded to 64 bits, to nearest, ties to even, and
 * denormal numbers are kept; no operation is fused with another. So what is left is the same in every bit on every machine, but for NaN: where a
 * result is NaN, its sign and its other free bits are not fixed.
 *
 * THE CALLS. A buffer is a pointer and a length in entries, and what ndplan.h asks of the caller under THE CALLS holds here: a pointer is valid for
 * its length and aligned, null only where the length is 0, and no buffer that is written (`diagonal` and `values` by ndf_factor, `vector` by
 * ndf_solve) overlaps another. Of the thread's floating-point control the caller sees to two things, with which every program starts: the rounding
 * mode is to nearest, and neither "flush to zero" nor "denormals are zero" is set (a library that was built with -ffast-math may set them). Otherwise
 * the bits may be others, and with "denormals are zero" a denormal pivot may be refused; nothing else is harmed. Beyond that every function takes
 * every number and every content, and ends. Nothing is allocated and there is no static state: threads may call at once, each with the buffers that
 * are written of its own; a factor may be solved with by several threads. ndf_factor needs less than 128 KB of stack, the others less than 80 KB.
 *
 * REFUSALS. A reply has the number of the first check that fails, or 0; ndp_refusal_text says what each number means. Factoring and solving check 28,
 * 13 and 15 to 19 of the plan, made as ndp_write makes them, then 29, 30, and 31: ndf_factor when a column's pivot is reached, ndf_solve for every
 * pivot before anything is changed. ndf_held checks 1, 22, 30, then 21. On every refusal the reply's other fields are 0, whatever was done before, and
 * all buffers are as they were, but for the two of ndf_factor on 31. */
#ifndef NDFACTOR_H
#define NDFACTOR_H
#include "ndplan.h"

#ifdef __cplusplus
extern "C" {
#endif

/* Factoring: the smallest and the largest pivot, both finite and above 0, and how many divisions and multiplications were done, which is the plan's
 * count of multiplications (NdpPlan). A column without rows has a pivot too. */
typedef struct {
    uint32_t refusal;
    double smallest, largest;
    uint64_t operations;
} NdfReport;

/* Factors by the plan of n nodes, p parts and s slots, as ndp_plan or ndp_read left it, in `diagonal` and `values`. `order` has n entries, `sizes`
 * and `parents` p each, `column_starts` n + 1 and `rows` s; they may be longer, and nothing in them is changed. `diagonal_length` is n and
 * `values_length` is s, and no more.
 * Refuses with 28, 13, 15 to 19; 29 where there is more than one unknown for each node; 30 where `diagonal_length` is not n or `values_length` is
 * not s; and 31 where a column's pivot is not both finite and above zero: 0, -0.0, a negative number, an infinity or NaN. A NaN or an infinity in a
 * slot is no refusal by itself.
 * On 0 the buffers hold D and L. On 31 they hold what was reached before dividing by the refused pivot: the columns before it hold L, their pivots
 * stand in `diagonal`, and all that they subtract is subtracted; the refused column's values are not divided, and its pivot is the first entry of
 * `diagonal` that is not both finite and above zero. On any other number they are as they were. */
NdfReport ndf_factor(size_t unknowns, size_t n, size_t p, size_t s, const uint16_t *order, size_t order_length, const uint16_t *sizes,
                     size_t sizes_length, const uint16_t *parents, size_t parents_length, const uint32_t *column_starts, size_t column_starts_length,
                     const uint16_t *rows, size_t rows_length, double *diagonal, size_t diagonal_length, double *values, size_t values_length);

/* Solves L D Lᵀ x = b by the plan of n nodes, p parts and s slots in `vector`, which holds b and then x, both by position: b of node v stands at
 * positions[v], and x of node v is found there. The plan's lists are as in ndf_factor. `diagonal` and `values` are D and L as ndf_factor left them;
 * they are only read, so that one factor serves for any number of vectors. `diagonal_length` and `vector_length` are n and `values_length` is s, and no
 * more. Gives the refusal's number, or 0.
 * Refuses with 28, 13, 15 to 19; 29 where there is more than one unknown for each node; 30 where one of the three lengths is another; and 31 where an
 * entry of `diagonal`, any one, is not both finite and above zero. What ndf_factor left when it replied 0 always passes 31. A NaN or an infinity in
 * `values` or in `vector` is no refusal: it runs through, and so does an overflow on the way.
 * On a refusal, 31 too, `vector` is as it was. */
uint32_t ndf_solve(size_t unknowns, size_t n, size_t p, size_t s, const uint16_t *order, size_t order_length, const uint16_t *sizes,
                   size_t sizes_length, const uint16_t *parents, size_t parents_length, const uint32_t *column_starts, size_t column_starts_length,
                   const uint16_t *rows, size_t rows_length, const double *diagonal, size_t diagonal_length, const double *values,
                   size_t values_length, double *vector, size_t vector_length);

/* What is held at a pair of positions. NDF_NUMBER: `value` is the number, of the diagonal where the positions are equal, else of the pair's slot.
 * NDF_NO_SLOT: the pair has no slot. `kind` is 0 on a refusal, and `value` is +0.0 where no number is held. */
enum { NDF_NUMBER = 1, NDF_NO_SLOT = 2 };
typedef struct {
    uint32_t refusal, kind;
    double value;
} NdfHeld;

/* Reads `diagonal` and `values` at positions a and b, in either order: the factor, or before factoring the matrix. The number is given as it stands
 * there; on the diagonal that is D's entry and not L's 1. `column_starts_length` is n + 1 and `rows` may be longer than the slots, as in ndp_slot;
 * `diagonal_length` is n and `values_length` is column_starts[n], and no more, whatever the length of `rows`.
 * Refuses with 1, 22, 30 where one of these two lengths is another, and 21. It looks at the whole layout each time, as ndp_slot does. */
NdfHeld ndf_held(size_t n, const uint32_t *column_starts, size_t column_starts_length, const uint16_t *rows, size_t rows_length,
                 const double *diagonal, size_t diagonal_length, const double *values, size_t values_length, size_t a, size_t b);

#ifdef __cplusplus
}
#endif
#endif
