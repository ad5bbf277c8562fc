/* Plain C: what a factor holds at a pair of positions. Numbers of checks are documents 01's and 02's. */
#include "plain.h"

NdfHeld plain_held(size_t n, const uint32_t *column_starts, size_t column_starts_length, const uint16_t *rows, size_t rows_length,
                   const double *diagonal, size_t diagonal_length, const double *values, size_t values_length, size_t a, size_t b) {
    NdpSlot pair = plain_slot(n, column_starts, column_starts_length, rows, rows_length, a, b);
    /* 30 comes before the pair's own 21; behind 1 and 22 there is a last column start */
    if (pair.refusal && pair.refusal != 21) return (NdfHeld){pair.refusal, 0, 0};
    if (diagonal_length != n || values_length != column_starts[n]) return (NdfHeld){30, 0, 0};
    if (pair.refusal) return (NdfHeld){pair.refusal, 0, 0};
    if (pair.kind == NDP_NO_SLOT) return (NdfHeld){0, NDF_NO_SLOT, 0};
    return (NdfHeld){0, NDF_NUMBER, pair.kind == NDP_DIAGONAL ? diagonal[a] : values[pair.slot]};
}
