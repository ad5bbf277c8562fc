/* The Matrix Market texts of the benchmark. Each maker overwrites the text that it is given. */
#ifndef TEXTS_H
#define TEXTS_H
#include "meshes.h"

enum { TEXT_PAIRS = 1 << 16, TEXT_BYTES = 16 * TEXT_PAIRS };

typedef struct {
    size_t length, nodes, pairs;
    uint8_t bytes[TEXT_BYTES];
} Text;

/* The text of a mesh. The pairs come column by column, in each by ascending rows, as such files have them, or in no order if `shuffled`. Each node's
 * diagonal pair is among them if `diagonal`. */
void make_text(Text *text, const Mesh *mesh, int diagonal, int shuffled);

/* The text of the first `pairs` of a band, in the same two orders: row v of the matrix has the diagonal and the twelve columns before it. If `again`
 * the first pair is also the last. */
void make_band_text(Text *text, size_t nodes, size_t pairs, int again, int shuffled);
#endif
