/* The Matrix Market texts of the benchmark. */
#include "texts.h"
#include <stdio.h>

enum { BAND = 12 };

/* The pairs of the text at hand, counted from 0. */
typedef struct {
    uint32_t row, column;
} Pair;
static Pair pairs[TEXT_PAIRS];

static void add_pair(Text *text, size_t row, size_t column) {
    pairs[text->pairs++] = (Pair){row, column};
}

static void begin(Text *text, size_t nodes) {
    text->nodes = nodes;
    text->pairs = 0;
}

static void shuffle(size_t count) {
    for (size_t k = count - 1; k > 0; k--) {
        size_t other = next_random(k + 1);
        Pair kept = pairs[k];
        pairs[k] = pairs[other];
        pairs[other] = kept;
    }
}

/* The text of the pairs. */
static void finish(Text *text) {
    char *at = (char *)text->bytes;
    at += sprintf(at, "%%%%MatrixMarket matrix coordinate pattern symmetric\n%% made for the benchmark\n");
    at += sprintf(at, "%zu %zu %zu\n", text->nodes, text->nodes, text->pairs);
    for (size_t k = 0; k < text->pairs; k++) at += sprintf(at, "%u %u\n", pairs[k].row + 1, pairs[k].column + 1);
    text->length = at - (char *)text->bytes;
}

void make_text(Text *text, const Mesh *mesh, int diagonal, int shuffled) {
    begin(text, mesh->nodes);
    for (size_t v = 0; v < mesh->nodes; v++) {
        if (diagonal) add_pair(text, v, v);
        for (size_t e = mesh->starts[v]; e < mesh->starts[v + 1]; e++) if (mesh->neighbours[e] > v) add_pair(text, mesh->neighbours[e], v);
    }
    if (shuffled) shuffle(text->pairs);
    finish(text);
}

void make_band_text(Text *text, size_t nodes, size_t count, int again, int shuffled) {
    begin(text, nodes);
    for (size_t v = 0; v < nodes; v++) for (size_t w = v; w < nodes && w <= v + BAND && text->pairs < count; w++) add_pair(text, w, v);
    if (shuffled) shuffle(text->pairs);
    if (again) pairs[text->pairs - 1] = pairs[0];
    finish(text);
}
