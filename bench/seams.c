/* The seams of the benchmark. */
#include "seams.h"
#include <string.h>

enum { NODES = NDP_MAX_NODES, NO_NODE = 65535 };

static uint8_t taken[NODES];

static void swap(uint16_t *list, size_t a, size_t b) {
    uint16_t kept = list[a];
    list[a] = list[b];
    list[b] = kept;
}

/* Puts the pairs in no order. */
static void shuffle_pairs(Seam *seam) {
    for (size_t k = seam->pairs; k-- > 1;) {
        size_t other = next_random(k + 1);
        swap(seam->first, k, other);
        swap(seam->second, k, other);
    }
}

static size_t list_length(const Mesh *mesh, size_t v) { return mesh->starts[v + 1] - mesh->starts[v]; }

/* Node v where it is not taken and has a shorter list than `best`, or else `best`. A node at the border has fewer neighbours than one inside. */
static size_t nearer_border(const Mesh *mesh, size_t best, size_t v) {
    if (taken[v] || (best != NO_NODE && list_length(mesh, best) <= list_length(mesh, v))) return best;
    return v;
}

/* A chain of nodes, each a neighbour of the one before as long as one of these is not taken. */
static void make_chain(const Mesh *mesh, uint16_t *chain, size_t count) {
    memset(taken, 0, sizeof taken);
    for (size_t k = 0; k < count; k++) {
        size_t best = NO_NODE, last = k > 0 ? chain[k - 1] : 0;
        if (k > 0) for (uint32_t e = mesh->starts[last]; e < mesh->starts[last + 1]; e++) best = nearer_border(mesh, best, mesh->neighbours[e]);
        for (size_t v = 0; best == NO_NODE && v < mesh->nodes; v++) best = nearer_border(mesh, best, v);
        chain[k] = best;
        taken[best] = 1;
    }
}

void make_border_seam(Seam *seam, const Mesh *first, const Mesh *second, size_t pairs) {
    seam->pairs = pairs;
    make_chain(first, seam->first, pairs);
    make_chain(second, seam->second, pairs);
    shuffle_pairs(seam);
}

void make_whole_seam(Seam *seam, size_t nodes) {
    seam->pairs = nodes;
    for (size_t v = 0; v < nodes; v++) seam->first[v] = seam->second[v] = v;
    shuffle_pairs(seam);
}

/* Puts `count` different numbers below `below` in front of the list. */
static void draw(uint16_t *list, size_t count, size_t below) {
    for (size_t v = 0; v < below; v++) list[v] = v;
    for (size_t k = 0; k < count; k++) swap(list, k, k + next_random(below - k));
}

void make_random_seam(Seam *seam, const Mesh *first, const Mesh *second, size_t pairs) {
    seam->pairs = pairs;
    draw(seam->first, pairs, first->nodes);
    draw(seam->second, pairs, second->nodes);
}
