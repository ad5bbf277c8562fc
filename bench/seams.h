/* The seams of the benchmark: the pairs of nodes that two meshes are joined along. Each maker overwrites the seam that it is given. */
#ifndef SEAMS_H
#define SEAMS_H
#include "meshes.h"

typedef struct {
    size_t pairs;
    uint16_t first[NDP_MAX_NODES], second[NDP_MAX_NODES];
} Seam;

/* A chain of neighbours along the border of the first mesh, node by node with such a chain of the second; the pairs come in no order. */
void make_border_seam(Seam *seam, const Mesh *first, const Mesh *second, size_t pairs);

/* Each of so many nodes with itself; the pairs come in no order. */
void make_whole_seam(Seam *seam, size_t nodes);

/* Nodes of the first mesh with nodes of the second, both drawn at random; the pairs come in no order. */
void make_random_seam(Seam *seam, const Mesh *first, const Mesh *second, size_t pairs);
#endif
