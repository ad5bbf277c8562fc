/* The meshes of the benchmark. Each maker overwrites the mesh that it is given, and ends the program where that mesh is not within the limits. */
#ifndef MESHES_H
#define MESHES_H
#include "ndplan.h"

typedef struct {
    size_t nodes, entries;
    uint32_t starts[NDP_MAX_NODES + 1];
    uint16_t neighbours[NDP_MAX_ENTRIES];
} Mesh;

/* A number below `below`, from a sequence that every maker begins anew. */
uint32_t next_random(uint32_t below);

/* A plate, numbered row by row; each node has two diagonal neighbours more if `triangulated`. With `holes` some squares of 4 by 4 are left out, and
 * the plate is longer instead, so that there are `nodes` nodes in any case. A width of 1 gives a path. */
void make_plate(Mesh *mesh, size_t width, size_t nodes, int triangulated, int holes);

/* A foot as a scan gives it: rows of nodes across an outline, as many in a row as the outline is wide there, one more or less by chance, the strips
 * between two rows triangulated with diagonals that lean by chance, and the nodes numbered in no order. */
void make_foot(Mesh *mesh, size_t nodes);

/* A triangulated plate that is closed to a ring in its width. */
void make_tube(Mesh *mesh, size_t width, size_t height);

/* A tree: node v > 0 hangs on node (v - 1) / arity; an arity below NDP_MAX_NEIGHBOURS. */
void make_tree(Mesh *mesh, size_t nodes, size_t arity);

/* Different edges between nodes drawn at random, without those that would make a list too long. */
void make_random(Mesh *mesh, size_t nodes, size_t edges);

/* A chain of cliques of `size` nodes, each joined to the next by one edge; a size up to NDP_MAX_NEIGHBOURS. */
void make_cliques(Mesh *mesh, size_t nodes, size_t size);

/* A bush: 2,200 leaves on 1,144 hubs, and branches, tops and joints over the hubs, from which up to 72 tails hang, paths of six nodes. In a region
 * that holds the bush and a tail every leaf is a candidate for the root, equally far and wider, so none is better, and the cut takes the last node of
 * one tail: there are as many cuts as tails, and for each as many walks over all entries as leaves. */
void make_bush(Mesh *mesh, size_t tails);
#endif
