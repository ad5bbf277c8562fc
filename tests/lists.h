/* Lists with their lengths, and small meshes by their edges, for the makers of the stored outputs. */
#ifndef LISTS_H
#define LISTS_H
#include "ndplan.h"

typedef struct {
    const uint16_t *at;
    size_t length;
} List16;

typedef struct {
    const uint32_t *at;
    size_t length;
} List32;

#define LIST16(...) ((List16){(const uint16_t[]){__VA_ARGS__}, sizeof(const uint16_t[]){__VA_ARGS__} / sizeof(uint16_t)})
#define LIST32(...) ((List32){(const uint32_t[]){__VA_ARGS__}, sizeof(const uint32_t[]){__VA_ARGS__} / sizeof(uint32_t)})
#define EMPTY16 ((List16){NULL, 0})
#define EMPTY32 ((List32){NULL, 0})

/* A mesh of at most 256 nodes. */
enum { MOST_NODES = 256 };
typedef struct {
    size_t nodes;
    List32 starts;
    List16 neighbours;
} Mesh;

/* The mesh with these edges, each two digits, with a space between edges. It holds until the next mesh is made. */
Mesh mesh_of_edges(size_t nodes, const char *edges);

/* A star: node 0 next to so many leaves. It holds until the next mesh is made. */
Mesh mesh_of_star(size_t leaves);

/* A plate of so many nodes, row by row, in which each node is joined to the nodes beside, above and below it and along one diagonal. It holds until
 * the next mesh is made. */
Mesh mesh_of_plate(size_t width, size_t height);
#endif
