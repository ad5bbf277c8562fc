/* Small meshes by their edges. */
#include "lists.h"
#include <string.h>

static uint8_t joined[MOST_NODES][MOST_NODES];
static uint32_t starts[MOST_NODES + 1];
static uint16_t neighbours[MOST_NODES * MOST_NODES];

static void join(size_t v, size_t w) { joined[v][w] = joined[w][v] = 1; }

/* The neighbour lists of the joined nodes. */
static Mesh finish(size_t nodes) {
    uint32_t entries = 0;
    for (size_t v = 0; v < nodes; v++) {
        starts[v] = entries;
        for (size_t w = 0; w < nodes; w++) if (joined[v][w]) neighbours[entries++] = w;
    }
    starts[nodes] = entries;
    return (Mesh){nodes, {starts, nodes + 1}, {neighbours, entries}};
}

Mesh mesh_of_edges(size_t nodes, const char *edges) {
    memset(joined, 0, sizeof joined);
    for (const char *edge = edges; *edge; edge += edge[2] ? 3 : 2) join(edge[0] - '0', edge[1] - '0');
    return finish(nodes);
}

Mesh mesh_of_star(size_t leaves) {
    memset(joined, 0, sizeof joined);
    for (size_t w = 1; w <= leaves; w++) join(0, w);
    return finish(leaves + 1);
}

Mesh mesh_of_plate(size_t width, size_t height) {
    memset(joined, 0, sizeof joined);
    for (size_t v = 0; v < width * height; v++) {
        int right = v % width + 1 < width, below = v / width + 1 < height;
        if (right) join(v, v + 1);
        if (below) join(v, v + width);
        if (right && below) join(v, v + width + 1);
    }
    return finish(width * height);
}
