/* The meshes of the benchmark. */
#include "meshes.h"
#include <stdio.h>
#include <stdlib.h>
#include <string.h>

enum { NODES = NDP_MAX_NODES, CELLS = 2 * NODES, NO_NODE = 65535 };

static uint8_t joined[NODES][NODES];
static uint32_t seed;

uint32_t next_random(uint32_t below) {
    seed = seed * 1664525u + 1013904223u;
    return (seed >> 8) % below;
}

/* Ends the program where a mesh is not within the limits. */
static void expect(int holds, const char *fault) {
    if (holds) return;
    fprintf(stderr, "a mesh of the benchmark has %s\n", fault);
    exit(2);
}

static void begin(Mesh *mesh, size_t nodes) {
    expect(nodes <= NODES, "too many nodes");
    mesh->nodes = nodes;
    seed = 1;
    memset(joined, 0, sizeof joined);
}

static void join(size_t v, size_t w) {
    joined[v][w] = joined[w][v] = 1;
}

static void shuffle(uint16_t *list, size_t count) {
    for (size_t k = count - 1; k > 0; k--) {
        size_t other = next_random(k + 1);
        uint16_t kept = list[k];
        list[k] = list[other];
        list[other] = kept;
    }
}

/* The neighbour lists of the joined nodes. */
static void finish(Mesh *mesh) {
    mesh->entries = 0;
    for (size_t v = 0; v < mesh->nodes; v++) {
        mesh->starts[v] = mesh->entries;
        for (size_t w = 0; w < mesh->nodes; w++) {
            if (!joined[v][w]) continue;
            expect(mesh->entries < NDP_MAX_ENTRIES, "too many entries");
            mesh->neighbours[mesh->entries++] = w;
        }
        expect(mesh->entries - mesh->starts[v] <= NDP_MAX_NEIGHBOURS, "a list that is too long");
    }
    mesh->starts[mesh->nodes] = mesh->entries;
}

static int in_hole(size_t x, size_t y) {
    return x / 4 % 3 == 1 && y / 4 % 3 == 1;
}

void make_plate(Mesh *mesh, size_t width, size_t nodes, int triangulated, int holes) {
    static uint16_t at[CELLS];
    begin(mesh, nodes);
    size_t v = 0;
    for (size_t cell = 0; cell < CELLS && v < nodes; cell++) {
        size_t x = cell % width, y = cell / width;
        at[cell] = NO_NODE;
        if (holes && in_hole(x, y)) continue;
        at[cell] = v;
        if (x > 0 && at[cell - 1] != NO_NODE) join(v, at[cell - 1]);
        if (y > 0 && at[cell - width] != NO_NODE) join(v, at[cell - width]);
        if (triangulated && x > 0 && y > 0 && at[cell - width - 1] != NO_NODE) join(v, at[cell - width - 1]);
        v++;
    }
    finish(mesh);
}

/* How wide a foot is, in hundredths, at each tenth of its length from the heel. */
static const uint32_t outline[11] = {50, 66, 68, 62, 60, 66, 78, 90, 96, 88, 60};

/* How many nodes stand in row `row` of about `rows`: the outline's width there, one more or less by chance. */
static size_t row_length(size_t row, size_t rows, size_t nodes) {
    size_t at = row < rows ? 1000 * row / rows : 999, tenth = at / 100, rest = at % 100;
    size_t width = (outline[tenth] * (100 - rest) + outline[tenth + 1] * rest) / 100;
    return nodes * width / (72 * rows) + next_random(3) + 1;
}

/* Triangles between `a` nodes from `above` on and `b` nodes from `below` on; `number` gives each node its number. */
static void join_rows(const uint16_t *number, size_t above, size_t a, size_t below, size_t b) {
    size_t i = 0, k = 0;
    join(number[above], number[below]);
    while (i + 1 < a || k + 1 < b) {
        /* along the row that is behind, or by chance where both are about as far */
        size_t left = (i + 1) * b * 4 + next_random(3 * (a + b)), right = (k + 1) * a * 4 + next_random(3 * (a + b));
        if (k + 1 == b || (i + 1 < a && left < right)) i++;
        else k++;
        join(number[above + i], number[below + k]);
    }
}

void make_foot(Mesh *mesh, size_t nodes) {
    static uint16_t number[NODES];
    size_t rows = 1;
    begin(mesh, nodes);
    while (rows * rows < 3 * nodes) rows++;
    for (size_t v = 0; v < nodes; v++) number[v] = v;
    shuffle(number, nodes);
    for (size_t first = 0, above = 0, row = 0, length, before = 0; first < nodes; above = first, before = length, first += length, row++) {
        length = row_length(row, rows, nodes);
        if (length > nodes - first) length = nodes - first;
        for (size_t v = first + 1; v < first + length; v++) join(number[v - 1], number[v]);
        if (row > 0) join_rows(number, above, before, first, length);
    }
    finish(mesh);
}

void make_tube(Mesh *mesh, size_t width, size_t height) {
    begin(mesh, width * height);
    for (size_t y = 0; y < height; y++) for (size_t x = 0; x < width; x++) {
        size_t v = y * width + x, right = y * width + (x + 1) % width;
        join(v, right);
        if (y + 1 < height) { join(v, v + width); join(v, right + width); }
    }
    finish(mesh);
}

void make_tree(Mesh *mesh, size_t nodes, size_t arity) {
    begin(mesh, nodes);
    for (size_t v = 1; v < nodes; v++) join(v, (v - 1) / arity);
    finish(mesh);
}

void make_random(Mesh *mesh, size_t nodes, size_t edges) {
    static uint16_t length[NODES];
    begin(mesh, nodes);
    memset(length, 0, sizeof length);
    for (size_t k = 0; k < edges;) {
        size_t v = next_random(nodes), w = next_random(nodes);
        if (v == w || joined[v][w] || length[v] == NDP_MAX_NEIGHBOURS || length[w] == NDP_MAX_NEIGHBOURS) continue;
        join(v, w);
        length[v]++;
        length[w]++;
        k++;
    }
    finish(mesh);
}

void make_cliques(Mesh *mesh, size_t nodes, size_t size) {
    begin(mesh, nodes);
    for (size_t v = 0; v < nodes; v++) {
        for (size_t w = v + 1; w < nodes && w / size == v / size; w++) join(v, w);
        if (v % size == size - 1 && v + 1 < nodes) join(v, v + 1);
    }
    finish(mesh);
}

/* A bush: how many nodes a tail has, how many joints, side nodes, tops and branches there are, and how many hubs and leaves a branch has. */
enum { TAIL = 6, JOINTS = 4, SIDES = 25, GROUPS = 8, GROUP = 11, HUBS = 13, LEAVES = 25 };
enum { TOPS = GROUPS * (GROUPS - 1) / 2, BRANCHES = GROUPS * GROUP };

/* Paths of six nodes from node 0 on, whose last nodes hang on the joints in turn. The nodes of the next tail are next to the last node, so that they
 * are never further than the leaves while this tail stands. */
static void join_tails(size_t tails, size_t first_joint) {
    for (size_t t = 0; t < tails; t++) {
        size_t first = TAIL * t, last = first + TAIL - 1;
        for (size_t v = first; v < last; v++) join(v, v + 1);
        for (size_t v = last + 1; t + 1 < tails && v < last + TAIL; v++) join(last, v);
        join(last, first_joint + t % JOINTS);
    }
}

/* Each top is next to the branches of two groups, and every two groups have one, so that the way from a branch to another leads over one top. The
 * joints are next to the four tops of groups 0 and 1, 2 and 3, 4 and 5, 6 and 7, so that every branch is equally far from them. */
static void join_tops(size_t first_joint, size_t first_top, size_t first_branch) {
    size_t top = first_top;
    for (size_t a = 0; a < GROUPS; a++) for (size_t b = a + 1; b < GROUPS; b++, top++) {
        for (size_t k = 0; k < GROUP; k++) { join(top, first_branch + a * GROUP + k); join(top, first_branch + b * GROUP + k); }
        for (size_t j = 0; a % 2 == 0 && b == a + 1 && j < JOINTS; j++) join(top, first_joint + j);
    }
}

/* A branch with its hubs, and its leaves, each next to all of these hubs. */
static void join_leaves(size_t branch, size_t first_hub, size_t first_leaf) {
    for (size_t h = first_hub; h < first_hub + HUBS; h++) {
        join(branch, h);
        for (size_t l = first_leaf; l < first_leaf + LEAVES; l++) join(h, l);
    }
}

/* From a tail's last node to a leaf it is as far as to the tail's first node: over a joint, a top, a branch and a hub. The leaves are the widest
 * level from the tail's first node. From a leaf, the leaves of all other branches make one level with the side nodes, which are as many as the leaves
 * of its own branch, and with nodes of tails: it is wider. */
void make_bush(Mesh *mesh, size_t tails) {
    size_t joint = TAIL * tails, side = joint + JOINTS, top = side + 1 + SIDES, branch = top + TOPS, hub = branch + BRANCHES;
    size_t leaf = hub + BRANCHES * HUBS;
    begin(mesh, leaf + BRANCHES * LEAVES);
    join_tails(tails, joint);
    for (size_t v = joint; v < side; v++) for (size_t w = joint; w < v; w++) join(v, w);
    join(joint, side);
    for (size_t k = 1; k <= SIDES; k++) join(side, side + k);
    join_tops(joint, top, branch);
    for (size_t b = 0; b < BRANCHES; b++) join_leaves(branch + b, hub + b * HUBS, leaf + b * LEAVES);
    finish(mesh);
}
