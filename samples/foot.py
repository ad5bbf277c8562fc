#!/usr/bin/env python3
"""Writes foot.mesh and foot.mtx: a triangulated outline of a foot, in the listing program's input format and as a Matrix Market text.

The points of a triangular grid that lie inside a few ellipses (heel, arch, ball, toes) are the nodes, numbered row by row from the heel;
grid neighbours are joined. foot.mesh, little-endian: n (16 bits), n + 1 starts (32 bits each), neighbours (16 bits each). foot.mtx: the pairs of
neighbours, column by column, nodes counted from 1.
"""
import struct

# centre x, centre y, half width, half length
ELLIPSES = [(0.0, 3.0, 3.1, 4.0), (0.6, 9.0, 2.4, 7.0), (0.3, 16.5, 4.4, 4.6), (-2.3, 21.5, 1.5, 2.6), (0.6, 21.8, 1.2, 2.0), (2.6, 20.9, 1.1, 1.8), (4.1, 19.6, 0.9, 1.6)]


def inside(x, y):
    return any(((x - cx) / a) ** 2 + ((y - cy) / b) ** 2 <= 1 for cx, cy, a, b in ELLIPSES)


points = {}
for row in range(-2, 32):
    for column in range(-8, 9):
        if inside(0.9 * (column + 0.5 * (row % 2)), 0.84 * row):
            points[row, column] = len(points)

lists = []
for (row, column), node in points.items():
    shift = row % 2
    near = [(row, column - 1), (row, column + 1), (row - 1, column - 1 + shift), (row - 1, column + shift), (row + 1, column - 1 + shift), (row + 1, column + shift)]
    lists.append(sorted(points[p] for p in near if p in points))

starts = [0]
for entries in lists:
    starts.append(starts[-1] + len(entries))
with open("foot.mesh", "wb") as out:
    out.write(struct.pack("<H", len(lists)))
    out.write(struct.pack("<%dI" % len(starts), *starts))
    out.write(struct.pack("<%dH" % starts[-1], *(w for entries in lists for w in entries)))
pairs = [(row, column) for column, entries in enumerate(lists) for row in entries if row > column]
with open("foot.mtx", "w", newline="\n") as out:
    out.write("%%MatrixMarket matrix coordinate pattern symmetric\n")
    out.write("% A triangulated outline of a foot, made by foot.py: the mesh of foot.mesh.\n")
    out.write("% Rows, columns and pairs; then a row and a column for each pair of neighbours, nodes counted from 1.\n")
    out.write("%d %d %d\n" % (len(lists), len(lists), len(pairs)))
    out.writelines("%d %d\n" % (row + 1, column + 1) for row, column in pairs)
print(len(lists), "nodes", starts[-1], "entries")
