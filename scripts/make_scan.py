#!/usr/bin/env python3
"""Prints the text of a scan: a box of cubes, six cells each, with two thin slabs and a ball in it.

make_scan.py [CUBES [SIZE]]    so many cubes along each side (else 6), each of this size (else 10, in cm)

An edge is crossed where it meets the lower or the upper face of a slab, or the surface of the ball. samples/texts/scan.txt is what it
prints without arguments.
"""
import math
import sys
from itertools import combinations, permutations, product

# shapes by the box's side: a slab is the places whose product with the normal lies from its start on for its thickness
SLABS = [((0.1, 0.05, 1.0), 0.31, 0.03), ((-0.3, 0.2, 1.0), 0.62, 0.02)]
BALL = ((0.35, 0.3, 0.12), 0.09)
DIGITS = 9


def dot(one, other):
    return sum(a * b for a, b in zip(one, other))


def box(cubes, size):
    """The cells, and the place of each node. A cell goes from a cube's lowest corner to its highest along its sides."""

    def number(at):
        return (at[0] * (cubes + 1) + at[1]) * (cubes + 1) + at[2]

    cells = []
    for cube in product(range(cubes), repeat=3):
        for order in permutations(range(3)):
            at = list(cube)
            cell = [number(at)]
            for axis in order:
                at[axis] += 1
                cell.append(number(at))
            cells.append(tuple(cell))
    places = {number(at): tuple(size * step for step in at) for at in product(range(cubes + 1), repeat=3)}
    return cells, places


def slab_fractions(start, along, normal, low, thick):
    """Where an edge meets the two faces of a slab."""
    slope = dot(normal, along)
    if slope == 0:
        return []
    return [(height - dot(normal, start)) / slope for height in (low, low + thick)]


def ball_fractions(start, along, centre, radius):
    """Where an edge meets the surface of a ball."""
    away = tuple(a - b for a, b in zip(start, centre))
    a, b, c = dot(along, along), dot(away, along), dot(away, away) - radius * radius
    room = b * b - a * c
    if room <= 0:
        return []
    return [(-b - math.sqrt(room)) / a, (-b + math.sqrt(room)) / a]


def fractions(start, end, side):
    along = tuple(b - a for a, b in zip(start, end))
    found = []
    for normal, low, thick in SLABS:
        found += slab_fractions(start, along, normal, low * side, thick * side)
    centre, radius = BALL
    found += ball_fractions(start, along, tuple(side * number for number in centre), radius * side)
    return sorted({round(s, DIGITS) for s in found if 0 < round(s, DIGITS) < 1})


def main():
    cubes = int(sys.argv[1]) if len(sys.argv) > 1 else 6
    size = float(sys.argv[2]) if len(sys.argv) > 2 else 10.0
    cells, places = box(cubes, size)
    edges = sorted({pair for cell in cells for pair in combinations(cell, 2)})
    crossed = {(u, v): fractions(places[u], places[v], cubes * size) for u, v in edges}
    print("citternblaze grid")
    print(f"# A box of {cubes} x {cubes} x {cubes} cubes of {size:g} cm, with two thin slabs and a ball: scripts/make_scan.py")
    for cell in cells:
        print("cell", *cell)
    for u, v in edges:
        print("edge", u, v, len(crossed[u, v]))
    for node in sorted(places):
        print("node", node, *(f"{number:g}" for number in places[node]))
    for u, v in edges:
        if crossed[u, v]:
            print("fractions", u, v, *crossed[u, v])


main()
