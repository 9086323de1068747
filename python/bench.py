"""How long the package takes beside the library's calls alone: mesh and places of a box of 2,058 cells cut by levels, medians of the monotonic clock
over rounds in which both take turns. The calls alone are lent areas that are there already, and sized by a call without an area, as a C program does
it; the package makes its areas anew each time.

    PYTHONPATH=python python3 python/bench.py [ROUNDS]
"""

import sys
import time
from itertools import combinations
from statistics import median

import numpy as np

from citternblaze import Grid
from citternblaze._library import library, lent

SIZE = 7
LEVELS = 36


def box() -> tuple:
    """The cells, edges and nodes of a box of cubes, each parted into six cells."""
    at = np.array([(x, y, z) for x in range(SIZE + 1) for y in range(SIZE + 1) for z in range(SIZE + 1)])
    number = {tuple(place): index for index, place in enumerate(at.tolist())}
    cells = []
    for x, y, z in at.tolist():
        for first in range(3):
            for second in range(3):
                if first != second and max(x, y, z) < SIZE:
                    way = np.eye(3, dtype=int)
                    path = [(x, y, z)]
                    for step in (way[first], way[second], way[3 - first - second]):
                        path.append(tuple(np.add(path[-1], step).tolist()))
                    cells.append(sorted(number[place] for place in path))
    cells = sorted(cells)[:2048]
    edges = sorted({pair for cell in cells for pair in combinations(cell, 2)})
    return cells, edges, at.astype(float)


def levels(edges: list, nodes: np.ndarray) -> tuple:
    """How often each edge crosses level sets of a slope, and where."""
    height = nodes @ (1.03, 0.61, 0.37) * LEVELS / 12 + 0.317
    counts, fractions = [], []
    for u, v in edges:
        low, high = sorted((height[u], height[v]))
        crossed = np.arange(np.ceil(low), np.floor(high) + 1)
        where = np.sort((crossed - height[u]) / (height[v] - height[u]))
        counts.append(len(where))
        fractions += where.tolist()
    return counts, fractions


def raw(grid: Grid, nodes: np.ndarray, fractions: np.ndarray):
    """Mesh and places by the calls alone."""
    call, answer = library(), np.zeros(6, np.uint64)
    words = np.empty(11 * grid.triangle_count(), np.uint32)
    points = np.empty(3 * (grid.crossings + grid.triangle_count()))
    lists, numbers = grid._lists(), lent(answer)
    placed = (*lent(nodes), *lent(fractions))

    def run() -> None:
        call.citternblaze_mesh(*lists, None, 0, *numbers)
        call.citternblaze_mesh(*lists, *lent(words), *numbers)
        call.citternblaze_mesh(*lists, None, 0, *numbers)
        call.citternblaze_places(*lists, *placed, *lent(points), *numbers)

    return run


def main() -> None:
    rounds = int(sys.argv[1]) if len(sys.argv) > 1 else 200
    cells, edges, nodes = box()
    counts, fractions = levels(edges, nodes)
    grid = Grid(cells, edges, counts)
    fractions = np.array(fractions)
    calls = raw(grid, nodes, fractions)

    def package() -> None:
        grid.mesh()
        grid.places(nodes, fractions)

    times = {calls: [], package: []}
    for _ in range(rounds):
        for run, taken in times.items():
            start = time.monotonic_ns()
            run()
            taken.append(time.monotonic_ns() - start)
    alone, whole = (median(taken) / 1000 for taken in times.values())
    print(f"{len(cells)} cells, {grid.crossings} crossings, {grid.triangle_count()} triangles")
    print(f"calls alone {alone:.0f} us, package {whole:.0f} us, ratio {whole / alone:.2f}")


main()
