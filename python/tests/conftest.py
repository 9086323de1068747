"""What the tests share: the repository's folders, and random grids."""

from __future__ import annotations

import random
from itertools import combinations
from pathlib import Path
from typing import List, Tuple

import pytest

ROOT = Path(__file__).resolve().parents[2]
SAMPLES = ROOT / "samples"


def edges_of(cells: List[Tuple[int, ...]]) -> List[Tuple[int, int]]:
    """The edges of cells, each once, in order."""
    return sorted({pair for cell in cells for pair in combinations(cell, 2)})


def box(size: int) -> List[Tuple[int, ...]]:
    """A box of cubes, each parted into six cells."""

    def node(x: int, y: int, z: int) -> int:
        return (x * (size + 1) + y) * (size + 1) + z

    cells = []
    steps = [(1, 0, 0), (0, 1, 0), (0, 0, 1)]
    for x in range(size):
        for y in range(size):
            for z in range(size):
                for order in ((0, 1, 2), (0, 2, 1), (1, 0, 2), (1, 2, 0), (2, 0, 1), (2, 1, 0)):
                    at, way = (x, y, z), [(x, y, z)]
                    for axis in order:
                        at = tuple(a + b for a, b in zip(at, steps[axis]))
                        way.append(at)
                    cells.append(tuple(sorted(node(*place) for place in way)))
    return cells


@pytest.fixture
def rng() -> random.Random:
    return random.Random(20261117)
