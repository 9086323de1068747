"""Arrays that are not what is wanted: a clear exception, and nothing else happens."""

from __future__ import annotations

import random

import numpy as np
import pytest

import citternblaze as cb

CELLS = [[0, 1, 2, 3]]
EDGES = [[0, 1], [0, 2], [0, 3], [1, 2], [1, 3], [2, 3]]
COUNTS = [2, 0, 0, 0, 0, 0]


@pytest.mark.parametrize(
    "cells, wrong",
    [
        ([[0.0, 1.0, 2.0, 3.0]], TypeError),
        ([["0", "1", "2", "3"]], TypeError),
        ([[True, False, True, True]], TypeError),
        ([[0, 1, 2, None]], TypeError),
        ([[0, 1, 2], [0, 1, 2, 3]], (TypeError, ValueError)),
        ([0, 1, 2, 3], ValueError),
        ([[[0, 1, 2, 3]]], ValueError),
        ([[0, 1, 2, -3]], ValueError),
        ([[0, 1, 2, 65536]], ValueError),
        ([[0, 1, 2, 10**30]], (TypeError, ValueError, OverflowError)),
        (7, ValueError),
        (None, TypeError),
        (np.zeros((1, 4), np.complex128), TypeError),
        (np.zeros((1, 4), "datetime64[s]"), TypeError),
    ],
)
def test_cells_that_are_none(cells, wrong) -> None:
    with pytest.raises(wrong) as error:
        cb.Grid(cells, EDGES, COUNTS)
    assert not isinstance(error.value, cb.Refused)
    assert "cells" in str(error.value) or isinstance(error.value, OverflowError)


def test_shapes_that_the_library_would_misread() -> None:
    with pytest.raises(ValueError, match="rows of 2"):
        cb.Grid(CELLS, np.array(EDGES).reshape(4, 3), COUNTS)
    with pytest.raises(ValueError, match="one row"):
        cb.Grid(CELLS, EDGES, [COUNTS])
    with pytest.raises(cb.Refused, match="refused 2 at 0"):
        cb.Grid(CELLS, EDGES, COUNTS[:5])
    with pytest.raises(cb.Refused, match="refused 1 at 0"):
        cb.Grid([], [], [])


def test_not_contiguous_read_only_and_other_byte_orders() -> None:
    wanted = cb.Grid(CELLS, EDGES, COUNTS).mesh().words
    wide = np.zeros((6, 4), np.uint16)
    wide[:, ::2] = EDGES
    for cells, edges, counts in [
        (np.array(CELLS, ">u2"), wide[:, ::2], np.array(COUNTS, np.int64)),
        (np.asfortranarray(np.array(CELLS * 1, np.uint16)), np.asfortranarray(np.array(EDGES, np.uint16)), COUNTS),
        (np.array(CELLS, np.uint8), np.array(EDGES, np.uint64), np.array(COUNTS[::-1], np.uint16)[::-1]),
    ]:
        for array in (cells, edges, counts):
            if isinstance(array, np.ndarray):
                array.flags.writeable = False
        grid = cb.Grid(cells, edges, counts)
        assert (grid.mesh().words == wanted).all()
        grid.set_count(0, 0)


def test_numbers_that_are_none() -> None:
    grid = cb.Grid(CELLS, EDGES, COUNTS)
    for wrong in (-1, 1 << 64):
        with pytest.raises(ValueError):
            grid.loops(wrong)
    for wrong in (0.5, "0", None, True):
        with pytest.raises(TypeError):
            grid.loops(wrong)
    with pytest.raises(ValueError):
        grid.set_count(0, 65536)
    with pytest.raises(ValueError):
        cb.book([1, 2, 3])
    with pytest.raises(ValueError):
        cb.face(0, 0, 0, -1, 0)
    with pytest.raises(ValueError):
        cb.nearest([[0, 0, 0]], [0, 0])
    with pytest.raises(TypeError):
        cb.read_bundle("text")
    with pytest.raises(TypeError):
        grid.places(np.zeros((4, 3), bool), [0.5, 0.6])


def test_a_grid_that_was_changed_behind_its_back_is_checked_again() -> None:
    cells = np.array(CELLS, np.uint16)
    grid = cb.Grid(cells, EDGES, COUNTS)
    cells[0, 3] = 60000
    with pytest.raises(cb.Refused, match="refused 3 at 0"):
        grid.mesh()


def test_huge_lists_are_refused_or_told() -> None:
    with pytest.raises(cb.Refused, match="refused 1 at 0"):
        cb.Grid(np.zeros((1_000_000, 4), np.uint16), EDGES, COUNTS)
    with pytest.raises(ValueError, match="too many"):
        cb.Grid(np.broadcast_to(np.uint16(0), (1 << 30, 4)), EDGES, COUNTS)


def test_random_bytes() -> None:
    rng = random.Random(7)
    for length in range(200):
        bundle = bytes(rng.choice((0, 1, 2, 3, 4, 5, 7, 8, 10, 255)) for _ in range(length))
        with pytest.raises(cb.Refused):
            cb.Grid.from_bundle(bundle)


@pytest.mark.parametrize(
    "text, told",
    [
        ("", "line 1: the first line"),
        ("citternblaze grid\ncell 0 1 2", "line 2: 4 whole numbers"),
        ("citternblaze grid\ncell 0 1 2 x", "line 2: 'x' is no whole number"),
        ("citternblaze grid\nnode 0 0 0 inf", "line 2: 'inf' is no finite"),
        ("citternblaze grid\nnode 0 1 1 1\nnode 0 1 1 1", "line 3: stated a second time"),
        ("citternblaze grid\n\x1b[2Jx", r"line 2: '\\x1b\[2Jx' is none"),
        ("citternblaze grid\n" + "z" * 10**6, r"line 2: 'z{40}\.\.' is none"),
    ],
)
def test_texts_that_are_none(text: str, told: str) -> None:
    with pytest.raises(ValueError, match=told):
        cb.Grid.from_text(text)
