"""The calls on a grid, against what document and samples say."""

from __future__ import annotations

import pickle

import numpy as np
import pytest

import citternblaze as cb
from conftest import SAMPLES, box, edges_of

EDGES = [[0, 1], [0, 2], [0, 3], [1, 2], [1, 3], [2, 3]]


def one(counts) -> cb.Grid:
    return cb.Grid([[0, 1, 2, 3]], EDGES, counts)


def test_octagon() -> None:
    grid = cb.Grid.from_text(SAMPLES / "texts/octagon.txt")
    loop = grid.loops(0)
    assert loop == [cb.Loop(0, 8, True, cb.LoopType.DIAGONAL, 1)]
    mesh = grid.mesh()
    assert len(mesh) == 8 and mesh.sides.shape == (8, 3, 2)
    assert grid.places().shape == (9, 3)
    with pytest.raises(cb.Refused) as refused:
        grid.loops(1)
    assert (refused.value.number, refused.value.place) == (11, 1)


def test_types_and_shading() -> None:
    assert one([1, 1, 1, 0, 0, 0]).loops(0)[0].type is cb.LoopType.LOWEST_CORNER
    assert one([1, 0, 0, 1, 1, 0]).loops(0)[0][3:] == (cb.LoopType.CORNER, 1)
    assert one([1, 1, 1, 0, 0, 0]).shading()[:5].tolist() == [0, 1, 1, 1, 255]
    with pytest.raises(cb.Refused, match="refused 20 at 0"):
        one([1, 0, 0, 0, 0, 0]).shading()


def test_settings_are_those_of_a_grid_opened_afresh() -> None:
    grid = one([2, 0, 0, 0, 0, 0])
    assert grid.set_count(0, 0) == 0 and grid.set_count(3, 4) == 4
    for wrong in ((6, 1), (0, 4096)):
        with pytest.raises(cb.Refused):
            grid.set_count(*wrong)
    fresh = one([0, 0, 0, 4, 0, 0])
    assert (grid.starts == fresh.starts).all() and (grid.mesh().words == fresh.mesh().words).all()
    with pytest.raises(ValueError):
        grid.counts[0] = 7


def test_runs_joined_are_the_mesh() -> None:
    cells = box(2)
    edges = edges_of(cells)
    grid = cb.Grid(cells, edges, [sum(edge) % 3 for edge in edges])
    whole = grid.mesh()
    assert (grid.joined([5, 17]).words == whole.words).all()
    runs = grid.runs([5, 17])
    assert [len(run) for run in runs] == [int(((whole.cell >= a) & (whole.cell < b)).sum()) for a, b in
                                          ((0, 5), (5, 17), (17, len(cells)))]
    with pytest.raises(cb.Refused, match="refused 25 at 1"):
        grid.joined([5, 5])
    with pytest.raises(cb.Refused, match="refused 26 at 3"):
        grid.run([5, 17], 3)


def test_places_are_exact_where_they_can_be() -> None:
    cells = box(1)
    edges = edges_of(cells)
    grid = cb.Grid(cells, edges, [1] * len(edges))
    nodes = [[x * 1024, y * 1024, z * 1024] for x in (0, 1) for y in (0, 1) for z in (0, 1)]
    places = grid.places(nodes, [0.25] * len(edges))
    for (u, v), place in zip(edges, places.tolist()):
        assert place == [a + (b - a) / 4 for a, b in zip(nodes[u], nodes[v])]
    with pytest.raises(cb.Refused, match="refused 17 at 2"):
        grid.places(nodes, [0.5, 0.5, 1.0] + [0.5] * (len(edges) - 3))
    with pytest.raises(ValueError, match="nodes are not known"):
        grid.places()


def test_nearest() -> None:
    assert cb.nearest([[0, 0, 0], [0, 0, 0]], [1, 2, 2]) == (0, 9.0)
    with pytest.raises(cb.Refused, match="refused 23 at 4"):
        cb.nearest([[0, 0, 0]], [0, float("nan"), 0])


def test_flat() -> None:
    sheet = cb.Flat([[0, 1, 2], [0, 1, 3]], [[0, 1], [0, 2], [0, 3], [1, 2], [1, 3]], [2, 0, 0, 0, 0])
    assert [(chain.closed, chain.crossings.tolist()) for chain in sheet.chains()] == [(True, [0, 1])]
    with pytest.raises(cb.Refused, match="refused 7 at 0"):
        cb.Flat([[0, 1, 2]], [[0, 1], [0, 2]], [0, 0])


def test_meshio() -> None:
    meshio = pytest.importorskip("meshio")
    grid = cb.Grid.from_text(SAMPLES / "texts/octagon.txt")
    mesh = grid.mesh().to_meshio()
    assert isinstance(mesh, meshio.Mesh) and mesh.cells_dict["triangle"].shape == (8, 3)
    assert mesh.cell_data["p0"][0].tolist() == [0] * 8


def test_a_refusal_can_be_pickled() -> None:
    refused = pickle.loads(pickle.dumps(cb.Refused(9, 4)))
    assert (refused.number, refused.place) == (9, 4)


def test_arrays_that_fit_are_not_copied() -> None:
    cells = np.array([[0, 1, 2, 3]], np.uint16)
    grid = cb.Grid(cells, EDGES, [0] * 6)
    assert np.shares_memory(grid.cells, cells)
