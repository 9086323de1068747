"""A grid and the calls on it."""

from __future__ import annotations

import os
from enum import IntEnum
from typing import List, NamedTuple, Optional, Union

import numpy as np

from . import _text
from ._arrays import Numbers, as_bytes, floats, whole_number, whole_numbers
from ._library import call, lent
from ._mesh import TRIANGLE_WORDS, Mesh
from ._refusals import done

_MESH_AREA = 12
_SHADING_BYTES = 4096
_SIZE_MOST = (1 << 64) - 1


class LoopType(IntEnum):
    """The type of a loop."""

    CONTRACTIBLE = 0
    CORNER = 1
    DIAGONAL = 2
    LOWEST_CORNER = 3


class Loop(NamedTuple):
    """A loop of a cell: its least crossing, its length, whether it is normal, its
    type, and the type's node (None for a contractible one)."""

    p0: int
    length: int
    normal: bool
    type: LoopType
    node: Optional[int]


class Grid:
    """An accepted tetrahedral grid with the crossings of its edges.

    Opens cells (rows of four nodes), edges (rows of two) and a count for each
    edge; raises `Refused` where the grid check finds a fault. Arrays of 16-bit
    numbers are taken for cells and edges without a copy; counts are copied,
    since `set_count` changes them.

    >>> edges = [[0, 1], [0, 2], [0, 3], [1, 2], [1, 3], [2, 3]]
    >>> grid = Grid([[0, 1, 2, 3]], edges, [0, 1, 1, 1, 1, 0])
    >>> grid.crossings, len(grid.mesh())
    (4, 2)
    """

    def __init__(
        self,
        cells: Numbers,
        edges: Numbers,
        counts: Numbers,
        *,
        nodes: Optional[Numbers] = None,
        fractions: Optional[Numbers] = None,
    ) -> None:
        self.cells = whole_numbers("the cells", cells, np.uint16, 4)
        self.edges = whole_numbers("the edges", edges, np.uint16, 2)
        self._counts = whole_numbers("the counts", counts, np.uint16).copy()
        self._starts = np.zeros(self._counts.size, np.uint32)
        self._crossings = int(done(call("open", *self._lists()))[0])
        #: the places of the nodes and the fractions of the crossings, where they are known
        self.nodes = None if nodes is None else floats("the nodes", nodes, 3)
        self.fractions = None if fractions is None else floats("the fractions", fractions)

    @classmethod
    def from_bundle(cls, bundle: Union[bytes, bytearray, memoryview]) -> "Grid":
        """The grid of a bundle's bytes.

        >>> grid = Grid.from_bundle(Grid.from_text(ONE_CELL).bundle())
        >>> grid.counts.tolist()
        [2, 0, 0, 0, 0, 0]
        """
        return cls(*read_bundle(bundle))

    @classmethod
    def from_text(cls, text: Union[str, "os.PathLike[str]"]) -> "Grid":
        """The grid of a text (docs/FORMAT.md), given as a string or by the path of
        its file, with its places; the crossings of an edge without `fractions`
        lie at even distances.

        >>> Grid.from_text(ONE_CELL).places().tolist()
        [[2.0, 0.0, 0.0], [6.0, 0.0, 0.0], [4.0, 0.0, 0.0]]
        """
        if isinstance(text, os.PathLike):
            with open(text, encoding="utf-8-sig", newline="\n") as file:
                text = file.read()
        return _grid_of(cls, _text.read(text))

    def _lists(self) -> tuple:
        return (*lent(self.cells), *lent(self.edges), *lent(self._counts), *lent(self._starts))

    def __repr__(self) -> str:
        return f"<Grid: {len(self.cells)} cells, {len(self.edges)} edges, {self._crossings} crossings>"

    @property
    def crossings(self) -> int:
        """How many crossings the grid has."""
        return self._crossings

    @property
    def counts(self) -> np.ndarray:
        """The count of each edge, as a view that cannot be written to: `set_count`
        does that."""
        return _read_only(self._counts)

    @property
    def starts(self) -> np.ndarray:
        """The number of each edge's first crossing, as a view that cannot be
        written to."""
        return _read_only(self._starts)

    def check(self) -> int:
        """Checks the grid again, as every other call does, and gives the number of
        crossings."""
        return int(done(call("check", *self._lists()))[0])

    def set_count(self, edge: int, count: int) -> int:
        """Sets the count of an edge, and gives the number of crossings. Fractions
        that the grid had are forgotten, as they are no longer one to a crossing.

        >>> grid = Grid.from_text(ONE_CELL)
        >>> grid.set_count(1, 3), grid.starts.tolist()
        (5, [0, 2, 5, 5, 5, 5])
        """
        edge = whole_number("the edge", edge, _SIZE_MOST)
        count = whole_number("the count", count, 0xFFFF)
        self._crossings = int(done(call("set_count", *self._lists(), edge, count))[0])
        self.fractions = None
        return self._crossings

    def mesh(self) -> Mesh:
        """The triangles of the grid.

        >>> Grid.from_text(ONE_CELL).mesh().words.tolist()[0][:5]
        [0, 0, 0, 1, 4294967295]
        """
        return self._meshed("mesh")

    def run(self, cuts: Numbers, run: int) -> Mesh:
        """The triangles of one run, as a grid of its own; each cut is the first
        cell of a run, and run 0 starts at cell 0."""
        run = whole_number("the run", run, _SIZE_MOST)
        return self._meshed("mesh_run", *lent(_cuts(cuts)), run)

    def runs(self, cuts: Numbers) -> List[Mesh]:
        """The triangles of each run, each as a grid of its own."""
        cuts = _cuts(cuts)
        return [self.run(cuts, run) for run in range(cuts.size + 1)]

    def joined(self, cuts: Numbers) -> Mesh:
        """The triangles of all runs in the names of the whole: the mesh.

        >>> grid = Grid.from_text(ONE_CELL)
        >>> bool((grid.joined([]).words == grid.mesh().words).all())
        True
        """
        return self._meshed("mesh_joined", *lent(_cuts(cuts)))

    def triangle_count(self) -> int:
        """How many triangles the mesh has, without making it.

        >>> Grid.from_text(ONE_CELL).triangle_count()
        2
        """
        return self._counted("mesh")

    def _counted(self, name: str, *more: object) -> int:
        """The number of triangles that a call would write: without an area it
        refuses with that number, or there are none."""
        answer = call(name, *self._lists(), *more, None, 0)
        return int(answer[1]) if int(answer[0]) == _MESH_AREA else int(done(answer)[0])

    def _meshed(self, name: str, *more: object) -> Mesh:
        words = np.empty((self._counted(name, *more), TRIANGLE_WORDS), np.uint32)
        _, splits = done(call(name, *self._lists(), *more, *lent(words)))
        # a run has crossings of its own, which the grid does not place
        return Mesh(words, int(splits), None if name == "mesh_run" else self)

    def loops(self, cell: int) -> List[Loop]:
        """The loops of a cell, by their least crossings.

        >>> Grid.from_text(ONE_CELL).loops(0)
        [Loop(p0=0, length=2, normal=False, type=<LoopType.CONTRACTIBLE: 0>, node=None)]
        """
        cell = whole_number("the cell", cell, _SIZE_MOST)
        found: List[Loop] = []
        while True:
            numbers = [int(number) for number in done(call("loops", *self._lists(), cell, len(found)))]
            if not numbers:
                return found
            node = numbers[4] if len(numbers) > 4 else None
            found.append(Loop(numbers[0], numbers[1], numbers[2] == 1, LoopType(numbers[3]), node))

    def places(self, nodes: Optional[Numbers] = None, fractions: Optional[Numbers] = None) -> np.ndarray:
        """The places of the grid's points, a row for each: crossings by number,
        inner crossings of split cells, middles of fans (`Mesh.points` says which a
        triangle has). Nodes are rows of three numbers from node 0 on; there is a
        fraction for each crossing. Without them those that the grid has."""
        nodes = self._known("nodes", self.nodes if nodes is None else nodes)
        fractions = self._known("fractions", self.fractions if fractions is None else fractions)
        nodes, fractions = floats("the nodes", nodes, 3), floats("the fractions", fractions)
        # a cell has more triangles than fans and inner crossings
        area = np.empty((self._crossings + self.triangle_count(), 3))
        points = done(call("places", *self._lists(), *lent(nodes), *lent(fractions), *lent(area)))
        return area[: int(points[0])]

    @staticmethod
    def _known(what: str, given: Optional[Numbers]) -> Numbers:
        if given is None:
            raise ValueError(f"the {what} are not known: places() takes them")
        return given

    def shading(self) -> np.ndarray:
        """The side of each node, 0 or 1, and 255 for a node of no cell: 4,096
        bytes. Raises `Refused` (20) where the grid has none."""
        area = np.empty(_SHADING_BYTES, np.uint8)
        done(call("shading", *self._lists(), *lent(area)))
        return area

    def bundle(self) -> bytes:
        """The bytes of the grid's bundle."""
        return write_bundle(self.cells, self.edges, self._counts)


def _read_only(array: np.ndarray) -> np.ndarray:
    view = array.view()
    view.flags.writeable = False
    return view


def _cuts(cuts: Numbers) -> np.ndarray:
    return whole_numbers("the cuts", cuts, np.uint16)


def _grid_of(cls: type, text: _text.Text) -> Grid:
    cells, edges, counts = read_bundle(_bundle_of(text))
    grid = cls(cells, edges, counts)
    places = [text.nodes.get(node) for node in range(int(cells.max()) + 1)]
    if all(places[int(node)] is not None for node in np.unique(cells)):
        grid.nodes = np.array([place or (0.0, 0.0, 0.0) for place in places])
        grid.fractions = _fractions_of(grid, text)
    return grid


def _fractions_of(grid: Grid, text: _text.Text) -> np.ndarray:
    fractions: List[float] = []
    for (u, v), count in zip(grid.edges.tolist(), grid.counts.tolist()):
        stated = text.fractions.get((u, v))
        if stated is not None and len(stated) != count:
            raise ValueError(f"the edge {u} {v} has {count} crossings and {len(stated)} fractions")
        fractions += stated if stated is not None else [(k + 1) / (count + 1) for k in range(count)]
    return np.array(fractions)


def _bundle_of(text: _text.Text) -> bytes:
    """The bundle of a text's cells, edges and later looks."""
    cells = np.array(text.cells, np.uint16).reshape(-1, 4)
    edges = np.array(text.edges, np.uint16).reshape(-1, 2)
    whole = write_bundle(cells, edges, np.array(text.counts, np.uint16))
    looks = b"".join(
        b"\x08\x00\x05\x00" + np.array(look, "<u2").tobytes() for look in text.looks
    )
    end = whole[-4:]
    return whole[:-4] + looks + end


def read_bundle(bundle: Union[bytes, bytearray, memoryview]) -> tuple:
    """The cells, edges and counts of a bundle, with what its later looks set; the
    grid is not checked.

    >>> cells, edges, counts = read_bundle(Grid.from_text(ONE_CELL).bundle())
    >>> cells.tolist(), len(edges), counts.tolist()
    ([[0, 1, 2, 3]], 6, [2, 0, 0, 0, 0, 0])
    """
    given = as_bytes("the bundle", bundle)
    # a cell has 12 bytes or more, an edge 9
    cells = np.empty((given.size // 12, 4), np.uint16)
    edges = np.empty((given.size // 9, 2), np.uint16)
    counts = np.empty(given.size // 9, np.uint16)
    found = done(call("bundle_read", *lent(given), *lent(cells), *lent(edges), *lent(counts)))
    cell_count, edge_count = (int(number) for number in found)
    return cells[:cell_count].copy(), edges[:edge_count].copy(), counts[:edge_count].copy()


def write_bundle(cells: Numbers, edges: Numbers, counts: Numbers) -> bytes:
    """The bundle of cells, edges and counts; the grid is not checked.

    >>> len(write_bundle([[0, 1, 2, 3]], [[0, 1]], [2]))
    25
    """
    cells = whole_numbers("the cells", cells, np.uint16, 4)
    edges = whole_numbers("the edges", edges, np.uint16, 2)
    counts = whole_numbers("the counts", counts, np.uint16)
    # 12 bytes a cell, 9 an edge or 10 where its count is over 255, and the end's 4
    area = np.empty(3 * cells.size + 10 * counts.size + 4, np.uint8)
    written = done(call("bundle_write", *lent(cells), *lent(edges), *lent(counts), *lent(area)))
    return area[: int(written[0])].tobytes()


#: one cell 0 1 2 3 with two crossings on its first edge, as a text
ONE_CELL = """citternblaze grid
cell 0 1 2 3
edge 0 1 2
edge 0 2 0
edge 0 3 0
edge 1 2 0
edge 1 3 0
edge 2 3 0
node 0 0 0 0
node 1 8 0 0
node 2 0 8 0
node 3 0 0 8
fractions 0 1 0.25 0.75
"""
