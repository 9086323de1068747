"""A mesh: its triangles as words, and what these say."""

from __future__ import annotations

from typing import TYPE_CHECKING, Any, Optional

import numpy as np

from ._arrays import Numbers, floats

if TYPE_CHECKING:
    from ._grid import Grid

TRIANGLE_WORDS = 11
MIDDLE = 0xFFFF_FFFF
INNER = 0xFFFF_FFFF
MOST_CELLS = 2048
INNER_CROSSING = 65536
INNER_FACE = 8192


class Mesh:
    """The triangles of a grid: eleven words each (docs/FORMAT.md, "Triangles")."""

    def __init__(self, words: np.ndarray, splits: int, grid: Optional["Grid"] = None) -> None:
        #: the words, a row for each triangle
        self.words = words
        #: how often cells were split
        self.splits = splits
        self._grid = grid

    def __len__(self) -> int:
        return self.words.shape[0]

    def __repr__(self) -> str:
        return f"<Mesh: {len(self)} triangles, {self.splits} splits>"

    @property
    def cell(self) -> np.ndarray:
        """The cell of each triangle."""
        return self.words[:, 0] % MOST_CELLS

    @property
    def sub_cell(self) -> np.ndarray:
        """The part of a split cell that each triangle is of; else 0."""
        return self.words[:, 0] // MOST_CELLS

    @property
    def p0(self) -> np.ndarray:
        """The least crossing of each triangle's loop."""
        return self.words[:, 1]

    @property
    def corners(self) -> np.ndarray:
        """Three corners each: a crossing, or MIDDLE."""
        return self.words[:, 2:5]

    @property
    def sides(self) -> np.ndarray:
        """Three sides each, of two words: the face and the lower crossing of a
        segment, or INNER and the number of an inner side."""
        return self.words[:, 5:].reshape(-1, 3, 2)

    def points(self, crossings: int) -> np.ndarray:
        """For each triangle, which of the points that `Grid.places` gives its
        corners are: the grid's crossings, the inner crossings of split cells by
        cell, the middles of fans in mesh order.

        >>> from citternblaze import Grid
        >>> edges = [[0, 1], [0, 2], [0, 3], [1, 2], [1, 3], [2, 3]]
        >>> grid = Grid([[0, 1, 2, 3]], edges, [2, 0, 0, 0, 0, 0])
        >>> grid.mesh().points(grid.crossings).tolist()
        [[0, 1, 2], [1, 0, 2]]
        """
        corners = self.corners.astype(np.int64)
        middle = corners == MIDDLE
        inner = (corners >= INNER_CROSSING) & ~middle
        first = self._first_inner(corners, inner)
        cell = np.broadcast_to(self.cell[:, None], corners.shape)
        corners[inner] += crossings - INNER_CROSSING + first[cell[inner]]
        corners[middle] = (crossings + first[MOST_CELLS] + self._fan())[:, None].repeat(3, 1)[middle]
        return corners

    def _first_inner(self, corners: np.ndarray, inner: np.ndarray) -> np.ndarray:
        """How many inner crossings stand before those of each cell; last, all."""
        counts = np.zeros(MOST_CELLS + 1, np.int64)
        cell = np.broadcast_to(self.cell[:, None], corners.shape)
        np.maximum.at(counts[1:], cell[inner], corners[inner] - INNER_CROSSING + 1)
        return np.cumsum(counts)

    def _fan(self) -> np.ndarray:
        """The number of the fan that each triangle is of, where it is of one."""
        fan = self.words[:, 4] == MIDDLE
        begins = fan.copy()
        same = (self.words[1:, 0] == self.words[:-1, 0]) & (self.words[1:, 1] == self.words[:-1, 1])
        begins[1:] &= ~(same & fan[:-1])
        return np.cumsum(begins) - 1

    def _placed(self, points: Optional[Numbers]) -> tuple:
        if self._grid is None:
            raise ValueError("a mesh without its grid has no places")
        places = self._grid.places() if points is None else floats("the points", points, 3)
        triangles = self.points(self._grid.crossings)
        if triangles.size and int(triangles.max()) >= len(places):
            raise ValueError(f"the points: {len(places)} are too few, as the mesh has point {int(triangles.max())}")
        return places, triangles

    def to_meshio(self, points: Optional[Numbers] = None) -> Any:
        """The mesh for meshio, with cell data cell, sub_cell and p0. Without
        points those of `Grid.places`, where the grid knows its nodes' places."""
        import meshio

        places, triangles = self._placed(points)
        data = {"cell": self.cell, "sub_cell": self.sub_cell, "p0": self.p0}
        cell_data = {name: [np.ascontiguousarray(column)] for name, column in data.items()}
        return meshio.Mesh(places, [("triangle", triangles)], cell_data=cell_data)

    def to_pyvista(self, points: Optional[Numbers] = None) -> Any:
        """The mesh for pyvista, with cell data cell, sub_cell and p0; points as
        in `to_meshio`."""
        import pyvista

        places, triangles = self._placed(points)
        mesh = pyvista.PolyData(places, np.insert(triangles, 0, 3, axis=1).ravel())
        for name, column in {"cell": self.cell, "sub_cell": self.sub_cell, "p0": self.p0}.items():
            mesh.cell_data[name] = column
        return mesh
