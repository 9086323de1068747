"""Subgrid marching tetrahedra by proved calls: every crossing of every edge is kept.

>>> from citternblaze import Grid, ONE_CELL
>>> grid = Grid.from_text(ONE_CELL)
>>> mesh, points = grid.mesh(), grid.places()
>>> points[mesh.points(grid.crossings)].shape
(2, 3, 3)

The calls are those of libcitternblaze, found beside this package, by the variable
CITTERNBLAZE_LIBRARY, or where it is installed. What a call refuses raises
`Refused`. A call takes up to 2.5 MB of its thread's stack.
"""

from ._bundles import CELL, EDGE, END, LOOK, WIDE_EDGE, Record, Summary, records, summary
from ._cells import Booking, Case, Joined, Unjoined, book, case, face, flat_face
from ._flat import Chain, Flat
from ._grid import ONE_CELL, Grid, Loop, LoopType, read_bundle, write_bundle
from ._mesh import INNER, INNER_CROSSING, INNER_FACE, MIDDLE, Mesh
from ._nearest import Nearest, nearest
from ._refusals import TEXTS, Refused
from ._version import VERSION as __version__

__all__ = [
    "Booking", "CELL", "Case", "Chain", "EDGE", "END", "Flat", "Grid", "INNER", "INNER_CROSSING", "INNER_FACE",
    "Joined", "LOOK", "Loop", "LoopType", "MIDDLE", "Mesh", "Nearest", "ONE_CELL", "Record", "Refused", "Summary",
    "TEXTS", "Unjoined", "WIDE_EDGE", "__version__", "book", "case", "face", "flat_face", "nearest", "read_bundle",
    "records", "summary", "write_bundle",
]  # fmt: skip
