"""From a scan to a file for ParaView: reads the text of a grid, or a bundle with places that are made up, meshes and
places it, and writes a VTU file.

    python3 examples/scan.py samples/texts/octagon.txt octagon.vtu
"""

import sys
from pathlib import Path

import numpy as np

from citternblaze import Grid

source, target = Path(sys.argv[1]), sys.argv[2]
if source.suffix == ".txt":
    grid = Grid.from_text(source)
else:
    grid = Grid.from_bundle(source.read_bytes())
    grid.nodes = np.random.default_rng(1).uniform(-1, 1, (int(grid.cells.max()) + 1, 3))
    grid.fractions = np.concatenate([(np.arange(count) + 1) / (count + 1) for count in grid.counts.tolist()])

mesh = grid.mesh()
print(f"{len(grid.cells)} cells, {grid.crossings} crossings, {len(mesh)} triangles, {mesh.splits} splits")
mesh.to_meshio().write(target)
