#!/usr/bin/env python3
"""Reads VTU files with meshio, and compares each with the PLY file beside it: points bit by bit, triangles, and the numbers of each triangle."""
import sys

import meshio
import numpy

NAMES = ["cell", "p0", "type", "sub_cell", "surface", "side"]


def ply_lists(name):
    """The points and the faces of a PLY file as text, each with its numbers."""
    with open(name) as file:
        lines = file.read().split("\n")
    sizes = [int(line.split()[-1]) for line in lines if line.startswith("element ")]
    body = lines[lines.index("end_header") + 1 :]
    points = [[float(word) for word in line.split()] for line in body[: sizes[0]]]
    faces = [[int(word) for word in line.split()] for line in body[sizes[0] : sum(sizes)]]
    return numpy.array(points), numpy.array(faces)


def compare(name):
    mesh = meshio.read(name)
    points, faces = ply_lists(name[: -len(".vtu")] + ".ply")
    assert mesh.points.dtype == numpy.float64 and numpy.array_equal(mesh.points, points), f"{name}: other points"
    assert [block.type for block in mesh.cells] == ["triangle"], f"{name}: other cells"
    assert numpy.array_equal(mesh.cells[0].data, faces[:, 1:4]), f"{name}: other triangles"
    assert sorted(mesh.cell_data) == sorted(NAMES), f"{name}: other cell data"
    for at, data in enumerate(NAMES):
        assert numpy.array_equal(mesh.cell_data[data][0], faces[:, 4 + at]), f"{name}: other {data}"


for name in sys.argv[1:]:
    compare(name)
print(f"read_vtu: {len(sys.argv) - 1} files as meshio reads them")
