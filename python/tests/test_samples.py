"""Every sample's listing, and random grids' as the second implementation has them."""

from __future__ import annotations

import random
import subprocess
from itertools import combinations

import numpy as np
import pytest

import citternblaze as cb
from conftest import ROOT, SAMPLES, box, edges_of

LISTED_BYTES, LISTED_TRIANGLES = 32768, 1489
BUNDLES = sorted(SAMPLES.glob("*.bundle"))
REFERENCE = ROOT / "reference/target/release/meshlist_ref"


def listing(bundle: bytes) -> str:
    """What meshlist prints for a bundle, made of the package's own answers."""
    if len(bundle) > LISTED_BYTES:
        return f"refused 13 at {LISTED_BYTES}\n"
    try:
        grid = cb.Grid.from_bundle(bundle)
    except cb.Refused as refused:
        return f"refused {refused.number} at {refused.place}\n"
    if grid.triangle_count() > LISTED_TRIANGLES:
        return f"refused 12 at {grid.triangle_count()}\n"
    mesh = grid.mesh()
    head = f"cells {len(grid.cells)} edges {len(grid.edges)} crossings {grid.crossings} triangles {len(mesh)}"
    rows = ("T " + " ".join("-" if word == cb.MIDDLE else str(word) for word in row) for row in mesh.words.tolist())
    return "\n".join([head, *rows]) + "\n"


def test_there_are_samples() -> None:
    assert len(BUNDLES) > 50


@pytest.mark.parametrize("path", BUNDLES, ids=lambda path: path.stem)
def test_sample_is_listed(path) -> None:
    assert listing(path.read_bytes()) == path.with_suffix(".listing").read_text()


@pytest.mark.parametrize("path", BUNDLES, ids=lambda path: path.stem)
def test_bytes_come_back(path) -> None:
    bundle = path.read_bytes()
    told = cb.summary(bundle)
    try:
        cells, edges, counts = cb.read_bundle(bundle)
    except cb.Refused as refused:
        assert told == (refused.number, 0, 0)
        return
    assert told == (0, len(cells), len(edges))
    if all(record.kind != cb.LOOK for record in cb.records(bundle)):
        assert cb.write_bundle(cells, edges, counts) == bundle


def random_bundle(rng: random.Random) -> bytes:
    if rng.random() < 0.5:
        cells = box(1)[: rng.randrange(1, 7)]
    else:
        nodes = rng.randrange(4, 8)
        every = list(combinations(range(nodes), 4))
        cells = rng.sample(every, rng.randrange(1, min(5, len(every)) + 1))
    edges = edges_of(cells)
    most = rng.choice([1, 2, 4, 9])
    counts = [rng.randrange(most + 1) for _ in edges]
    if rng.random() < 0.15:
        edges, counts = edges[:-1], counts[:-1]
    return cb.write_bundle(cells, edges, counts)


def test_random_grids_as_the_second_implementation_lists_them(rng: random.Random) -> None:
    assert REFERENCE.is_file(), "build it: cargo build --release --manifest-path reference/Cargo.toml"
    meshed = 0
    for _ in range(300):
        bundle = random_bundle(rng)
        wanted = subprocess.run([REFERENCE], input=bundle, capture_output=True, check=True).stdout.decode()
        assert listing(bundle) == wanted
        meshed += wanted.startswith("cells")
    assert 100 < meshed < 300


def test_corner_points_as_the_example_in_c_has_them(rng: random.Random) -> None:
    """The points of a triangle are the places of its corners: of outer crossings
    by number, of middles as the mean or nested rule gives them, in their order."""
    grid = cb.Grid.from_text(SAMPLES / "texts/split-cell.txt")
    mesh, places = grid.mesh(), grid.places()
    points = mesh.points(grid.crossings)
    assert mesh.splits > 0 and points.max() + 1 == len(places)
    outer = mesh.corners < cb.INNER_CROSSING
    assert (points[outer] == mesh.corners[outer]).all()
    middles = np.unique(points[mesh.corners == cb.MIDDLE])
    assert middles.size and middles.min() > points[~outer & (mesh.corners != cb.MIDDLE)].max()
    assert np.unique(points).size == len(places)
