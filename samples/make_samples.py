#!/usr/bin/env python3
"""Writes the sample bundles into this folder, from short descriptions of grids and of ways to break a bundle.

    make_samples.py            write the files
    make_samples.py --check    write nothing; fail if a file differs, is missing or is not described here

Needs Python 3 and no package. The format is that of document 01, "Bundles", with the records of kinds 4 and 5 of document 02.
"""
import itertools
import pathlib
import sys

CELL, EDGE, END, WIDE_EDGE, LOOK = 1, 2, 3, 4, 5


def word(number):
    return number.to_bytes(2, "little")


def record(kind, body=b"", length=None):
    """A record; `length` overrides the length that it states."""
    return word(2 + len(body) if length is None else length) + word(kind) + body


def cell(*nodes):
    return record(CELL, b"".join(map(word, nodes)))


def edge(u, v, count):
    if count > 255:
        return wide_edge(u, v, count)
    return record(EDGE, word(u) + word(v) + bytes([count]))


def wide_edge(u, v, count, length=None):
    """An edge's record of kind 4, whatever its count is."""
    return record(WIDE_EDGE, word(u) + word(v) + word(count), length)


def look(u, v, count, length=None):
    """A later look at an edge: a record of kind 5."""
    return record(LOOK, word(u) + word(v) + word(count), length)


def seen_again(data, *looks):
    """A bundle with later looks (u, v, count) before its end."""
    return data[:-4] + b"".join(look(*l) for l in looks) + data[-4:]


def bundle(cells, edges):
    """The bytes of cells (four nodes each) and edges (u, v, count), in the order given."""
    return b"".join(cell(*c) for c in cells) + b"".join(edge(*e) for e in edges) + record(END)


def pairs(cells):
    """The edges of the cells, sorted, each once."""
    return sorted({pair for c in cells for pair in itertools.combinations(c, 2)})


def grid(cells, counts=None, other=0):
    """A bundle of cells with every edge listed; `counts` gives some pairs' counts and `other` the rest."""
    counts = counts or {}
    return bundle(cells, [(u, v, counts.get((u, v), other)) for u, v in pairs(cells)])


def one_cell(*counts):
    """The cell 0 1 2 3, with the counts of 01, 02, 03, 12, 13, 23."""
    return grid([(0, 1, 2, 3)], dict(zip(pairs([(0, 1, 2, 3)]), counts)))


def separate(number):
    """So many cells that share no node."""
    return [tuple(range(4 * k, 4 * k + 4)) for k in range(number)]


def chain(first, number):
    """So many cells, each glued to a face of the one before it, on nodes from `first` on."""
    return [tuple(range(k, k + 4)) for k in range(first, first + number)]


def spirals(first, second, along, even, odd):
    """A cell for each link of one chain of nodes with each of another: links are pairs of neighbours in the list, of which a circle repeats its
    first node at its end. Links have the count `along`, edges from one chain to the other `even` or `odd` in turn."""
    cells, counts = [], {}
    for i, j in itertools.product(range(len(first) - 1), range(len(second) - 1)):
        links = [first[i : i + 2], second[j : j + 2]]
        cells.append(tuple(sorted(links[0] + links[1])))
        counts.update({tuple(sorted(link)): along for link in links})
        for a, b in itertools.product((i, i + 1), (j, j + 1)):
            counts[tuple(sorted((first[a], second[b])))] = odd if (a + b) % 2 else even
    return grid(cells, counts)


def corners(*counts):
    """Separate cells; cell k has counts[k] triangles round its lowest node."""
    cells = separate(len(counts))
    return grid(cells, {(c[0], v): n for c, n in zip(cells, counts) for v in c[1:]})


def largest(*counts):
    """Three chains, with these counts on the edges from node 0 and one triangle in the first cell. Without a count above 255 it has 32,767
    bytes, the most that an accepted grid without one can have below 32,769: sizes leave 1 when divided by 3. With one it has 32,768."""
    cells = chain(0, 836) + chain(839, 1) + chain(843, 1)
    return grid(cells, {(0, v): n for v, n in zip((1, 2, 3), counts)})


ONE = [(0, 1, 2, 3)]
ONE_EDGES = [(u, v, 0) for u, v in pairs(ONE)]
GOOD = one_cell(1, 1, 1, 0, 0, 0)
WIDE = one_cell(0, 0, 0, 0, 0, 300)
THREE = [(0, 1, 2, 3), (0, 1, 2, 4), (0, 1, 3, 4)]

SAMPLES = {
    # one cell (01, "Films to try")
    "no-crossing": one_cell(0, 0, 0, 0, 0, 0),
    "one-crossing": one_cell(1, 0, 0, 0, 0, 0),
    "all-counts-1": one_cell(1, 1, 1, 1, 1, 1),
    "corner-at-0": one_cell(1, 1, 1, 0, 0, 0),
    "diagonal-0-with-1": one_cell(0, 1, 1, 1, 1, 0),
    "loop-of-eight": one_cell(2, 1, 1, 1, 1, 2),
    "two-on-01": one_cell(2, 0, 0, 0, 0, 0),
    # one cell with counts above 255: records of kinds 2 and 4, and one triangle, the other crossings being on open curves; and 128 fans
    "count-256": one_cell(1, 256, 255, 0, 0, 0),
    "count-4095": one_cell(4095, 4094, 1, 0, 0, 0),
    "256-on-01": one_cell(256, 0, 0, 0, 0, 0),
    # one cell with later looks: the listings of `two-on-01`, `corner-at-0` (twice) and `count-256`
    "look-once": seen_again(one_cell(0, 0, 0, 0, 0, 0), (0, 1, 2)),
    "look-twice": seen_again(one_cell(7, 1, 1, 0, 0, 0), (0, 1, 300), (0, 1, 1)),
    "look-4096-then-1": seen_again(one_cell(300, 1, 0, 0, 0, 0), (0, 1, 4096), (0, 3, 1), (0, 1, 1)),
    "look-256": seen_again(one_cell(1, 5, 255, 0, 0, 0), (0, 2, 256)),
    # several cells
    "three-round-01": grid(THREE, {(0, 1): 2}),
    "triangles-1489": corners(255, 255, 255, 255, 255, 214),
    "bytes-32767": largest(1, 1, 1),
    "bytes-32768": largest(1, 256, 255),
    # cells that are split: once, with corner triangles, twice and three times; two cells and a sphere of sixteen; one whose numbers have no
    # common divisor, which is not split; and as many triangles as the program lists
    "split-once": one_cell(4, 2, 6, 6, 2, 4),
    "split-with-corners": one_cell(5, 5, 7, 8, 2, 6),
    "split-twice": one_cell(6, 2, 8, 8, 2, 6),
    "split-three-times": one_cell(4, 14, 10, 10, 14, 4),
    "split-two-cells": spirals([1, 4], [3, 0, 2], 6, 4, 2),
    "split-sphere": spirals([0, 5, 2, 7, 0], [4, 1, 6, 3, 4], 4, 6, 2),
    "not-split": one_cell(3, 2, 5, 5, 2, 3),
    "split-1489": one_cell(125, 95, 127, 34, 2, 32),
    # refusals of the grid and the mesh, by their rows
    "refused-1-no-cell": bundle([], []),
    "refused-1-2049-cells": bundle(separate(1023) * 2 + [(0, 1, 2, 3)] * 3, []),
    "refused-3-node-4096": grid([(0, 1, 2, 4096)]),
    "refused-3-not-increasing": bundle([(0, 2, 1, 3)], ONE_EDGES),
    "refused-3-second-cell": bundle([(0, 1, 2, 3), (4, 5, 6, 6)], ONE_EDGES),
    "refused-4-same-cell": bundle(ONE * 2, ONE_EDGES),
    "refused-5-third-cell": grid([(0, 1, 2, 3), (0, 1, 2, 4), (0, 1, 2, 5)]),
    "refused-6-equal-ends": bundle(ONE, [(1, 1, 0)] + ONE_EDGES),
    "refused-6-falling-ends": bundle(ONE, ONE_EDGES[:5] + [(3, 2, 0)]),
    "refused-6-unsorted": bundle(ONE, ONE_EDGES[:1] + [ONE_EDGES[2], ONE_EDGES[1]] + ONE_EDGES[3:]),
    "refused-6-edge-twice": bundle(ONE, ONE_EDGES + ONE_EDGES[5:]),
    "refused-6-before-18": bundle(ONE, [(0, 1, 4096), ONE_EDGES[2], ONE_EDGES[1]] + ONE_EDGES[3:]),
    "refused-6-look-edge-twice": seen_again(bundle(ONE, ONE_EDGES + ONE_EDGES[5:]), (2, 3, 1)),
    "refused-18-look-4096": seen_again(GOOD, (0, 1, 2), (1, 2, 4096)),
    "refused-18-count-4096": one_cell(0, 0, 0, 4096, 0, 0),
    "refused-18-count-65535": one_cell(0, 65535, 0, 0, 4096, 0),
    "refused-18-before-7": bundle(ONE, ONE_EDGES[:4] + [(1, 3, 4096)]),
    "refused-7-edge-missing": bundle(ONE, ONE_EDGES[:5]),
    "refused-8-edge-of-no-cell": bundle(ONE, ONE_EDGES + [(7, 8, 0)]),
    "refused-9-not-linked": grid([(0, 1, 2, 3), (0, 1, 4, 5)]),
    "refused-10-65790-crossings": grid(separate(43), other=255),
    "refused-10-73710-crossings": grid(separate(3), other=4095),
    "refused-12-4094-triangles": one_cell(4095, 0, 0, 0, 0, 0),
    "refused-12-64260-crossings": grid(separate(42), other=255),
    "refused-12-1490-triangles": corners(255, 255, 255, 255, 255, 215),
    "refused-12-split-1490": one_cell(126, 96, 128, 34, 2, 32),
    "refused-12-split-longest": one_cell(4092, 2, 4094, 4094, 2, 4092),
    # row 13 in each of its ways
    "refused-13-empty": b"",
    "refused-13-cut-in-length": GOOD[:-3],
    "refused-13-cut-in-kind": GOOD[:-1],
    "refused-13-cut-in-body": GOOD[:-5],
    "refused-13-cell-length": record(CELL, bytes(8), length=9) + GOOD[12:],
    "refused-13-edge-length": GOOD[:12] + record(EDGE, bytes(5), length=8) + GOOD[21:],
    "refused-13-end-length": GOOD[:-4] + record(END, length=3),
    "refused-13-length-high-byte": record(CELL, bytes(8), length=256 + 10) + GOOD[12:],
    "refused-13-kind-0": GOOD[:12] + record(0) + GOOD[12:],
    "refused-13-kind-4-no-body": GOOD[:-4] + record(WIDE_EDGE) + GOOD[-4:],
    "refused-13-kind-4-count-255": GOOD[:12] + wide_edge(0, 1, 255) + GOOD[21:],
    "refused-13-kind-4-count-0": GOOD[:57] + wide_edge(2, 3, 0) + GOOD[66:],
    "refused-13-kind-4-length": WIDE[:57] + wide_edge(2, 3, 300, length=7) + WIDE[67:],
    "refused-13-kind-4-cut": WIDE[:-5],
    "refused-13-cell-after-kind-4": WIDE[:-4] + cell(4, 5, 6, 7) + WIDE[-4:],
    "refused-13-look-before-edges": GOOD[:12] + look(0, 1, 1) + GOOD[12:],
    "refused-13-look-between-edges": GOOD[:57] + look(0, 1, 1) + GOOD[57:],
    "refused-13-cell-after-look": seen_again(GOOD, (0, 1, 1))[:-4] + cell(4, 5, 6, 7) + GOOD[-4:],
    "refused-13-look-after-end": GOOD + look(0, 1, 1),
    "refused-13-look-cut": seen_again(GOOD, (0, 1, 1))[:-5],
    "refused-13-look-no-end": seen_again(GOOD, (0, 1, 1))[:-4],
    "refused-13-look-length": GOOD[:-4] + look(0, 1, 1, length=7) + GOOD[-4:],
    "refused-13-kind-6": GOOD[:-4] + record(6, bytes(6)) + GOOD[-4:],
    "refused-13-kind-high-byte": record(256 + CELL, bytes(8)) + GOOD[12:],
    "refused-13-cell-after-edge": GOOD[:-4] + cell(4, 5, 6, 7) + GOOD[-4:],
    "refused-13-byte-after-end": GOOD + b"\0",
    "refused-13-end-after-end": GOOD + record(END),
    "refused-13-no-end": GOOD[:-4],
    # row 22: the pair turned round, the lowest of several, no edges at all; 13 wins, wherever it stands
    "refused-22-pair-turned": seen_again(GOOD, (1, 0, 1)),
    "refused-22-lowest": seen_again(GOOD, (0, 1, 1), (2, 3, 1), (3, 2, 1), (0, 1, 1), (7, 8, 1)),
    "refused-22-no-edges": seen_again(bundle(ONE, []), (0, 1, 1)),
    "refused-22-before-3": seen_again(bundle([(0, 2, 1, 3)], ONE_EDGES), (1, 1, 0)),
    "refused-13-after-22": seen_again(GOOD, (1, 0, 1)) + b"\0",
    # the limit of the program's input: the fault stands at 32,767 in both, and one byte more is over the limit
    "refused-13-32768-bytes": largest(1, 1, 1) + bytes(1),
    "refused-13-32769-bytes": largest(1, 1, 1) + bytes(2),
}

SIZES = {"bytes-32767": 32767, "bytes-32768": 32768, "refused-13-32768-bytes": 32768, "refused-13-32769-bytes": 32769}


def main():
    folder = pathlib.Path(__file__).resolve().parent
    for name, size in SIZES.items():
        if len(SAMPLES[name]) != size:
            sys.exit(f"{name} has {len(SAMPLES[name])} bytes")
    if sys.argv[1:] == ["--check"]:
        found = {path.stem: path.read_bytes() for path in folder.glob("*.bundle")}
        wrong = sorted(name for name in found.keys() | SAMPLES.keys() if found.get(name) != SAMPLES.get(name))
        if wrong:
            sys.exit("not as described: " + " ".join(wrong))
        print(f"{len(SAMPLES)} bundles are as described")
        return
    if sys.argv[1:]:
        sys.exit(__doc__)
    for name, data in SAMPLES.items():
        (folder / f"{name}.bundle").write_bytes(data)
    print(f"{len(SAMPLES)} bundles written")


if __name__ == "__main__":
    main()
