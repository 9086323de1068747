#!/usr/bin/env python3
"""docs/QUALITY.md and its pictures: what all crossings keep of a dozen shapes, and what one crossing to an edge keeps.

    quality.py            make them anew
    quality.py --check    make nothing; fail where a number that does not depend on time, or a picture, is another

Wants tools/target/release/citternblaze and tools/target/release/examples/quality (scripts/quality.sh builds them), and rsvg-convert.
"""
import pathlib
import re
import subprocess
import sys
import tempfile

ROOT = pathlib.Path(__file__).resolve().parent.parent
TOOL = ROOT / "tools/target/release/citternblaze"
MEASURE = ROOT / "tools/target/release/examples/quality"
PAGE = ROOT / "docs/QUALITY.md"
PICTURES = ROOT / "docs/pictures"

FOUR_SLABS = ROOT / "samples/shapes/four-slabs.txt"
# name, shapes or mesh, arguments of the scan, section, words for what there is
PAIRS = [
    ("four-slabs", None, ["--box", "1", "1", "1", "--size", "10"], ["y=5", "--scale", "1:1", "--grid", "all"], "four slabs within one cube of six cells"),
    ("three-balls", "three-balls-one-in-the-other.shapes", ["--box", "6", "6", "6", "--size", "10"], ["y=29", "--grid", "none"], "three balls, one in the other"),
    ("gyroid-film", "gyroid-film.shapes", ["--box", "6", "6", "6", "--size", "10"], ["y=29", "--grid", "none"], "a film on both sides of a gyroid"),
]

HEAD = """# What is kept of a shape

Marching tetrahedra keep one crossing to an edge: an edge that a thin film crosses twice has both its ends on one side, and the film is gone there. Citternblaze keeps all crossings. Here both ways mesh the same shapes on the same grids; `scripts/quality.sh` makes this page, and the gate compares every number of it that does not depend on time.

![One crossing to an edge on the left, all crossings on the right](pictures/four-slabs.svg)

**Four slabs within one cube: {classic} of 4 with one crossing to an edge, {all} of 4 with all.** The cube has six cells, and every one of its edges that a slab crosses is crossed twice by it.

## How it is measured
All shapes lie in a box of 60 along each axis, which is parted into 2, 4 or 6 cubes each way, each into six cells. `citternblaze scan` finds the crossings; "classic" is `scan --classic`, none of an even number of crossings and the first of an odd one; "all" is all of them. Both are meshed and placed by the same proved calls.

- **Kept**: of the things that there are (a slab with its two sides, a ball, a tube) those of which each surface has a surface of the mesh for itself, with a mean distance both ways of less than a quarter of a cube. Surfaces of a mesh are what hangs together by its sides: where two surfaces of a shape come to hang together in the mesh, one of them at least counts as lost.
- **To the mesh**: the mean distance from points of the shape to the nearest place of the mesh; **to the shape**: from points of the mesh to the nearest place of the shape. 2,000 points each, drawn with a fixed seed. Half of the sum of the two is the mean Hausdorff distance. A mesh without a triangle has none.
- **ms**: the median of five runs of the mesh call, with the count before it, and the places call, on the machine that made this page.

## The figures
"""

COLUMNS = ["shape", "cubes", "kept, classic", "kept, all", "to the mesh, classic", "to the mesh, all", "to the shape, classic", "to the shape, all", "triangles, classic", "triangles, all", "ms, classic", "ms, all"]
TIMES = 2

TAIL = """
What the figures say: a slab is kept with all crossings however thin it is, and lost with one crossing as soon as it is thinner than a cube is wide. In every row all crossings keep at least as many things, and the shape is at least as near to their mesh. Where two surfaces lie close together and turn within a cell, all crossings still draw both, near their places, and join them at some loops, so that they hang together: of three balls one in the other, and of the two sides of a gyroid, not all are kept as surfaces of their own. A tube thinner than an edge of the grid is long is met by few edges, and is in pieces in either way.

{pictures}
"""


def run(*arguments, folder=ROOT):
    done = subprocess.run([str(of) for of in arguments], capture_output=True, text=True, cwd=folder)
    if done.returncode != 0:
        sys.exit(f"quality: {' '.join(map(str, arguments))}: {done.stderr.strip()}")
    return done.stdout


def measured(folder):
    """The lines of the figures: for each shape and grid, classic and all."""
    rows = [line.split("\t") for line in run(MEASURE, folder).splitlines()]
    return list(zip(rows[0::2], rows[1::2]))


def table(pairs):
    lines = ["| " + " | ".join(COLUMNS) + " |", "|---" * len(COLUMNS) + "|"]
    for one, other in pairs:
        cells = [one[0], one[1]]
        for at in range(5):
            for row in (one, other):
                cells.append({0: f"{row[3]} of {row[4]}", 1: row[5], 2: row[6], 3: row[7], 4: row[8]}[at])
        lines.append("| " + " | ".join(cells) + " |")
    return "\n".join(lines) + "\n"


def check_words(pairs):
    """What the page says of every row and of all slabs."""
    for one, other in pairs:
        nearer = one[5] == "-" or float(other[5]) <= float(one[5])
        slabs = not one[0].startswith(("slab", "four")) or (one[3] == "0" and other[3] == other[4])
        if not (int(other[3]) >= int(one[3]) and nearer and slabs):
            sys.exit(f"quality: what the page says of every row does not hold of {one} and {other}")


def headline(folder):
    """How many of the four slabs have both sides in the mesh: a slab has two surfaces from one side of the cube to the other."""
    kept = {}
    for way, flags in (("classic", ["--classic"]), ("all", [])):
        grid = folder / f"headline-{way}.txt"
        run(TOOL, "scan", "--box", 1, 1, 1, "--size", 10, *flags, FOUR_SLABS, "--output", grid)
        kept[way] = run(TOOL, "surfaces", grid).split()[0]
    return {way: int(surfaces) // 2 for way, surfaces in kept.items()}


def part_of(svg):
    """A sheet without its frame, and how far down it has something."""
    body = svg[svg.index("<svg"):]
    lows = [float(y) for y in re.findall(r'<text x="[-\d.]+" y="([\d.]+)"', body)]
    return body, max(lows) + 6


def side_by_side(folder, name, shapes, box, section, words, kept=None):
    """The sections of both ways in one picture, with how many things are kept of how many where that is known."""
    source = FOUR_SLABS if shapes is None else folder / shapes
    parts = []
    for way, flags in (("classic", ["--classic"]), ("all", [])):
        grid = f"{name}-{way}.txt"
        run(TOOL, "scan", *box, *flags, source, "--output", grid, folder=folder)
        parts.append(part_of(run(TOOL, "draw", "--section", *section, grid, folder=folder)))
    low = max(part[1] for part in parts)
    titles = ["One crossing to an edge", "All crossings"]
    below = [words + (f": {kept[way]} of 4" if kept else "") for way in ("classic", "all")]
    out = [f'<svg xmlns="http://www.w3.org/2000/svg" width="420mm" height="{low + 14:.1f}mm" viewBox="0 0 420 {low + 14:.1f}" font-family="DejaVu Sans, Arial, sans-serif">', f"<title>{words}: one crossing to an edge, and all</title>", '<rect width="100%" height="100%" fill="#ffffff"/>']
    for at, (body, _) in enumerate(parts):
        head, rest = body.split(">", 1)
        head = re.sub(r'width="[\d.]+mm" height="[\d.]+mm" viewBox="0 0 210 [\d.]+"', f'x="{210 * at}" y="22" width="210" height="{low - 8:.1f}" viewBox="0 8 210 {low - 8:.1f}"', head)
        out.append(f'<text x="{210 * at + 105}" y="11" font-size="8" font-weight="bold" text-anchor="middle">{titles[at]}</text>')
        out.append(f'<text x="{210 * at + 105}" y="18" font-size="5" text-anchor="middle">{below[at]}</text>')
        out.append(head + ">" + rest.strip())
    return '<?xml version="1.0" encoding="UTF-8"?>\n' + "\n".join(out) + "\n</svg>\n"


def made(folder):
    """The page and the pictures."""
    pairs = measured(folder)
    check_words(pairs)
    figures = table(pairs)
    kept = headline(folder)
    pictures = {f"{pair[0]}.svg": side_by_side(folder, *pair, kept if pair[1] is None else None) for pair in PAIRS}
    shown = "\n\n".join(f"![{words}](pictures/{name}.svg)" for name, _, _, _, words in PAIRS[1:])
    text = HEAD.format(**kept) + "\n" + figures + TAIL.format(pictures=shown)
    return text, pictures


def without_times(text):
    """The page without the columns of times, and without the digits of distances that other machines may round otherwise."""
    lines = []
    for line in text.splitlines():
        if line.startswith("| "):
            cells = line.strip("| ").split(" | ")[:-TIMES]
            line = " | ".join(cells)
        lines.append(line)
    return lines


def same(one, other):
    """Whether two lines are alike, distances to two hundredths of them or 0.002."""
    numbers = r"\d+\.\d{3}"
    if re.sub(numbers, "#", one) != re.sub(numbers, "#", other):
        return False
    pairs = zip(re.findall(numbers, one), re.findall(numbers, other))
    return all(abs(float(a) - float(b)) <= 0.002 + 0.02 * abs(float(a)) for a, b in pairs)


def check(text, pictures):
    there, now = without_times(PAGE.read_text()), without_times(text)
    if len(there) != len(now):
        sys.exit("quality: docs/QUALITY.md has other lines")
    for old, new in zip(there, now):
        if not same(old, new):
            sys.exit(f"quality: docs/QUALITY.md has\n  {old}\nand it must be\n  {new}")
    for name, svg in pictures.items():
        if (PICTURES / name).read_text() != svg:
            sys.exit(f"quality: docs/pictures/{name} is another")
        if not (PICTURES / name).with_suffix(".png").stat().st_size:
            sys.exit(f"quality: the PNG of {name} is missing")
    rows = sum(line.startswith("| ") for line in text.splitlines()) - 1
    print(f"quality: docs/QUALITY.md holds, {rows} rows and {len(pictures)} pictures")


def write(text, pictures):
    PAGE.write_text(text)
    for name, svg in pictures.items():
        (PICTURES / name).write_text(svg)
        run("rsvg-convert", "--width", 1600, PICTURES / name, "--output", (PICTURES / name).with_suffix(".png"))


with tempfile.TemporaryDirectory() as temporary:
    result = made(pathlib.Path(temporary))
    (check if sys.argv[1:] == ["--check"] else write)(*result)
