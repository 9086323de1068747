#!/usr/bin/env python3
"""Counts the places of docs/DESIGN-PASS.md in crates/*/src, point by point, by their form alone; what each is was read.

    tools/design_places.py [--list] [ROOT]

--list prints each place with its file and line."""
import re
import sys
from pathlib import Path

NUMBERS = r"\b(wide|wide8|wide16|wide32|wide_start|word16|long32|size|least|least32|greatest32|minus|minus32|number_of)\("


def functions(text):
    """Name, line, parameters and body of each function."""
    for m in re.finditer(r"^[ ]*(?:pub(?:\(crate\))? )?(?:extern \"C\" )?fn (\w+)(?:<[^>]*>)?\(", text, re.M):
        depth, i = 1, m.end()
        while depth:
            depth += {"(": 1, ")": -1}.get(text[i], 0)
            i += 1
        head = text[m.end() : i - 1]
        end = re.search(r"^[ ]*\}\s*$", text[i:], re.M)
        yield m.group(1), text.count("\n", 0, m.start()) + 1, head, text[i : i + (end.end() if end else 0)]


def parameters(head):
    out, depth, start = [], 0, 0
    for i, c in enumerate(head):
        depth += {"(": 1, "[": 1, "<": 1, ")": -1, "]": -1, ">": -1}.get(c, 0)
        if c == "," and depth == 0:
            out.append(head[start:i].strip())
            start = i + 1
    out.append(head[start:].strip())
    return [p for p in out if p]


def lines(pattern):
    def find(text):
        for k, line in enumerate(text.splitlines(), 1):
            if re.search(pattern, line) and not line.lstrip().startswith("//"):
                yield k, line.strip()
    return find


def comments(pattern):
    def find(text):
        for k, line in enumerate(text.splitlines(), 1):
            if line.lstrip().startswith("//") and re.search(pattern, line):
                yield k, line.strip()
    return find


def many_parameters(text):
    for name, line, head, _ in functions(text):
        if len(parameters(head)) > 7:
            yield line, f"{name}: {len(parameters(head))} parameters"


def tables_together(text):
    for name, line, head, _ in functions(text):
        names = [p.split(":")[0] for p in parameters(head)]
        if {"counts", "sides", "starts"} <= set(names) or {"marks", "halves", "points"} <= set(names) or {"cells", "edges", "counts"} <= set(names):
            yield line, f"{name}: {', '.join(names)}"


def length_beside(text):
    for name, line, head, _ in functions(text):
        ps = parameters(head)
        if any("&" in p and "[" in p and ";" not in p for p in ps) and any(re.match(r"(n|m|size|count|len|end|many): usize", p) for p in ps):
            yield line, f"{name}({', '.join(p.split(':')[0] for p in ps)})"


POINTS = [
    ("1 own enums", lines(r"^(pub(\(crate\))? )?enum ")),
    ("1 refusals by number", lines(r"Refused\((\d|[A-Z_]+ROW)")),
    ("1 sentinels", comments(r"where there is none|where none is|; \w+ (where|if) (there is )?no|0 for none")),
    ("2 twins by width or size", lines(r"\bfn (\w*(8|16|32)|(\w+_)?(few|many)(_\w+)?)\(")),
    ("3 loops", lines(r"^\s*(while|loop)\b")),
    ("4 numbers by hand", lines(NUMBERS)),
    ("5 over seven parameters", many_parameters),
    ("5 tables together", tables_together),
    ("6 a length beside a list", length_beside),
    ("7 a step by number", lines(r"\bonly: usize|\bkind: usize|\bway: usize|\bturn: usize")),
]


def main():
    args = [a for a in sys.argv[1:] if a != "--list"]
    root = Path(args[0]) if args else Path(__file__).parent.parent
    crates = sorted(p.parent.name for p in root.glob("crates/*/src"))
    for title, find in POINTS:
        counts = []
        for crate in crates:
            n = 0
            for file in sorted((root / "crates" / crate / "src").glob("**/*.rt")):
                for line, what in find(file.read_text()):
                    n += 1
                    if "--list" in sys.argv:
                        print(f"{file.relative_to(root)}:{line}: {what}")
            if n:
                counts.append(f"{crate} {n}")
        total = sum(int(c.split()[1]) for c in counts)
        print(f"{title}: {total} ({', '.join(counts)})")


if __name__ == "__main__":
    main()
