"""The text form of a grid (docs/FORMAT.md, "The text form of a grid")."""

from __future__ import annotations

import math
from typing import Dict, List, NamedTuple, Optional, Tuple

FIRST_LINE = "citternblaze grid"

Pair = Tuple[int, int]


class Text(NamedTuple):
    """What a text states, each kind in its order."""

    cells: List[Tuple[int, ...]]
    edges: List[Pair]
    counts: List[int]
    looks: List[Tuple[int, ...]]
    nodes: Dict[int, Tuple[float, ...]]
    fractions: Dict[Pair, List[float]]


def read(text: str) -> Text:
    """Reads the text form; raises ValueError with the line where it is not one."""
    lines = text.removeprefix("\ufeff").split("\n")
    stated = Text([], [], [], [], {}, {})
    for number, line in enumerate(lines, 1):
        words = line.split("#", 1)[0].split()
        if number == 1:
            if " ".join(words) != FIRST_LINE:
                raise ValueError(f"line 1: the first line of a grid's text is '{FIRST_LINE}'")
        elif words:
            _read_line(stated, number, words[0], words[1:])
    return stated


def _read_line(stated: Text, line: int, kind: str, words: List[str]) -> None:
    if kind == "cell":
        stated.cells.append(tuple(_shorts(line, words, 4)))
    elif kind == "edge":
        u, v, count = _shorts(line, words, 3)
        stated.edges.append((u, v))
        stated.counts.append(count)
    elif kind == "look":
        stated.looks.append(tuple(_shorts(line, words, 3)))
    elif kind == "node":
        _once(line, stated.nodes, _shorts(line, words[:1], 1)[0], _decimals(line, words[1:], 3))
    elif kind == "fractions":
        u, v = _shorts(line, words[:2], 2)
        _once(line, stated.fractions, (u, v), _decimals(line, words[2:], None))
    else:
        raise ValueError(f"line {line}: {_shown(kind)} is none of cell, edge, look, node, fractions")


def _once(line: int, stated: dict, key: object, value: object) -> None:
    if key in stated:
        raise ValueError(f"line {line}: stated a second time")
    stated[key] = value


def _shorts(line: int, words: List[str], wanted: int) -> List[int]:
    if len(words) != wanted:
        raise ValueError(f"line {line}: {wanted} whole numbers are wanted, and here are {len(words)}")
    numbers = []
    for word in words:
        if not (word.isascii() and word.isdigit() and len(word) <= 20 and int(word) <= 0xFFFF):
            raise ValueError(f"line {line}: {_shown(word)} is no whole number from 0 to 65535")
        numbers.append(int(word))
    return numbers


def _decimals(line: int, words: List[str], wanted: Optional[int]) -> List[float]:
    if wanted is not None and len(words) != wanted:
        raise ValueError(f"line {line}: {wanted} numbers are wanted, and here are {len(words)}")
    numbers = []
    for word in words:
        try:
            number = float(word) if "_" not in word else math.nan
        except ValueError:
            number = math.nan
        if not math.isfinite(number):
            raise ValueError(f"line {line}: {_shown(word)} is no finite number")
        numbers.append(number)
    return numbers


def _shown(word: str) -> str:
    """A word of the input, escaped and cut."""
    return ascii(word if len(word) <= 40 else word[:40] + "..")
