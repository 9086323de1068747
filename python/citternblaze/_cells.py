"""Calls on the counts of one face or one cell."""

from __future__ import annotations

from typing import NamedTuple, Optional, Union

from ._arrays import Numbers, counts_of, whole_number
from ._library import call
from ._refusals import done

_MOST_COUNT = 0xFFFF
_MOST_INDEX = 0xFFFF_FFFF


class Joined(NamedTuple):
    """A crossing's partner on a face: its edge and index, and the corner (0 a,
    1 b, 2 c) that their segment goes round, or None where it goes along the
    edge."""

    edge: int
    index: int
    corner: Optional[int]


class Unjoined(NamedTuple):
    """A crossing without a partner: rule 3 skipped it, or else rule 2 left it."""

    skipped: bool


def face(ab: int, ac: int, bc: int, edge: int, index: int) -> Union[Joined, Unjoined, None]:
    """What a crossing of a face a < b < c is joined to; None where there is no
    such crossing. The edges are 0 ab, 1 ac, 2 bc.

    >>> face(5, 1, 1, 0, 2)
    Joined(edge=0, index=3, corner=None)
    >>> face(5, 1, 1, 0, 1)
    Unjoined(skipped=True)
    >>> face(5, 1, 1, 1, 1) is None
    True
    """
    return _face("face", ab, ac, bc, edge, index)


def flat_face(ab: int, ac: int, bc: int, edge: int, index: int) -> Union[Joined, Unjoined, None]:
    """As `face`, for a triangle of a flat grid.

    >>> flat_face(3, 3, 3, 0, 1)
    Unjoined(skipped=False)
    >>> flat_face(3, 3, 3, 1, 1)
    Joined(edge=2, index=1, corner=2)
    """
    return _face("flat_face", ab, ac, bc, edge, index)


def _face(name: str, ab: int, ac: int, bc: int, edge: int, index: int) -> Union[Joined, Unjoined, None]:
    counts = [whole_number("a count", count, _MOST_COUNT) for count in (ab, ac, bc)]
    numbers = [int(number) for number in call(
        name, *counts, whole_number("the edge", edge, _MOST_INDEX), whole_number("the index", index, _MOST_INDEX)
    )]
    if numbers[0] == 0:
        return Joined(numbers[1], numbers[2], numbers[4] if numbers[3] == 0 else None)
    return Unjoined(numbers[1] == 1) if numbers[0] == 1 else None


class Case(NamedTuple):
    """The entry of a common cell: its loops and triangles."""

    loops: int
    triangles: int


def case(counts: Numbers) -> Optional[Case]:
    """The entry of a cell with these six counts (edges 01, 02, 03, 12, 13, 23) in
    the table of common cells; None where a count is above 2.

    >>> case([2, 1, 1, 1, 1, 2])
    Case(loops=1, triangles=8)
    >>> case([3, 0, 0, 0, 0, 0]) is None
    True
    """
    numbers = done(call("case", *counts_of("the counts", counts, 6)))
    return Case(*map(int, numbers)) if numbers.size else None


class Booking(NamedTuple):
    """What a cell comes to without a walk: its corner triangles, the two numbers
    d1 and d2, and all its triangles."""

    corners: int
    d1: int
    d2: int
    triangles: int


def book(counts: Numbers) -> Optional[Booking]:
    """How many triangles a cell with these six counts (edges 01, 02, 03, 12, 13,
    23) has; None where a face has an odd sum or a count above the other two, so
    that the cell has to be walked.

    >>> book([4, 2, 6, 6, 2, 4])
    Booking(corners=0, d1=4, d2=2, triangles=52)
    >>> book([1, 0, 0, 0, 0, 0]) is None
    True
    """
    numbers = done(call("book", *counts_of("the counts", counts, 6)))
    return Booking(*map(int, numbers)) if numbers.size else None
