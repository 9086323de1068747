"""Refusals: the numbers by which a call says what is wrong, and where."""

from __future__ import annotations

import numpy as np

from ._library import DONE

#: What each refusal means; docs/FORMAT.md has them with examples.
TEXTS = {
    1: "the cells are not four numbers each, or none, or more than 2,048",
    2: "the edges are not two ends and one start to a count, or a start is not the sum of the earlier counts",
    3: "a cell has a node over 4,095, or its nodes do not increase",
    4: "a cell has the nodes of an earlier one",
    5: "a face is in three cells",
    6: "an edge is not a lower and a higher node, or not after the one before it",
    7: "an edge of a cell is not listed",
    8: "a listed edge is in no cell",
    9: "the cells of an edge do not hang together through faces that contain it",
    10: "there are more than 65,535 crossings",
    11: "there is no such cell",
    12: "the area is too short for the mesh",
    13: "the bytes are not the records of a bundle, or the lists to write are not four nodes to a cell and two ends "
    "to a count",
    14: "a lent list, or the writer's area, is too short for the bundle",
    15: "places, fractions or the area are not as many as there must be",
    16: "a number of a node's place is not from -1,000,000 to 1,000,000",
    17: "a fraction is not above 0 and below 1, or not above the one before it on its edge",
    18: "the count of an edge is over 4,095",
    19: "the area for the sides of the nodes has not 4,096 bytes",
    20: "the grid has no shading",
    21: "there is no such edge",
    22: "a later look has a pair that no edge of the bundle has",
    23: "the points are not three numbers each, or a number is not from -1,000,000 to 1,000,000",
    24: "the area is too short for the chains",
    25: "the cuts do not rise, or one is not above 0 and below the number of cells",
    26: "there is no such run",
}


class Refused(ValueError):
    """A call refused what it was given: the refusal's number, its place, and its
    meaning in words.

    >>> from citternblaze import Grid
    >>> Grid([[0, 2, 1, 3]], [], [])
    Traceback (most recent call last):
    citternblaze._refusals.Refused: refused 3 at 0: a cell has a node over 4,095, or its nodes do not increase
    """

    def __init__(self, number: int, place: int) -> None:
        self.number = number
        self.place = place
        self.text = TEXTS.get(number, "no such refusal")
        super().__init__(f"refused {number} at {place}: {self.text}")

    def __reduce__(self) -> tuple:
        return Refused, (self.number, self.place)


def done(answer: np.ndarray) -> np.ndarray:
    """The numbers of a result behind its first; raises where it is a refusal."""
    if int(answer[0]) != DONE:
        raise Refused(int(answer[0]), int(answer[1]))
    return answer[1:]
