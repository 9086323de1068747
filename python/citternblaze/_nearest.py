"""The point nearest to a place."""

from __future__ import annotations

from typing import NamedTuple, Optional

import numpy as np

from ._arrays import Numbers, floats
from ._library import call, lent
from ._refusals import done


class Nearest(NamedTuple):
    """The number of the nearest point, and its squared distance."""

    point: int
    squared_distance: float


def nearest(points: Numbers, query: Numbers) -> Optional[Nearest]:
    """The point of a list (rows of three numbers) that is nearest to a query of
    three numbers, the lowest of several; None where the list is empty.

    >>> nearest([[0, 0, 0], [3, 0, 0]], [2, 0, 0])
    Nearest(point=1, squared_distance=1.0)
    >>> nearest([], [2, 0, 0]) is None
    True
    """
    listed = floats("the points", points, 3)
    place = floats("the query", query)
    if place.size != 3:
        raise ValueError(f"the query: three numbers are wanted, not {place.size}")
    numbers = done(call("nearest", *lent(listed), *map(float, place)))
    if numbers.size == 0:
        return None
    return Nearest(int(numbers[0]), float(numbers[1:].view(np.float64)[0]))
