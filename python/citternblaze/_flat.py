"""Flat sections: a sheet of triangles, and the chains of segments on it."""

from __future__ import annotations

from typing import List, NamedTuple

import numpy as np

from ._arrays import Numbers, whole_numbers
from ._library import call, lent
from ._refusals import done


class Chain(NamedTuple):
    """A chain of segments: whether it is closed, and its crossings in turn."""

    closed: bool
    crossings: np.ndarray


class Flat:
    """An accepted flat grid: triangles (rows of three nodes), edges (rows of two)
    and a count for each edge. Raises `Refused` where its check finds a fault.

    >>> sheet = Flat([[0, 1, 2]], [[0, 1], [0, 2], [1, 2]], [1, 1, 0])
    >>> [(chain.closed, chain.crossings.tolist()) for chain in sheet.chains()]
    [(False, [0, 1])]
    """

    def __init__(self, triangles: Numbers, edges: Numbers, counts: Numbers) -> None:
        self.triangles = whole_numbers("the triangles", triangles, np.uint16, 3)
        self.edges = whole_numbers("the edges", edges, np.uint16, 2)
        self.counts = whole_numbers("the counts", counts, np.uint16)
        self.crossings = int(done(call("flat_check", *self._lists()))[0])

    def _lists(self) -> tuple:
        return (*lent(self.triangles), *lent(self.edges), *lent(self.counts))

    def __repr__(self) -> str:
        return f"<Flat: {len(self.triangles)} triangles, {len(self.edges)} edges, {self.crossings} crossings>"

    def chains(self) -> List[Chain]:
        """The chains of segments, by their least crossings."""
        # twice as many words as crossings suffice
        area = np.empty(2 * int(self.counts.sum(dtype=np.int64)), np.uint32)
        count = int(done(call("flat_chains", *self._lists(), *lent(area)))[0])
        words = area[:count]
        found: List[Chain] = []
        at = 0
        while at < count:
            end = at + 2 + int(words[at + 1])
            found.append(Chain(bool(words[at]), words[at + 2 : end]))
            at = end
        return found
