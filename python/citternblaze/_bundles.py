"""Records of a bundle's bytes, and what a host asks of them."""

from __future__ import annotations

from typing import Iterator, NamedTuple, Union

from ._arrays import as_bytes
from ._library import call, lent, library
from ._refusals import done

Bytes = Union[bytes, bytearray, memoryview]

CELL, EDGE, END, WIDE_EDGE, LOOK = 1, 2, 3, 4, 5


class Record(NamedTuple):
    """A record: where it starts, its kind, and its body as a part of the bytes."""

    start: int
    kind: int
    body: memoryview


class Summary(NamedTuple):
    """What a host is told of a bundle: its refusal or 0, its cells and its edges."""

    refusal: int
    cells: int
    edges: int


def records(bundle: Bytes) -> Iterator[Record]:
    """The records of bytes one after the other, whatever their order; raises
    `Refused` (13) at one that is not right.

    >>> [record.kind for record in records(b"\\x02\\x00\\x03\\x00")]
    [3]
    """
    given = as_bytes("the bundle", bundle)
    start = 0
    while start < given.size:
        kind, after = (int(number) for number in done(call("record", *lent(given), start)))
        body, length = (int(number) for number in call("record_body", *lent(given), start))
        yield Record(start, kind, memoryview(bundle)[body : body + length])
        start = after


def summary(bundle: Bytes) -> Summary:
    """The bundle's refusal, 13 or 22, or 0; and its cells and edges, 0 where it is
    refused.

    >>> summary(b"")
    Summary(refusal=13, cells=0, edges=0)
    """
    given = lent(as_bytes("the bundle", bundle))
    names = ("bundle_refusal", "bundle_cells", "bundle_edges")
    return Summary(*(int(getattr(library(), f"citternblaze_{name}")(*given)) for name in names))
