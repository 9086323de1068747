"""The shared library: where it is found, and its calls on arrays."""

from __future__ import annotations

import ctypes
import os
from pathlib import Path
from typing import Dict, List, Optional

import numpy as np

SONAME = "libcitternblaze.so.0"

ANSWER_WORDS = 6
DONE = 0

_POINTER = ctypes.c_void_p
_SIZE = ctypes.c_size_t
_U16 = ctypes.c_uint16
_U32 = ctypes.c_uint32
_DOUBLE = ctypes.c_double

# a list or an area is a pointer and a number of elements; L stands for both
_LIST = [_POINTER, _SIZE]
_GRID = 4 * _LIST
_ANSWER = _LIST

SIGNATURES: Dict[str, list] = {
    "face": 3 * [_U16] + 2 * [_U32] + _ANSWER,
    "case": 6 * [_U16] + _ANSWER,
    "book": 6 * [_U16] + _ANSWER,
    "check": _GRID + _ANSWER,
    "open": _GRID + _ANSWER,
    "set_count": _GRID + [_SIZE, _U16] + _ANSWER,
    "mesh": _GRID + _LIST + _ANSWER,
    "mesh_run": _GRID + _LIST + [_SIZE] + _LIST + _ANSWER,
    "mesh_joined": _GRID + _LIST + _LIST + _ANSWER,
    "loops": _GRID + [_SIZE, _SIZE] + _ANSWER,
    "places": _GRID + 3 * _LIST + _ANSWER,
    "shading": _GRID + _LIST + _ANSWER,
    "flat_face": 3 * [_U16] + 2 * [_U32] + _ANSWER,
    "flat_check": 3 * _LIST + _ANSWER,
    "flat_chains": 4 * _LIST + _ANSWER,
    "record": _LIST + [_SIZE] + _ANSWER,
    "record_body": _LIST + [_SIZE] + _ANSWER,
    "bundle_read": 4 * _LIST + _ANSWER,
    "bundle_write": 4 * _LIST + _ANSWER,
    "nearest": _LIST + 3 * [_DOUBLE] + _ANSWER,
}

HOST_SIGNATURES: Dict[str, tuple] = {
    "bundle_refusal": (_LIST, _U32),
    "bundle_cells": (_LIST, ctypes.c_uint64),
    "bundle_edges": (_LIST, ctypes.c_uint64),
}


def _candidates() -> List[str]:
    """Where the library may be, the first that is there being taken: the file
    that CITTERNBLAZE_LIBRARY names and no other; beside this package; in the
    checkout that this package is part of; as the system's linker finds it."""
    named = os.environ.get("CITTERNBLAZE_LIBRARY")
    if named:
        return [named]
    here = Path(__file__).resolve().parent
    beside = [here / SONAME, here.parents[1] / "target" / "lib" / SONAME]
    return [str(path) for path in beside if path.is_file()] + [SONAME]


def _load() -> ctypes.CDLL:
    wrong: List[str] = []
    for name in _candidates():
        try:
            return _declared(ctypes.CDLL(name))
        except (OSError, AttributeError) as error:
            wrong.append(f"{name}: {error}")
    raise ImportError(
        "libcitternblaze is not found; install it with `make install`, or let CITTERNBLAZE_LIBRARY name it ("
        + "; ".join(wrong)
        + ")"
    )


def _declared(library: ctypes.CDLL) -> ctypes.CDLL:
    for name, arguments in SIGNATURES.items():
        function = getattr(library, f"citternblaze_{name}")
        function.argtypes = arguments
        function.restype = _SIZE
    for name, (arguments, result) in HOST_SIGNATURES.items():
        function = getattr(library, f"citternblaze_{name}")
        function.argtypes = arguments
        function.restype = result
    return library


_library: Optional[ctypes.CDLL] = None


def library() -> ctypes.CDLL:
    """The library, loaded when it is first asked for."""
    global _library
    if _library is None:
        _library = _load()
    return _library


def lent(array: np.ndarray) -> tuple:
    """An array as a call takes it: where it starts, and how many elements."""
    return array.ctypes.data, array.size


def call(name: str, *arguments: object) -> np.ndarray:
    """Calls a function of the library, and gives the numbers of its answer."""
    answer = np.zeros(ANSWER_WORDS, np.uint64)
    count = getattr(library(), f"citternblaze_{name}")(*arguments, *lent(answer))
    return answer[:count]
