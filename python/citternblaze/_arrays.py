"""What is taken as a list of numbers, and how it becomes the array that a call is lent."""

from __future__ import annotations

from typing import Optional, Sequence, Tuple, Union

import numpy as np

Numbers = Union[np.ndarray, Sequence[int], Sequence[Sequence[int]], Sequence[float], Sequence[Sequence[float]]]

# the most elements of any list that is taken: far more than a grid can use, and no more than memory holds
MOST_ELEMENTS = 1 << 31


def whole_numbers(what: str, given: Numbers, dtype: type, width: Optional[int] = None) -> np.ndarray:
    """Whole numbers as a contiguous array of a type, without a copy where it is
    one already; with a width, as rows of so many.

    Raises TypeError where these are no whole numbers, and ValueError where one
    does not fit the type or the shape is another.
    """
    array = _array(what, given)
    if array.size == 0:
        array = array.astype(dtype)
    elif array.dtype.kind not in "iu":
        raise TypeError(f"{what}: whole numbers are wanted, not {array.dtype}")
    _within(what, array, dtype)
    return np.ascontiguousarray(_shaped(what, array, width), dtype=dtype)


def floats(what: str, given: Numbers, width: Optional[int] = None) -> np.ndarray:
    """Numbers as a contiguous array of 64-bit floats, without a copy where it is
    one already; with a width, as rows of so many.

    Raises TypeError where these are no numbers, and ValueError where the shape
    is another. Which floats a call takes is the call's to say.
    """
    array = _array(what, given)
    if array.size and array.dtype.kind not in "iuf":
        raise TypeError(f"{what}: numbers are wanted, not {array.dtype}")
    return np.ascontiguousarray(_shaped(what, array, width), dtype=np.float64)


def _array(what: str, given: Numbers) -> np.ndarray:
    try:
        array = np.asarray(given)
    except ValueError as error:
        raise ValueError(f"{what}: rows of one length are wanted ({error})") from None
    if array.dtype.kind == "O":
        raise TypeError(f"{what}: rows of numbers of one length are wanted")
    if array.size > MOST_ELEMENTS:
        raise ValueError(f"{what}: {array.size} numbers are too many")
    return array


def _shaped(what: str, array: np.ndarray, width: Optional[int]) -> np.ndarray:
    if width is None:
        if array.ndim != 1:
            raise ValueError(f"{what}: one row of numbers is wanted, not the shape {array.shape}")
        return array
    if array.ndim == 2 and array.shape[1] == width:
        return array
    if array.size == 0 and array.ndim <= 2:
        return array.reshape(0, width)
    raise ValueError(f"{what}: rows of {width} numbers are wanted, not the shape {array.shape}")


def _within(what: str, array: np.ndarray, dtype: type) -> None:
    if array.dtype == dtype or array.size == 0:
        return
    limits = np.iinfo(dtype)
    low, high = int(array.min()), int(array.max())
    if low < limits.min or high > limits.max:
        wrong = low if low < limits.min else high
        raise ValueError(f"{what}: {wrong} is not from {limits.min} to {limits.max}")


def whole_number(what: str, given: object, most: int) -> int:
    """A single whole number from 0 to the most that fits."""
    if isinstance(given, bool) or not hasattr(given, "__index__"):
        raise TypeError(f"{what}: a whole number is wanted, not {type(given).__name__}")
    number = given.__index__()
    if not 0 <= number <= most:
        raise ValueError(f"{what}: {number} is not from 0 to {most}")
    return number


def as_bytes(what: str, given: object) -> np.ndarray:
    """Bytes as an array, without a copy."""
    if not isinstance(given, (bytes, bytearray, memoryview)):
        raise TypeError(f"{what}: bytes are wanted, not {type(given).__name__}")
    return np.frombuffer(given, np.uint8)


def counts_of(what: str, given: Numbers, number: int) -> Tuple[int, ...]:
    """So many counts of 16 bits."""
    array = whole_numbers(what, given, np.uint16)
    if array.size != number:
        raise ValueError(f"{what}: {number} counts are wanted, not {array.size}")
    return tuple(int(count) for count in array)
