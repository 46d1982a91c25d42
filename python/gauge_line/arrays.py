"""A caller's numbers as rows that can be lent: one dimension, one type, and no bit lost."""

from __future__ import annotations

import numbers
import operator
from typing import Any

import numpy as np
from numpy.typing import ArrayLike, NDArray


def integers(what: str, values: ArrayLike, wanted: type[np.integer]) -> NDArray[Any]:
    """A row of this integer type. Other integers are taken where each fits; a float never is."""
    array = _row(what, values)
    if array.size == 0 and not isinstance(values, np.ndarray):
        return np.empty(0, wanted)
    name = np.dtype(wanted).name
    if array.dtype.kind not in "iu":
        hint = f"; np.rint(x).astype(np.{name}) rounds floats" if array.dtype.kind == "f" else ""
        raise TypeError(f"{what}: {name} is wanted, not {array.dtype}{hint}")
    if not np.can_cast(array.dtype, wanted):
        ends = np.iinfo(wanted)
        outside = np.flatnonzero((array < ends.min) | (array > ends.max))
        if outside.size > 0:
            at = outside[0]
            raise ValueError(f"{what}[{at}] is {array[at]}, outside {name}")
    return np.require(array, wanted, ["C", "A"])


def floats(what: str, values: ArrayLike) -> NDArray[np.float32]:
    """A row of float32. Other numbers are taken where each is a float32 exactly, or NaN."""
    array = _row(what, values)
    if array.dtype.kind not in "fiu":
        raise TypeError(f"{what}: float32 is wanted, not {array.dtype}")
    with np.errstate(over="ignore"):
        narrow = np.require(array, np.float32, ["C", "A"])
    lost = np.flatnonzero((narrow != array) & ~np.isnan(narrow))
    if lost.size > 0:
        raise ValueError(f"{what}[{lost[0]}] is {_rounded(array[lost[0]], 'x.astype(np.float32)')}")
    return narrow


def span(what: str, array: Any) -> NDArray[np.float32]:
    """The array itself, a row of float32 that can be written, of any strides."""
    if not isinstance(array, np.ndarray) or array.dtype != np.float32:
        kind = array.dtype if isinstance(array, np.ndarray) else type(array).__name__
        raise TypeError(f"{what}: an array of float32 is wanted, not {kind}")
    _row(what, array)
    if not array.flags.writeable:
        raise ValueError(f"{what} is read-only")
    return array


def octets(what: str, buffer: Any) -> NDArray[np.uint8]:
    """The bytes of a bytes object, or of another buffer of bytes."""
    view = memoryview(buffer)
    if view.itemsize != 1:
        raise TypeError(f"{what}: bytes are wanted, not numbers of {view.itemsize} bytes")
    return np.array(bytearray(view), np.uint8)


def whole(what: str, value: Any) -> int:
    """A whole number that 64 bits without a sign hold."""
    number = operator.index(value)
    if not 0 <= number < 2**64:
        raise ValueError(f"{what} is {number}, outside 0 to 2^64 - 1")
    return number


def number(what: str, value: Any) -> float:
    """A number that is a float32 exactly, or NaN."""
    if not isinstance(value, numbers.Real):
        raise TypeError(f"{what}: a number is wanted, not {type(value).__name__}")
    with np.errstate(over="ignore"):
        narrow = np.float32(value)
    # As a float of Python's: numpy may round the other side to float32 before it compares.
    if float(narrow) != value and not np.isnan(narrow):
        raise ValueError(f"{what} is {_rounded(value, 'np.float32(x)')}")
    return float(narrow)


def _rounded(value: Any, how: str) -> str:
    with np.errstate(over="ignore"):
        near = float(np.float32(value))
    return f"{float(value)!r}, which no float32 is; {how} rounds it, here to {near!r}"


def _row(what: str, values: ArrayLike) -> NDArray[Any]:
    if np.ma.is_masked(values):
        raise ValueError(f"{what} has masked places; fill or drop them first")
    array = np.asarray(values)
    if array.ndim != 1:
        raise ValueError(f"{what}: one dimension is wanted, not the shape {array.shape}")
    return array
