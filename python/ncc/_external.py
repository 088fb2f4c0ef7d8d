"""Python's values as values of the file: which type they have, and their bytes.

The types and the default fill values are those of docs/FORMAT.md ("Types").
"""

from __future__ import annotations

from collections.abc import Iterator, Mapping
from contextlib import contextmanager
from typing import Any

import numpy as np

from ._library import TYPES
from .errors import NccError

CODES = {(dtype.kind, dtype.itemsize): code for code, dtype in TYPES.items()}
CHAR = 2

FILLS = {
    1: "81", 2: "00", 3: "8001", 4: "80000001", 5: "7cf00000", 6: "479e000000000000", 7: "ff", 8: "ffff",
    9: "ffffffff", 10: "8000000000000002", 11: "fffffffffffffffe",
}  # fmt: skip
"""The bytes of the default fill value of each type."""

SMALL = np.iinfo(np.int32)


@contextmanager
def about(item: str) -> Iterator[None]:
    """A TypeError or ValueError begins with the name of the item whose values are at fault."""
    try:
        yield
    except NccError:
        raise
    except TypeError as error:
        raise TypeError(f"{item}: {error}") from error
    except ValueError as error:
        raise ValueError(f"{item}: {error}") from error


def place(found: np.ndarray) -> str:
    """Words for the first index where this array of bools is true; none where it has no dimensions."""
    if found.ndim == 0:
        return ""
    index = tuple(int(part) for part in np.unravel_index(int(np.argmax(found)), found.shape))
    return f" at index {index[0] if len(index) == 1 else index}"


def same_count(counts: Mapping[str, int]) -> int:
    """The number of records that all these variables have; 0 if there are none. ValueError where two differ."""
    first = next(iter(counts), "")
    for name, count in counts.items():
        if count != counts[first]:
            words = f"{first!r} has {counts[first]}, and {name!r} has {count}"
            raise ValueError(f"the record variables have different numbers of records: {words}")
    return counts.get(first, 0)


def code_of(dtype: Any) -> int:
    """The code of the type that holds values of this dtype. TypeError where no version has one."""
    dtype = np.dtype(dtype)
    code = CODES.get((dtype.kind, dtype.itemsize))
    if code is None:
        raise TypeError(f"no netCDF type holds values of dtype {dtype}")
    return code


def _is_small(array: np.ndarray) -> bool:
    return array.size > 0 and SMALL.min <= array.min() and array.max() <= SMALL.max


def _is_no_number(value: Any) -> bool:
    return not isinstance(value, (int, float, np.number))


def _require_values(array: np.ndarray) -> None:
    """Raises TypeError for Python objects, and tells where the first is that is no number."""
    if array.dtype == object and array.size:
        found = np.asarray(np.frompyfunc(_is_no_number, 1, 1)(array), bool)
        first = array.reshape(-1)[int(np.argmax(found))]
        raise TypeError(f"no netCDF type holds values of dtype object: {type(first).__name__}{place(found)}")


def plain(values: Any) -> np.ndarray:
    """An array of these values, by numpy's rules. TypeError where some of them are masked, or are Python objects."""
    if np.ma.is_masked(values):
        where = place(np.ma.getmaskarray(values))
        raise TypeError(f"a value is masked{where}: fill masked values first (numpy.ma.filled)")
    array = np.asarray(values)
    _require_values(array)
    return array


def array_of(values: Any) -> np.ndarray:
    """An array of these values, by numpy's rules. Ints that have no dtype are int32 where all of them fit."""
    array = plain(values)
    if array.dtype == np.int64 and not hasattr(values, "dtype") and _is_small(array):
        return array.astype(np.int32)
    return array


def is_text(array: np.ndarray) -> bool:
    """Whether these are chars or texts."""
    return array.dtype.kind in "SU"


def encoded(array: np.ndarray) -> np.ndarray:
    """Texts as bytes, by UTF-8."""
    if array.dtype.kind != "U":
        return array
    # (of no texts numpy makes an array of floats)
    return np.char.encode(array, "utf-8") if array.size else np.zeros(array.shape, "S1")


def _require_sizes(texts: np.ndarray, most: int, words: str) -> None:
    """Raises ValueError with the first text that has more bytes."""
    if texts.dtype.itemsize <= most:
        return
    sizes = np.char.str_len(texts)
    if (sizes > most).any():
        size = sizes.reshape(-1)[int(np.argmax(sizes > most))]
        raise ValueError(f"the text{place(sizes > most)} has {size} bytes, and {words}")


def chars_of(array: np.ndarray, rank: int, width: int | None) -> np.ndarray:
    """Texts as an array of chars (S1) of this rank.

    Texts of more than one byte need one dimension more than the array has: its length is the width, and NULs fill it
    up. ValueError where a text is longer, or the array has another rank.
    """
    texts = encoded(array)
    if texts.ndim == rank:
        _require_sizes(texts, 1, "no dimension is left for its chars")
        return texts.astype("S1", copy=False)
    if texts.ndim + 1 != rank:
        raise ValueError(f"texts of shape {texts.shape} don't fill {rank} dimensions: the last has the chars of a text")
    width = texts.dtype.itemsize if width is None else width
    _require_sizes(texts, width, f"its dimension has {width}")
    return np.ascontiguousarray(texts.astype(f"S{width}")).reshape(*texts.shape, 1).view("S1")


def _attr_array(value: Any) -> np.ndarray:
    array = array_of(value)
    if array.ndim > 1:
        raise ValueError("the values of an attribute have one dimension")
    if is_text(array) and array.ndim == 1 and encoded(array).dtype.itemsize > 1:
        raise TypeError("an attribute has one text, not several")
    return array


def attr_bytes(value: Any) -> tuple[int, int, bytes]:
    """The type, the number and the bytes of an attribute's values.

    A str (as UTF-8) or bytes are chars. Anything else is an array of at most one dimension, by numpy's rules. TypeError
    where no version has the type, ValueError where there are more dimensions.
    """
    if not isinstance(value, (str, bytes)):
        array = _attr_array(value)
        if not (is_text(array) and array.ndim == 0):
            raw = encoded(array) if is_text(array) else array
            code = CHAR if is_text(array) else code_of(array.dtype)
            return code, raw.size, raw.astype(TYPES[code]).tobytes()
        value = array.item()
    text = value.encode("utf-8") if isinstance(value, str) else value
    return CHAR, len(text), text


def _outside(array: np.ndarray, low: int, high: int) -> bool:
    """Whether one of these integers is below `low` or above `high`."""
    return array.size > 0 and (int(array.min()) < low or int(array.max()) > high)


def _lost_by_ints(array: np.ndarray, dtype: np.dtype) -> np.ndarray | None:
    """Which of these integers an integer dtype doesn't have; None where it has all."""
    range_ = np.iinfo(dtype)
    if not _outside(array, range_.min, range_.max):
        return None
    # (as Python's integers, which are compared without a rounding)
    numbers = array.astype(object)
    return np.asarray((numbers < range_.min) | (numbers > range_.max), bool)


def _lost_by_floats(array: np.ndarray, dtype: np.dtype) -> np.ndarray | None:
    """Which of these integers a float dtype would round; None where it keeps all."""
    exact = 1 << (np.finfo(dtype).nmant + 1)
    if not _outside(array, -exact, exact):
        return None
    size = array if array.dtype.kind == "u" else np.abs(array.astype(np.int64)).view(np.uint64)
    size = size.astype(np.uint64)
    # (without the zeros at its end a number has to be below 2 to the number of bits)
    lowest = np.maximum(size & (~size + np.uint64(1)), np.uint64(1))
    return size // lowest >= np.uint64(exact)


def _require_kept(array: np.ndarray, lost: np.ndarray | None, dtype: np.dtype) -> None:
    """Raises ValueError with the first of the values that are lost."""
    if lost is not None and lost.any():
        value = array.reshape(-1)[int(np.argmax(lost))]
        raise ValueError(f"{value}{place(lost)} isn't kept by {dtype.newbyteorder('=')}")


def as_type(values: Any, dtype: np.dtype, rank: int, width: int | None) -> np.ndarray:
    """The values in the dtype that a file has: an array of this rank.

    Integers have to be kept, and finite floats have to stay finite (ValueError); floats may be rounded. TypeError where
    the kind is another. Texts become chars, as in `chars_of`.
    """
    array = plain(values)
    if array.size == 0 and not is_text(array):
        return np.zeros(array.shape, dtype)
    if dtype.kind == "S":
        if not is_text(array):
            raise TypeError(f"values of dtype {array.dtype} aren't chars")
        return chars_of(array, rank, width)
    if array.dtype.kind in "iu" and dtype.kind in "iu":
        _require_kept(array, _lost_by_ints(array, dtype), dtype)
        return array.astype(dtype)
    if array.dtype.kind not in "iuf" or not np.can_cast(array.dtype, dtype, "same_kind"):
        raise TypeError(f"values of dtype {array.dtype} can't be values of {dtype.newbyteorder('=')}")
    if array.dtype.kind in "iu":
        _require_kept(array, _lost_by_floats(array, dtype), dtype)
        return array.astype(dtype)
    with np.errstate(over="ignore"):
        floats = array.astype(dtype)
    _require_kept(array, np.isinf(floats) & np.isfinite(array), dtype)
    return floats
