"""The values of a selection: a view of bytes that are in memory, or ranges that are read."""

from __future__ import annotations

from collections.abc import Iterator

import numpy as np

from ._calls import Selecting
from ._sources import Source

ROOM = 4096
"""How many runs are asked for at a time."""

GAP = 4096
"""Runs with at most so many bytes between them are read as one range."""


def view(whole: np.ndarray, selecting: Selecting, count: list[int], dtype: np.dtype) -> np.ndarray:
    """A read-only array of shape `count` over the bytes of the file; nothing is copied."""
    stepped, steps = selecting.steps()
    if stepped.total == 0:
        nothing = np.empty(count, dtype)
        nothing.flags.writeable = False
        return nothing
    # (numpy tests once more that all of it lies in the buffer)
    return np.ndarray(tuple(count), dtype, whole, stepped.base, steps)


def _spans(places: np.ndarray, ends: np.ndarray) -> Iterator[tuple[int, int]]:
    """The numbers of the runs that are read as one range."""
    gaps = places[1:] - ends[:-1]
    cuts = np.flatnonzero((gaps < 0) | (gaps > GAP)) + 1
    bounds = [0, *cuts.tolist(), len(places)]
    yield from zip(bounds[:-1], bounds[1:])


def _pick(span: np.ndarray, places: np.ndarray, counts: np.ndarray, size: int) -> np.ndarray:
    """The bytes of the runs out of a range that begins at the first of them."""
    if len(places) == 1:
        return span
    before = np.cumsum(counts) - counts
    starts = np.repeat(places - places[0] - size * before, counts) + size * np.arange(counts.sum())
    return span[(starts[:, None] + np.arange(size)).ravel()]


def ranges(source: Source, selecting: Selecting, count: list[int], dtype: np.dtype) -> np.ndarray:
    """A fresh array of shape `count`, read by ranges."""
    first, done, size = 0, 0, dtype.itemsize
    array: np.ndarray | None = None
    while True:
        stretched, runs = selecting.stretches(first, ROOM)
        if array is None:
            array = np.empty(stretched.total * size, np.uint8)
        places, counts = runs["place"].astype(np.int64), runs["count"].astype(np.int64)
        ends = places + counts * size
        for low, high in _spans(places, ends) if len(runs) else ():
            at = int(places[low])
            read = np.frombuffer(source.read(at, int(ends[high - 1]) - at), np.uint8)
            got = _pick(read, places[low:high], counts[low:high], size)
            array[done : done + len(got)] = got
            done += len(got)
        first = stretched.next
        if len(runs) < ROOM:
            return array.view(dtype).reshape(count)
