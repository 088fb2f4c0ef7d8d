"""A new file from a file, in another version."""

from __future__ import annotations

from collections.abc import Iterator

import numpy as np

from . import _calls, _library
from ._index import Index
from ._library import LIMIT
from ._schema import Plan, Schema
from ._sources import Source, Where, read_front, source_of
from ._target import Out, To, opened
from ._writing import PIECE, Writing
from .errors import told_of


class Copied:
    """The values of a file that passes, as bytes (`_writing.Values`). Padding isn't copied."""

    def __init__(self, source: Source, index: Index, plan: Plan) -> None:
        self._source, self._size = source, index.numbers.record_size
        self._begins, self._slabs = index.vars["begin"].tolist(), index.vars["slab"].tolist()
        self._records = np.flatnonzero(index.vars["is_record"]).tolist()
        self._first = min((self._begins[var] for var in self._records), default=source.length)
        new = min((plan.begins[var] for var in self._records), default=0)
        self._columns = [begin - new for begin in plan.begins]
        self._at, self._window = 0, np.zeros(0, np.uint8)

    def _from(self, at: int) -> np.ndarray:
        """Bytes from here on: a PIECE is read ahead, also into the slabs that follow, but not into the records."""
        if not self._at <= at < self._at + len(self._window):
            end = self._first if at < self._first else self._source.length
            self._at, self._window = at, np.frombuffer(self._source.read(at, min(PIECE, end - at)), np.uint8)
        return self._window[at - self._at :]

    def slab(self, var: int, record: int) -> Iterator[np.ndarray]:
        """The bytes of a slab by pieces."""
        at = self._begins[var] + record * self._size
        end = at + self._slabs[var]
        while at < end:
            piece = self._from(at)[: end - at]
            yield piece
            at += len(piece)

    def block(self, low: int, high: int, rows: np.ndarray) -> None:
        """Puts the slabs of these records into rows: they are read as one range."""
        at, size = self._first + low * self._size, (high - low) * self._size
        read = self._source.read(at, min(size, self._source.length - at))
        # (the padding of the last record may not be there)
        old = np.frombuffer(read.ljust(size, b"\0"), np.uint8).reshape(high - low, self._size)
        for var in self._records:
            there, here, slab = self._begins[var] - self._first, self._columns[var], self._slabs[var]
            rows[:, here : here + slab] = old[:, there : there + slab]


def _convert(source: Source, path: To, version: int | None, replace: bool, limit: int) -> int:
    with told_of(source.given):
        front, read = read_front(source, limit)
        if read.state != _library.PASSES:
            _calls.fail(read.numbers)
        index = Index(front, read)
        schema = Schema.of(index)
        plan = schema.plan(version, index.numbers.records)
    with opened(path, replace) as file:
        Writing(schema, plan, Copied(source, index, plan)).write(Out(file, path))
    return plan.version


def convert(source: Where, path: To, version: int | None = None, replace: bool = False, max_header: int = LIMIT) -> int:
    """Writes the dimensions, attributes, variables and values of a file to a new one, and returns its version.

    `source`: a path, a URL for fsspec, a buffer, or an object with `read` and `seek`, as for `ncc.open`. `path` and
    `replace`: as for `ncc.write`. `version`: 1, 2 or 5, also that of the source; if it is None, the first of them that
    has all of it. The new file has the bytes that `ncc convert` writes: places, vsizes and padding are made anew, and
    passes without a note. If the source is still being written, the records are those that are found in it.

    The names, texts and values of the source go into the new file as they stand; none of them is decoded. Values are
    read by ranges of at most 4 MiB, each of as many slabs or records as it takes, and at most two of them are in
    memory.

    Raises the fault of the source by its name (errors.Fault), a refusal by its name (errors.TypeForVersion and so on,
    all of them errors.Unwritable) before anything is written, FileExistsError if PATH or PATH.part is there,
    errors.Changed if the source becomes shorter, and OSError if it can't be read, or the new file can't be written.

    Source: docs/LAYOUT.md ("Places and records", "The standard placement"), which cites The NetCDF Classic Format
    Specification.
    """
    opened_source = source_of(source)
    try:
        return _convert(opened_source, path, version, replace, max_header)
    finally:
        if opened_source is not source:
            opened_source.close()
