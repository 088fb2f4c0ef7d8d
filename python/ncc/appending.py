"""Records that are added to a file on this machine."""

from __future__ import annotations

import fcntl
import os
from collections.abc import Iterator, Mapping
from contextlib import contextmanager
from typing import Any

import numpy as np

from . import _calls, _library
from ._external import about, as_type, is_text, plain, same_count
from ._index import Index
from ._library import LIMIT, TYPES
from ._schema import Schema
from ._sources import LocalFile, read_front, require_limit
from .errors import told_of


class GrowingFile(LocalFile):
    """A regular file on this machine that is written to, under a lock."""

    FLAGS = os.O_RDWR

    def lock(self) -> None:
        """Locks the file (`flock`) until it is closed. Raises BlockingIOError where it is locked already."""
        fcntl.flock(self._fd, fcntl.LOCK_EX | fcntl.LOCK_NB)
        self.length = os.fstat(self._fd).st_size

    def put(self, place: int, data: bytes) -> None:
        """Writes these bytes at the place."""
        view = memoryview(data)
        while len(view):
            taken = os.pwrite(self._fd, view, place)
            place, view = place + taken, view[taken:]
        self.length = max(self.length, place)

    def sync(self) -> None:
        """What was written is on the disk."""
        os.fsync(self._fd)


@contextmanager
def _locked(path: str | os.PathLike[str]) -> Iterator[GrowingFile]:
    file = GrowingFile(path)
    try:
        with told_of(file.given):
            file.lock()
            yield file
    finally:
        file.close()


class Records:
    """The bytes of the records that are added."""

    def __init__(self, index: Index, values: Mapping[str, Any]) -> None:
        self._size = index.numbers.record_size
        self._vars = np.flatnonzero(index.vars["is_record"]).tolist()
        self._begins, self._slabs = index.vars["begin"].tolist(), index.vars["slab"].tolist()
        self._first = min((self._begins[var] for var in self._vars), default=0)
        self._set_padding(Schema.of(index))
        self._set_arrays(index, values)

    def _set_padding(self, schema: Schema) -> None:
        self._image = np.zeros(self._size, np.uint8)
        for var in self._vars if len(self._vars) > 1 else ():
            end = self._begins[var] - self._first + self._slabs[var]
            padding = schema.padding(var, self._slabs[var])
            self._image[end : end + len(padding)] = list(padding)

    def _set_arrays(self, index: Index, values: Mapping[str, Any]) -> None:
        names = [index.name(index.vars[var]) for var in self._vars]
        if sorted(names) != sorted(values):
            raise ValueError(f"values for {sorted(values)}, and the record variables are {sorted(names)}")
        self._arrays = [_array(index, var, name, values[name]) for var, name in zip(self._vars, names)]
        self.count = same_count({name: len(array) for name, array in zip(names, self._arrays)})

    def image(self, record: int) -> bytes:
        """The bytes of one of the records, with padding."""
        for var, array in zip(self._vars, self._arrays):
            at = self._begins[var] - self._first
            self._image[at : at + self._slabs[var]] = array[record : record + 1].reshape(-1).view(np.uint8)
        return self._image.tobytes()


def _require_shape(array: np.ndarray, inner: tuple[int, ...]) -> None:
    """Raises ValueError for a shape that isn't (records, *inner)."""
    if array.ndim != 1 + len(inner) or array.shape[1:] != inner:
        wanted = ", ".join(["records", *map(str, inner)])
        missing = ": the axis of records is missing" if array.ndim in (0, len(inner)) else ""
        raise ValueError(f"the values have the shape {array.shape}, and it has to be ({wanted}){missing}")


def _array(index: Index, var: int, name: str, values: Any) -> np.ndarray:
    """The values of a record variable in the file's dtype, a record after the other."""
    inner = tuple(index.length_of(dim) for dim in index.dims_of(var)[1:])
    dtype = TYPES[int(index.vars[var]["xtype"])]
    with about(f"the variable {name!r}"):
        given = plain(values)
        if is_text(given) and given.ndim == 0:
            _require_shape(given, inner)
        array = as_type(given, dtype, 1 + len(inner), inner[-1] if inner else None)
        _require_shape(array, inner)
    return np.ascontiguousarray(array)


def _add(file: GrowingFile, header: np.ndarray, image: bytes, limit: int) -> int:
    """One more record: its bytes, and only when they are on the disk the number of records."""
    added, count = _calls.record(header, file.length, limit)
    file.put(file.length, bytes(max(0, added.place - file.length)))
    file.put(added.place, image)
    file.sync()
    file.put(added.count_at, count)
    file.sync()
    header[added.count_at : added.count_at + added.count_width] = list(count)
    return added.count


def _append(file: GrowingFile, values: Mapping[str, Any], limit: int) -> int:
    front, read = read_front(file, limit)
    if read.state != _library.PASSES:
        _calls.fail(read.numbers)
    index = Index(front, read)
    header = np.frombuffer(bytearray(index.header), np.uint8)
    _calls.record(header, file.length, limit)
    records, count = Records(index, values), index.numbers.records
    if records.count == 0:
        raise ValueError("the arrays have no record: give one or more")
    file.sync()
    for record in range(records.count):
        count = _add(file, header, records.image(record), limit)
    return count


def append(path: str | os.PathLike[str], values: Mapping[str, Any], max_header: int = LIMIT) -> int:
    """Adds records to a file on this machine, and returns how many it then has.

    `path`: a regular file. `values`: by the name of each record variable an array, or a nested list, of the shape
    (records, *lengths): the same number of records, one or more, of all of them. Values become those of the file's
    dtype: integers have to be kept, floats may be rounded but stay finite. Texts of more than one byte are filled up
    with NULs along the last dimension. Between the values of a record there is the padding that `ncc extend` writes:
    fill values.

    The file is locked (`flock`) against `ncc extend` and another `append`. First what is still on its way to the disk
    is synced. Then the records are added one after another, at the places that the library tells: zeros that are
    missing before the record and its bytes are written and synced, and then the number of records is written and
    synced. So if the file was whole on the disk before, it passes with the old records and the first of the new ones,
    whatever stops the writing. (docs/MANUAL.md, "extend", says the same of `ncc extend`, of which it is proved.)

    Nothing is written where the arrays don't fit the file: ValueError for other names, shapes or numbers of records,
    for no record, and for values that aren't kept; TypeError for values of another kind. Each names the variable, and
    the index of a value. Raises the fault of the file by its name
    (errors.Fault); errors.NoRecordVariable, NotPacked, Streaming or CountFull (errors.Unwritable) where no record can
    be added, and then the records before it stay; BlockingIOError if the file is locked; and OSError if it can't be
    opened, locked or written.

    Source: docs/LAYOUT.md ("Places and records"), which cites The NetCDF Classic Format Specification; its "Note on
    fill values" is that of the padding.
    """
    require_limit(max_header)
    with _locked(path) as file:
        return _append(file, values, max_header)
