"""A new file from arrays."""

from __future__ import annotations

import operator
from collections.abc import Iterator, Mapping
from typing import Any

import numpy as np

from ._external import about, array_of, chars_of, code_of, is_text, plain, same_count
from ._library import TYPES
from ._schema import Plan, Rows, Schema
from ._target import Out, To, opened
from ._writing import Writing, pieces


def _is_lazy(data: Any) -> bool:
    return not isinstance(data, (np.ndarray, np.generic)) and hasattr(data, "shape") and hasattr(data, "__getitem__")


def _dtype_of(data: Any) -> np.dtype:
    """The dtype of an object with `shape` and `__getitem__`: what it says, or else that of its first element."""
    said = getattr(data, "dtype", None)
    return np.dtype(said) if said is not None else np.asarray(data[tuple(slice(0, 1) for _ in data.shape)]).dtype


class Given:
    """A variable as it was given: a tuple of dimensions, data, and perhaps attributes."""

    def __init__(self, name: str, item: Any, lengths: Mapping[str, int | None]) -> None:
        if not isinstance(item, tuple) or len(item) not in (2, 3):
            raise TypeError(f"the variable {name!r} isn't a tuple (dims, data) or (dims, data, attrs)")
        dims, data, *attrs = item
        self.name = name
        self.attrs: Mapping[str, Any] = (attrs[0] if attrs else None) or {}
        with about(f"the variable {name!r}"):
            self.dims: tuple[str, ...] = (dims,) if isinstance(dims, str) else tuple(dims)
            self.data = data if _is_lazy(data) else self._array(data, lengths)
            self.code = code_of(_dtype_of(self.data))
        self.dtype = TYPES[self.code]

    def _array(self, data: Any, lengths: Mapping[str, int | None]) -> np.ndarray:
        array = array_of(data)
        if not is_text(array):
            return array
        width = lengths.get(self.dims[-1]) if self.dims else None
        return chars_of(array, len(self.dims), width)

    @property
    def shape(self) -> tuple[int, ...]:
        """The shape of the data."""
        return tuple(operator.index(length) for length in self.data.shape)

    def require(self, shape: tuple[int, ...]) -> None:
        """Raises ValueError unless the data has this shape."""
        if self.shape != shape:
            raise ValueError(f"the variable {self.name!r} has the shape {self.shape}, and its dimensions {shape}")

    def take(self, key: tuple[slice, ...], into: np.ndarray) -> None:
        """Puts a part of the data into an array of the file's dtype."""
        given = self.data[key]
        with about(f"the variable {self.name!r}"):
            part = plain(given)
            if part.shape != into.shape:
                raise ValueError(f"a part has the shape {part.shape}, not {into.shape}")
            np.copyto(into, part, casting="equiv")


class Arrays:
    """The values of variables that were given (`_writing.Values`)."""

    def __init__(self, given: list[Given], schema: Schema, plan: Plan) -> None:
        self._given, self._is_record = given, schema.is_record
        first = min((begin for begin, it in zip(plan.begins, schema.is_record) if it), default=0)
        self._spans = [slice(begin - first, begin - first + slab) for begin, slab in zip(plan.begins, plan.slabs)]

    def slab(self, var: int, record: int) -> Iterator[np.ndarray]:
        """The bytes of a slab by pieces."""
        it = self._given[var]
        is_record = self._is_record[var]
        before = (slice(record, record + 1),) if is_record else ()
        for part in pieces(it.shape[len(before) :], it.dtype.itemsize):
            key = (*before, *part)
            into: np.ndarray = np.empty([place.stop - place.start for place in key], it.dtype)
            it.take(key, into)
            yield into.reshape(-1).view(np.uint8)

    def block(self, low: int, high: int, rows: np.ndarray) -> None:
        """Puts the slabs of these records into rows."""
        for it, is_record, span in zip(self._given, self._is_record, self._spans):
            if is_record:
                # (splitting an axis makes a view)
                into = rows[:, span].view(it.dtype).reshape(high - low, *it.shape[1:])
                it.take((slice(low, high), *(slice(0, length) for length in it.shape[1:])), into)


def _count(records: int | None, given: list[Given], lengths: Mapping[str, int | None]) -> int:
    """The number of records: as it is given, or else that of the record variables."""
    if records is not None:
        with about("records"):
            number = operator.index(records)
        if not 0 <= number < 1 << 64:
            raise ValueError("records has to be at least 0 and below 2**64")
        return number
    of_records = [it for it in given if it.dims and it.shape and lengths.get(it.dims[0], 0) is None]
    return same_count({it.name: it.shape[0] for it in of_records})


def write(
    path: To,
    dims: Mapping[str, int | None],
    attrs: Mapping[str, Any] | None,
    variables: Mapping[str, tuple[Any, ...]],
    version: int | None = None,
    records: int | None = None,
    replace: bool = False,
) -> int:
    """Writes a new file, and returns its version.

    `path`: a path; or an object with `write` for bytes, to which the file is written from its first byte to its last,
    and which isn't closed. A path is a file that isn't there yet, unless `replace` is true. Its bytes go to `PATH.part`
    in the same folder. Only when they are on the disk do they get the name PATH, and then the folder is synced: so PATH
    is the whole file or isn't there (with `replace`: or is the old file), whatever stops the writing. (Without hard
    links, as on FAT, a kill may leave it empty.) After an exception PATH.part is removed; after a kill it may be left.

    `dims`: the length of each dimension by name; None for the record dimension. `attrs`: the attributes of the file by
    name: a str (as UTF-8) or bytes, a number, or a list or array of at most one dimension. `variables`: by name a tuple
    (dims, data) or (dims, data, attrs). Its dims are names, or one name. Its data has the shape of the dims: an array,
    a nested list, or any object with `shape` and `__getitem__`, which is asked for at most 4 MiB at a time by a tuple
    of slices (its `dtype` is that of its first element, if it doesn't say it). Texts of more than one byte take one
    more dimension, the last, and are filled up with NULs.

    The dtype decides the type: int8 is byte, S1 and str char, int16 short, int32 int, float32 float, float64 double,
    and in CDF-5 there are uint8 (ubyte), uint16 (ushort), uint32 (uint), int64 and uint64. What has no dtype has the
    one that numpy gives it, except that ints are int32 if all of them fit.

    `version`: 1, 2 or 5; if it is None, the first of them that has all of it. `records`: the number of records; if it
    is None, that of the record variables.

    The header and the places are those of the library: the types, names and sizes that it refuses are raised by name
    (errors.TypeForVersion and so on, all of them errors.Unwritable), before anything is written. Padding after a slab
    is the variable's fill value: its attribute `_FillValue`, or else the type's default. Raises ValueError for a shape
    that isn't that of the dimensions, and for a `_FillValue` that isn't one value of the variable's type; TypeError for
    a dtype that no version has, and for masked values: each of them names the dimension, attribute or variable. Raises
    FileExistsError if PATH or PATH.part is there, and OSError if it can't be written.

    Source: docs/FORMAT.md ("Types", "The name rule") and docs/LAYOUT.md ("The standard placement"), which cite The
    NetCDF Classic Format Specification, and of CDF-5 PnetCDF's page on it.
    """
    rows, given = Rows(), [Given(name, item, dims) for name, item in variables.items()]
    rows.add_dims(dims)
    rows.add_attrs(attrs or {})
    for it in given:
        rows.add_var(it.name, it.dims, it.code, it.attrs)
    schema, count = rows.schema(), _count(records, given, dims)
    plan = schema.plan(version, count)
    lengths = {name: count if length is None else operator.index(length) for name, length in dims.items()}
    for it in given:
        it.require(tuple(lengths[dim] for dim in it.dims))
    with opened(path, replace) as file:
        Writing(schema, plan, Arrays(given, schema, plan)).write(Out(file, path))
    return plan.version
