"""The rows of a header, and mappings that make a Python object of a row only when it is asked for."""

from __future__ import annotations

from collections.abc import Iterator, Mapping
from functools import cached_property
from typing import Any, TypeVar, Union

import numpy as np

from . import _calls, _library

T = TypeVar("T")
AttrValue = Union[str, bytes, np.generic, np.ndarray]
"""A text as str, or bytes where it isn't UTF-8; one number as a numpy scalar; else an array, in native byte order."""


def text(raw: bytes) -> str:
    """A name as str; bytes that aren't UTF-8 become surrogates, as in Python's file names."""
    return raw.decode("utf-8", "surrogateescape")


class Index:
    """The header of a file that passes, by rows of numbers into its bytes."""

    def __init__(self, front: np.ndarray, read: _calls.Read) -> None:
        self.numbers = read.numbers
        self.header = front[: read.numbers.header_length].tobytes()
        self.dims, self.attrs, self.vars, self.ids = read.rows

    @cached_property
    def first_attr(self) -> np.ndarray:
        """The number of the first attribute of each variable, and of none after the last."""
        return self.numbers.global_attrs + np.cumsum(np.append(0, self.vars["attrs"].astype(np.int64)))

    @cached_property
    def first_id(self) -> np.ndarray:
        """The place among the numbers of dimensions where those of each variable begin, and where the last end."""
        return np.cumsum(np.append(0, self.vars["rank"].astype(np.int64)))

    def names(self, rows: np.ndarray) -> Iterator[str]:
        """The names of these rows."""
        header = self.header
        for at, length in zip(rows["name_at"].tolist(), rows["name_length"].tolist()):
            yield text(header[at : at + length])

    def name(self, row: np.void) -> str:
        """The name of a row."""
        at = int(row["name_at"])
        return text(self.header[at : at + int(row["name_length"])])

    def length_of(self, dim: int) -> int:
        """The length of a dimension; that of the record dimension is the number of records."""
        return int(self.dims[dim]["length"]) or self.numbers.records

    def dims_of(self, var: int) -> list[int]:
        """The numbers of the dimensions of a variable."""
        return self.ids[self.first_id[var] : self.first_id[var + 1]].tolist()

    def attrs_of(self, var: int | None) -> np.ndarray:
        """The rows of the attributes of a variable, or of the file."""
        if var is None:
            return self.attrs[: self.numbers.global_attrs]
        return self.attrs[self.first_attr[var] : self.first_attr[var + 1]]

    def raw_values(self, row: np.void) -> np.ndarray:
        """The values of an attribute as they stand: a read-only array, the high byte first; chars as S1."""
        dtype, count = _library.TYPES[int(row["xtype"])], int(row["count"])
        if count == 0:
            return np.empty(0, dtype)
        return np.frombuffer(self.header, dtype, count, int(row["values_at"]))

    def values(self, row: np.void) -> AttrValue:
        """The values of an attribute."""
        raw = self.raw_values(row)
        if raw.dtype.kind == "S":
            try:
                return raw.tobytes().decode("utf-8")
            except UnicodeDecodeError:
                return raw.tobytes()
        values = raw.astype(raw.dtype.newbyteorder("="))
        return values[0] if len(values) == 1 else values


class Named(Mapping[str, T]):
    """Items by name, in the order of the header. Of several with one name, the name means the first.

    `by_number` reaches each item by its place in the header, counted from 0, and `numbers` says how many there are.
    """

    def __init__(self, index: Index, rows: np.ndarray) -> None:
        self._index, self._rows = index, rows
        self._places: dict[str, int] | None = None

    @property
    def numbers(self) -> range:
        """The numbers of all items, also of those whose name stands before."""
        return range(len(self._rows))

    def by_number(self, number: int) -> T:
        """The item with this number in the header. Raises IndexError where there is none."""
        return self._item(self.numbers[number])

    def _item(self, number: int) -> T:
        raise NotImplementedError

    def _place_of(self) -> dict[str, int]:
        if self._places is None:
            places: dict[str, int] = {}
            for number, name in enumerate(self._index.names(self._rows)):
                places.setdefault(name, number)
            self._places = places
        return self._places

    def __getitem__(self, name: str) -> T:
        return self._item(self._place_of()[name])

    def __contains__(self, name: object) -> bool:
        return name in self._place_of()

    def __iter__(self) -> Iterator[str]:
        return iter(self._place_of())

    def __len__(self) -> int:
        return len(self._place_of())

    def __repr__(self) -> str:
        few = [f"{name!r}: {self[name]!r}" for _, name in zip(range(20), self)]
        return "{" + ", ".join(few + ["..."] * (len(self._rows) > 20)) + "}"


class Dims(Named[int]):
    """The length of each dimension. That of the record dimension is the number of records."""

    def _item(self, number: int) -> int:
        return self._index.length_of(number)


class Attrs(Named[AttrValue]):
    """The attributes of a file or of a variable, decoded when they are asked for."""

    def _item(self, number: int) -> AttrValue:
        return self._index.values(self._rows[number])

    def raw(self, name: str) -> np.ndarray:
        """The values as they stand: a read-only 1-d array, the high byte first; chars as dtype S1."""
        return self._index.raw_values(self._rows[self._place_of()[name]])

    def to_dict(self) -> dict[str, Any]:
        """All attributes, decoded."""
        return dict(self)
