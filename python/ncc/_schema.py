"""The schema of a file that is to be written, as rows of numbers, and its plan."""

from __future__ import annotations

import operator
from bisect import bisect_left
from collections.abc import Iterable, Mapping
from dataclasses import dataclass
from functools import cached_property
from typing import Any

import numpy as np

from . import _library as c
from ._calls import NUMBERS, Describing
from ._external import CHAR, FILLS, about, attr_bytes
from ._index import Index, text
from .errors import Unwritable

VERSIONS = (1, 2, 5)


@dataclass
class Plan:
    """Where all of a file goes."""

    version: int
    records: int
    header: bytes
    begins: list[int]
    """Where each variable begins."""
    slabs: list[int]
    """The bytes of a fixed variable, or of a record variable in one record, without padding."""
    record_size: int
    file_length: int


class Schema:
    """Rows as those of an index, with offsets into a text (uint8)."""

    def __init__(
        self, text: np.ndarray, dims: np.ndarray, attrs: np.ndarray, variables: np.ndarray, ids: np.ndarray
    ) -> None:
        self.text, self.dims, self.attrs, self.vars, self.ids = text, dims, attrs, variables, ids

    @classmethod
    def of(cls, index: Index) -> Schema:
        """The schema of a file that passes; its header is the text."""
        return cls(np.frombuffer(index.header, np.uint8), index.dims, index.attrs, index.vars, index.ids)

    @cached_property
    def is_record(self) -> list[bool]:
        """Of each variable whether its first dimension is the record dimension."""
        ranks = self.vars["rank"].astype(np.int64)
        firsts = np.cumsum(ranks) - ranks
        return [bool(rank) and not self.dims["length"][self.ids[first]] for rank, first in zip(ranks, firsts)]

    @cached_property
    def first_attr(self) -> np.ndarray:
        """The number of the first attribute of each variable, and of none after the last."""
        counts = self.vars["attrs"].astype(np.int64)
        return len(self.attrs) - counts.sum() + np.cumsum(np.append(0, counts))

    def _bytes(self, at: int, size: int) -> bytes:
        return self.text[at : at + size].tobytes()

    def name(self, row: np.void) -> bytes:
        """The name of a row."""
        return self._bytes(int(row["name_at"]), int(row["name_length"]))

    def fill(self, var: int) -> bytes:
        """The bytes of a variable's fill value.

        That is the value of its first attribute `_FillValue`, if it is one of the variable's type; else the default
        (The NetCDF Classic Format Specification, "Note on fill values").
        """
        code = int(self.vars[var]["xtype"])
        for row in self.attrs[self.first_attr[var] : self.first_attr[var + 1]]:
            if self.name(row) == b"_FillValue":
                if row["xtype"] == code and row["count"] == 1:
                    return self._bytes(int(row["values_at"]), c.TYPES[code].itemsize)
                break
        return bytes.fromhex(FILLS[code])

    def padding(self, var: int, slab: int) -> bytes:
        """What fills a slab of a variable up to a multiple of 4 bytes."""
        left = -slab % 4
        return (self.fill(var) * left)[:left] if left else b""

    def plan_of(self, version: int, records: int) -> Plan:
        """The plan of the file in this version. Raises the refusal by its name."""
        describing = Describing(self.text, self.dims, self.attrs, self.vars, self.ids)
        planned, places = describing.plan(version, records)
        header = describing.encode(version, records, planned.header_length)
        begins, slabs = places["begin"].tolist(), places["slab"].tolist()
        return Plan(version, records, header, begins, slabs, planned.record_size, planned.file_length)

    def plan(self, version: int | None, records: int) -> Plan:
        """The plan of the file in this version; of None, in the first of 1, 2 and 5 that has all of it.

        Raises the refusal by its name (errors.Unwritable), and ValueError for a version that there isn't.
        """
        if version is not None:
            if version not in VERSIONS:
                raise ValueError(f"the version has to be 1, 2 or 5, not {version!r}")
            return self._plan_or_tell(version, records)
        for first in VERSIONS[:-1]:
            try:
                return self.plan_of(first, records)
            except Unwritable:
                continue
        return self._plan_or_tell(VERSIONS[-1], records)

    def _plan_or_tell(self, version: int, records: int) -> Plan:
        """The plan. A refusal tells which item is refused."""
        try:
            return self.plan_of(version, records)
        except Unwritable as error:
            raise type(error)(Items(self).refused(version, type(error))) from None


class Items:
    """The items of a schema in the order in which they are judged.

    That is the dimensions, the attributes of the file, and each variable followed by its attributes.
    """

    def __init__(self, schema: Schema) -> None:
        self._schema = schema
        counts = np.append(0, 1 + schema.vars["attrs"].astype(np.int64))
        self._vars = len(schema.dims) + schema.first_attr[0] + np.cumsum(counts)
        """The numbers of the variables, and after the last how many items there are."""

    def _first(self, count: int) -> Schema:
        """The schema of the first items."""
        it = self._schema
        variables = it.vars[: int(np.searchsorted(self._vars[:-1], count))].copy()
        if len(variables):
            variables["attrs"][-1] = count - self._vars[len(variables) - 1] - 1
        attrs = it.attrs[: max(0, count - len(it.dims) - len(variables))]
        return Schema(it.text, it.dims[:count], attrs, variables, it.ids[: int(variables["rank"].sum())])

    def _named(self, number: int) -> str:
        """What the item with this number is."""

        def named(kind: str, rows: np.ndarray, row: int) -> str:
            return f"{kind} {text(self._schema.name(rows[row]))!r}"

        it, var = self._schema, int(np.searchsorted(self._vars, number, "right")) - 1
        if number < len(it.dims):
            return named("dimension", it.dims, number)
        if var < 0:
            return named("attribute", it.attrs, number - len(it.dims))
        variable = named("variable", it.vars, var)
        if number == self._vars[var]:
            return variable
        return named("attribute", it.attrs, number - len(it.dims) - var - 1) + f" of the {variable}"

    def refused(self, version: int, kind: type[Unwritable]) -> str | None:
        """The first item with which the schema is refused in this way; None where that takes records, or places."""

        def is_refused(count: int) -> bool:
            try:
                self._first(count).plan_of(version, 0)
            except Unwritable as error:
                return isinstance(error, kind)
            return False

        counts = range(1, int(self._vars[-1]) + 1)
        found = bisect_left(counts, True, key=is_refused)
        return self._named(found) if found < len(counts) else None


def _length(name: str, length: Any) -> int:
    """The length in the row of a dimension."""
    if length is None:
        return 0
    try:
        number = operator.index(length)
    except TypeError:
        raise TypeError(f"the dimension {name!r} has the length {length!r}: give an integer") from None
    if not 0 < number < 1 << 64:
        raise ValueError(f"the dimension {name!r} has the length {number}: give at least 1, or None for records")
    return number


def _require_fill(name: str, code: int, value: Any, attr: tuple[int, ...]) -> None:
    """Raises ValueError for a fill value that isn't one value of the variable's type: netCDF's library refuses it."""
    _, _, own, count, _ = attr
    if (own, count) != (code, 1):
        dtype = c.TYPES[code].newbyteorder("=")
        shown = np.asarray(value).item() if count == 1 and own != CHAR else ".."
        wanted = "one byte" if code == CHAR else f"numpy.{dtype}({shown})"
        found = f"{count} values" if count != 1 else f"of dtype {c.TYPES[own].newbyteorder('=')}"
        raise ValueError(f"the variable {name!r} has dtype {dtype}, and its _FillValue is {found}: give {wanted}")


class Rows:
    """Collects the rows of a schema: the dimensions, the file's attributes, and each variable with its own."""

    def __init__(self) -> None:
        self._text = bytearray()
        self._dims: list[tuple[int, ...]] = []
        self._attrs: list[tuple[int, ...]] = []
        self._vars: list[tuple[int, ...]] = []
        self._ids: list[int] = []
        self._number: dict[str, int] = {}

    def _put(self, raw: bytes) -> int:
        self._text += raw
        return len(self._text) - len(raw)

    def _name(self, name: str) -> tuple[int, int]:
        if not isinstance(name, str):
            raise TypeError(f"a name has to be a str, not {type(name).__name__}: {name!r}")
        # (a name that isn't UTF-8 has surrogates, and is refused by the library)
        raw = name.encode("utf-8", "surrogateescape")
        return self._put(raw), len(raw)

    def add_dims(self, dims: Mapping[str, int | None]) -> None:
        """The dimensions; the length None is that of the record dimension."""
        for name, length in dims.items():
            self._number[name] = len(self._dims)
            self._dims.append((*self._name(name), _length(name, length)))

    def add_attrs(self, attrs: Mapping[str, Any], of: str = "the file") -> None:
        """Attributes of the file, or of the variable that was added last (`of`). Errors name the attribute."""
        for name, value in attrs.items():
            with about(f"the attribute {name!r} of {of}"):
                code, count, raw = attr_bytes(value)
            self._attrs.append((*self._name(name), code, count, self._put(raw)))

    def add_var(self, name: str, dims: Iterable[str], code: int, attrs: Mapping[str, Any]) -> None:
        """A variable. A dimension that doesn't exist gets a number that the library refuses.

        Raises ValueError for a `_FillValue` that isn't one value of its type.
        """
        ids = [self._number.get(dim, len(self._dims)) for dim in dims]
        self._vars.append((*self._name(name), code, 0, 0, len(ids), len(attrs), 0))
        self._ids += ids
        first = len(self._attrs)
        self.add_attrs(attrs, f"the variable {name!r}")
        if "_FillValue" in attrs:
            fill = self._attrs[first + list(attrs).index("_FillValue")]
            _require_fill(name, code, attrs["_FillValue"], fill)

    def schema(self) -> Schema:
        """The schema of all rows."""
        text = np.frombuffer(bytes(self._text), np.uint8) if self._text else np.zeros(0, np.uint8)
        rows = ((self._dims, c.DIM), (self._attrs, c.ATTR), (self._vars, c.VAR), (self._ids, NUMBERS))
        return Schema(text, *(np.array(items, dtype) for items, dtype in rows))
