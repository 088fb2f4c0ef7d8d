"""A variable of an open file."""

from __future__ import annotations

from typing import TYPE_CHECKING, Any

import numpy as np

from . import _library, _reading
from ._calls import Selecting
from ._index import Attrs
from ._selection import parse

if TYPE_CHECKING:
    from .dataset import File


def native(values: Any) -> Any:
    """The same values in native byte order: of an array a fresh copy; a numpy scalar is native already."""
    if isinstance(values, np.ndarray):
        return values.astype(values.dtype.newbyteorder("="))
    return values


class Variable:
    """A variable: `var[..]` reads values as they stand in the file, `var.native(..)` in native byte order.

    Values aren't scaled, masked or decoded. An index is numpy's basic indexing: integers, slices of any step, Ellipsis
    and None. What comes back has the shape that numpy gives.
    """

    def __init__(self, file: File, number: int) -> None:
        index = file.index
        self._file, self.number = file, number
        self._row = index.vars[number : number + 1]
        row = self._row[0]
        dims = index.dims_of(number)
        self.name: str = index.name(row)
        self.dims: tuple[str, ...] = tuple(index.name(index.dims[dim]) for dim in dims)
        self.shape: tuple[int, ...] = tuple(index.length_of(dim) for dim in dims)
        self.dtype: np.dtype = _library.TYPES[int(row["xtype"])]
        self.begin: int = int(row["begin"])
        self.is_record: bool = bool(row["is_record"])
        self.attrs = Attrs(index, index.attrs_of(number))

    @property
    def ndim(self) -> int:
        """How many dimensions there are."""
        return len(self.shape)

    @property
    def size(self) -> int:
        """How many elements there are."""
        return int(np.prod(self.shape, dtype=object))

    @property
    def nbytes(self) -> int:
        """How many bytes the elements have."""
        return self.size * self.dtype.itemsize

    def __getitem__(self, key: Any) -> Any:
        """The selected values, with the file's dtype, the high byte first: `>f4`, `>i2`, and S1 for chars.

        An array, or a numpy scalar where numpy gives one. If the file is on this machine or in memory, the array is a
        read-only view of its bytes, and nothing is copied. Otherwise it is read by ranges into a fresh array.
        Raises SelectionError (an IndexError) if it isn't basic indexing or isn't inside the shape, Closed if the
        dataset was closed, and OSError if a range can't be read.
        """
        selection, numbers = parse(key, self.shape), self._file.index.numbers
        source = self._file.source
        selecting = Selecting(self._row, self.shape, numbers.record_size, source.length, selection.lists)
        whole = source.whole()
        if whole is None:
            values = _reading.ranges(source, selecting, selection.count, self.dtype)
        else:
            values = _reading.view(whole, selecting, selection.count, self.dtype)
        return values[tuple(selection.rest)]

    def native(self, key: Any = Ellipsis) -> Any:
        """The selected values, or all, in native byte order: a fresh array, or a numpy scalar. Raises as `[]`."""
        return native(self[key])

    def __array__(self, dtype: Any = None, copy: bool | None = None) -> np.ndarray:
        values = np.asarray(self[...])
        return values if dtype is None and not copy else values.astype(dtype or values.dtype, copy=copy is not False)

    def __len__(self) -> int:
        if not self.shape:
            raise TypeError("len() of a variable without dimensions")
        return self.shape[0]

    def __reduce__(self) -> tuple[type[Variable], tuple[File, int]]:
        return Variable, (self._file, self.number)

    def __repr__(self) -> str:
        shape = ", ".join(f"{name}={length}" for name, length in zip(self.dims, self.shape))
        return f"<ncc.Variable {self.name!r} {self.dtype} ({shape})>"
