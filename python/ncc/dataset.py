"""An open file."""

from __future__ import annotations

import hashlib
from collections.abc import Iterator
from functools import cached_property
from types import TracebackType
from typing import Any

import numpy as np

from . import _calls, _library
from ._index import Attrs, Dims, Index, Named
from ._library import LIMIT
from ._sources import Buffer, LocalFile, Remote, Source, Where, read_front, source_of
from .errors import Changed, Closed, told_of
from .variable import Variable

FEW = 64
"""For so many notes there is room at first."""


class File:
    """What a dataset and its variables share. Pickled, it is opened again by its path, its URL or its bytes."""

    def __init__(self, where: Where, limit: int) -> None:
        source = source_of(where)
        front, read = read_front(source, limit)
        if read.state != _library.PASSES:
            source.close()
            with told_of(source.given):
                _calls.fail(read.numbers)
        self.index = Index(front, read)
        self.limit = limit
        self._source: Source | None = source
        self._where = source.name if isinstance(source, LocalFile) else source if isinstance(source, Remote) else where

    @property
    def source(self) -> Source:
        """Where the bytes are. Raises Closed after `close`."""
        if self._source is None:
            raise Closed("the dataset is closed")
        return self._source

    def close(self) -> None:
        """Gives up the source."""
        if self._source is not None:
            self._source.close()
        self._source = None

    def _likeness(self) -> tuple[int, bytes]:
        return self.source.length, hashlib.blake2b(self.index.header, digest_size=16).digest()

    def __reduce__(self) -> tuple[Any, ...]:
        source = self.source
        where = source.read(0, source.length) if isinstance(source, Buffer) else self._where
        return _reopen, (where, self.limit, self._likeness())


def _reopen(where: Where, limit: int, likeness: tuple[int, bytes]) -> File:
    file = File(where, limit)
    if file._likeness() != likeness:
        raise Changed("the file has another length or header than when it was pickled")
    return file


class Variables(Named[Variable]):
    """The variables of a file, by name."""

    def __init__(self, file: File) -> None:
        super().__init__(file.index, file.index.vars)
        self._file = file

    def _item(self, number: int) -> Variable:
        return Variable(self._file, number)


class Dataset:
    """An open netCDF classic file that passes `ncc check`. It is a context manager, and can be pickled.

    `dims`, `attrs` and `variables` are mappings by name, in the order of the header. Nothing of an item is decoded
    before it is asked for.
    """

    def __init__(self, file: File) -> None:
        self._file = file
        index = file.index
        self.version: int = index.numbers.version
        """1, 2 or 5."""
        self.records: int = index.numbers.records
        """The number of records. Of a file that is still being written: those that are found in it."""
        self.dims = Dims(index, index.dims)
        self.attrs = Attrs(index, index.attrs_of(None))
        self.variables = Variables(file)

    @property
    def record_dim(self) -> str | None:
        """The name of the record dimension, or None."""
        index = self._file.index
        found = np.flatnonzero(index.dims["length"] == 0)
        return index.name(index.dims[int(found[0])]) if len(found) else None

    @cached_property
    def notes(self) -> tuple[tuple[str, int], ...]:
        """The name and the offset of each note, in order of offset."""
        header = np.frombuffer(self._file.index.header, np.uint8)
        return _calls.notes(header, self._file.source.length, self._file.limit, FEW)

    def __getitem__(self, name: str) -> Variable:
        return self.variables[name]

    def __contains__(self, name: object) -> bool:
        return name in self.variables

    def __iter__(self) -> Iterator[str]:
        return iter(self.variables)

    def close(self) -> None:
        """Gives up the file. Arrays that were read before stay valid."""
        self._file.close()

    def __enter__(self) -> Dataset:
        return self

    def __exit__(
        self, kind: type[BaseException] | None, error: BaseException | None, trace: TracebackType | None
    ) -> None:
        self.close()

    def __reduce__(self) -> tuple[type[Dataset], tuple[File]]:
        return Dataset, (self._file,)

    def __repr__(self) -> str:
        numbers = self._file.index.numbers
        return f"<ncc.Dataset CDF-{self.version}, {numbers.dims} dimensions, {numbers.vars} variables>"


def open(where: Where, max_header: int = LIMIT) -> Dataset:
    """Opens a file that passes: a path, a URL for fsspec, a buffer, or an object with `read` and `seek`.

    A file on this machine is mapped, so its values are views of its bytes. **It must not be cut or rewritten while it
    is open**: what was said of it would be void, and reading a view past the new end stops the process by a signal. A
    buffer mustn't change either. Of anything else only the header is read now, and values are read by ranges: see
    `_sources.judged_front` for how many bytes and requests that takes.

    Raises the fault by its name (errors.Fault) and the path, OSError if the file can't be read, MemoryError if memory
    is refused, and TypeError if `where` is none of these.
    """
    return Dataset(File(where, max_header))
