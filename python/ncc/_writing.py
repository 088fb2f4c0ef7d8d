"""The bytes of a new file, in their order: the header, the fixed variables, the records."""

from __future__ import annotations

from collections.abc import Iterator
from math import prod
from typing import Protocol

import numpy as np

from ._schema import Plan, Schema
from ._target import Out

PIECE = 4 << 20
"""At most so many bytes of values are taken at a time, unless one element has more."""


class Values(Protocol):
    """The values of all variables, as bytes."""

    def slab(self, var: int, record: int) -> Iterator[bytes | np.ndarray]:
        """The bytes of a slab (uint8), in their order, by pieces. Of a fixed variable the record is 0."""

    def block(self, low: int, high: int, rows: np.ndarray) -> None:
        """Puts the slabs of these records into rows, one for each record. Padding is left as it is."""


def pieces(shape: tuple[int, ...], size: int) -> Iterator[tuple[slice, ...]]:
    """The parts of an array of elements of this size, in row-major order: a slice for each dimension.

    Each has at most PIECE bytes, which follow one another.
    """
    if not shape:
        yield ()
        return
    rest = tuple(slice(0, length) for length in shape[1:])
    inner = prod(shape[1:]) * size
    if inner > PIECE:
        for k in range(shape[0]):
            yield from ((slice(k, k + 1), *part) for part in pieces(shape[1:], size))
        return
    step = PIECE // inner
    for low in range(0, shape[0], step):
        yield (slice(low, min(low + step, shape[0])), *rest)


class Writing:
    """The parts of a plan that go out one after another."""

    def __init__(self, schema: Schema, plan: Plan, values: Values) -> None:
        self.plan, self.values = plan, values
        self.padding = [schema.padding(var, slab) for var, slab in enumerate(plan.slabs)]
        of_kind: tuple[list[int], list[int]] = ([], [])
        for var in sorted(range(len(plan.begins)), key=plan.begins.__getitem__):
            of_kind[schema.is_record[var]].append(var)
        self.fixed, self.in_records = of_kind
        if len(self.in_records) == 1:
            # (the records of a variable that is alone aren't padded)
            self.padding[self.in_records[0]] = b""

    def write(self, out: Out) -> None:
        """All bytes of the file."""
        out.put(self.plan.header)
        for var in self.fixed:
            self._slab(out, var, 0)
        if self.in_records:
            self._records(out)
        out.require(self.plan.file_length)

    def _slab(self, out: Out, var: int, record: int) -> None:
        out.require(self.plan.begins[var] + record * self.plan.record_size)
        for piece in self.values.slab(var, record):
            out.put(piece)
        out.put(self.padding[var])

    def _records(self, out: Out) -> None:
        if self.plan.record_size <= PIECE:
            self._blocks(out)
            return
        for record in range(self.plan.records):
            for var in self.in_records:
                self._slab(out, var, record)

    def _blocks(self, out: Out) -> None:
        """Many records at a time."""
        first, size, records = self.plan.begins[self.in_records[0]], self.plan.record_size, self.plan.records
        step = PIECE // size
        rows = np.empty((min(step, records), size), np.uint8)
        for var in self.in_records:
            end = self.plan.begins[var] - first + self.plan.slabs[var]
            for k, byte in enumerate(self.padding[var]):
                rows[:, end + k] = byte
        for low in range(0, records, step):
            high = min(low + step, records)
            out.require(first + low * size)
            self.values.block(low, high, rows[: high - low])
            out.put(rows[: high - low])
