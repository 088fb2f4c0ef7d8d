"""The calls of the library over numpy arrays. Each makes its own answer, so threads may call at the same time."""

from __future__ import annotations

import ctypes
from collections.abc import Iterable
from typing import NamedTuple, NoReturn

import numpy as np

from . import _library as c
from .errors import BY_NAME, UNWRITABLE, Misused, OutOfMemory, Refused

NUMBERS = np.dtype(np.uint64)
Rows = tuple[np.ndarray, np.ndarray, np.ndarray, np.ndarray]
"""Of dimensions, of attributes, of variables, and the numbers of dimensions."""
ROWS = (c.DIM, c.ATTR, c.VAR, NUMBERS)
LEAST = {1: (8, 12, 28, 4), 2: (8, 12, 32, 4), 5: (16, 20, 48, 8)}
"""By version, the fewest bytes that a header has for each row: those of an item with an empty name, and no values,
attributes or dimensions; and of a number of a dimension."""
SMALL = 1 << 16
"""A front of so many bytes gets a room that is kept, of less than 1 MB; its rows are copied out of it."""
LONG = 1 << 25
"""A longer front gets a room of its own, for the rows of a header of at most so many bytes: address space of 11 times as
much (of 6 times in CDF-5), of which only what the rows take is ever touched. A longer header may be read twice."""
FEW = 1 << 16
"""Rows of fewer bytes are copied out of such a room, too."""


def address(array: np.ndarray) -> int:
    """Where the array's first byte lies. Never null, also for an array of no bytes."""
    return array.ctypes.data


def fail(answer: ctypes.Structure) -> NoReturn:
    """Raises what the state of an answer means, if it isn't NCC_PASSES."""
    state, kind, at = answer.state, answer.kind, answer.at
    if state == c.FAULT:
        raise BY_NAME[c.FAULTS[kind]](at)
    if state == c.MEMORY:
        raise OutOfMemory("memory was refused")
    if state == c.REFUSED and kind in c.SELECTION_REFUSALS:
        raise Refused(c.SELECTION_REFUSALS[kind], at)
    if state == c.REFUSED:
        raise UNWRITABLE[c.WRITING_REFUSALS[kind]]
    raise Misused(f"the library answered with state {state}")


def judge(front: np.ndarray, length: int, limit: int) -> c.Judged:
    """The verdict on a file of this length that begins with these bytes (uint8). Raises nothing: see its `state`."""
    judged = c.Judged()
    c.library.ncc_judge(address(front), len(front), length, limit, ctypes.addressof(judged))
    return judged


def notes(front: np.ndarray, length: int, limit: int, room: int) -> tuple[tuple[str, int], ...]:
    """The name and the offset of each note of a file that passes. With room for fewer the notes are looked for twice."""
    rows, noted = np.zeros(room, c.NOTE), c.Noted()
    c.library.ncc_notes(address(front), len(front), length, limit, address(rows), room, ctypes.addressof(noted))
    if noted.state != c.PASSES:
        fail(noted)
    if noted.notes > room:
        return notes(front, length, limit, noted.notes)
    found = rows[: noted.notes]
    return tuple((c.NOTES[kind], at) for kind, at in zip(found["kind"].tolist(), found["at"].tolist()))


class Read(NamedTuple):
    """The numbers of a file, and the rows of its header; all 0 and none if the file doesn't pass."""

    numbers: c.Opened
    rows: Rows

    @property
    def state(self) -> int:
        """That of a verdict."""
        return self.numbers.state


class Room:
    """Room for so many rows of each kind, and the words by which the library is handed it."""

    def __init__(self, counts: Iterable[int]) -> None:
        dims, attrs, variables, ids = (np.empty(count, row) for count, row in zip(counts, ROWS))
        self.arrays: Rows = dims, attrs, variables, ids
        self.words = [word for array in self.arrays for word in (address(array), len(array))]

    def copied(self, counts: Iterable[int]) -> Rows:
        """Copies of the first rows."""
        dims, attrs, variables, ids = (array[:count].copy() for array, count in zip(self.arrays, counts))
        return dims, attrs, variables, ids

    def shortened(self, counts: Iterable[int]) -> Rows:
        """The first rows; many of them stay where they are. The room can't be used again."""
        dims, attrs, variables, ids = (_shortened(array, count) for array, count in zip(self.arrays, counts))
        return dims, attrs, variables, ids


def _shortened(array: np.ndarray, count: int) -> np.ndarray:
    if count * array.itemsize < FEW:
        return array[:count].copy()
    array.resize(count, refcheck=False)
    return array


_spare: list[Room] = []
"""The rooms for small fronts that no call uses: at most as many as there were calls at once."""


def _small_room() -> Room:
    try:
        return _spare.pop()
    except IndexError:
        return Room(SMALL // each for each in LEAST[1])


def _long_room(front: np.ndarray, limit: int) -> Room:
    most = min(len(front), limit, LONG)
    try:
        return Room(most // each for each in LEAST.get(front[3], LEAST[1]))
    except MemoryError:
        # (without room the library tells the counts)
        return Room(0 for _ in ROWS)


def _counted(front: np.ndarray, length: int, limit: int, counts: Iterable[int]) -> Rows:
    """The rows of a file that passes, of which the counts are known."""
    room, indexed = Room(counts), c.Indexed()
    c.library.ncc_index(address(front), len(front), length, limit, *room.words, ctypes.addressof(indexed))
    if indexed.state != c.PASSES:
        fail(indexed)
    return room.arrays


def read(front: np.ndarray, length: int, limit: int) -> Read:
    """What `judge` says but for the notes, and the rows, by one reading of the header (by two, if it has more than `LONG`
    bytes)."""
    is_small = len(front) <= SMALL
    room = _small_room() if is_small else _long_room(front, limit)
    numbers = c.Opened()
    c.library.ncc_read(address(front), len(front), length, limit, *room.words, ctypes.addressof(numbers))
    counts = numbers.dims, numbers.attrs, numbers.vars, numbers.ids
    if numbers.state == c.NO_ROOM:
        rows, numbers.state = _counted(front, length, limit, counts), c.PASSES
    else:
        rows = room.copied(counts) if is_small else room.shortened(counts)
    if is_small:
        _spare.append(room)
    return Read(numbers, rows)


class Selecting:
    """The arguments that ncc_steps and ncc_stretches share.

    `row` is a row of an index as an array of one, `shape` the length of each dimension; `start`, `count` and `stride`
    have a number for each dimension.
    """

    def __init__(
        self,
        row: np.ndarray,
        shape: tuple[int, ...],
        record_size: int,
        file_length: int,
        selection: tuple[list[int], list[int], list[int]],
    ) -> None:
        lists = [np.array(numbers, NUMBERS) for numbers in (shape, *selection)]
        words = [word for array in lists for word in (address(array), len(array))]
        self.held = (row, lists)
        self.rank = len(shape)
        self.words = [address(row), *words[:2], record_size, file_length, *words[2:]]

    def steps(self) -> tuple[c.Stepped, tuple[int, ...]]:
        """The place of the first element, and the bytes from one index to the next along each dimension."""
        steps, stepped = np.zeros(self.rank, NUMBERS), c.Stepped()
        c.library.ncc_steps(*self.words, address(steps), self.rank, ctypes.addressof(stepped))
        if stepped.state != c.PASSES:
            fail(stepped)
        return stepped, tuple(steps.tolist())

    def stretches(self, first: int, room: int) -> tuple[c.Stretched, np.ndarray]:
        """The runs of adjoining elements from the element `first` on, at most `room` of them."""
        runs, stretched = np.empty(room, c.RUN), c.Stretched()
        c.library.ncc_stretches(*self.words, first, address(runs), room, ctypes.addressof(stretched))
        if stretched.state != c.PASSES:
            fail(stretched)
        return stretched, runs[: stretched.written]


class Describing:
    """The arguments that ncc_plan and ncc_encode share: a text (uint8), and rows with offsets into it."""

    def __init__(
        self, text: np.ndarray, dims: np.ndarray, attrs: np.ndarray, variables: np.ndarray, ids: np.ndarray
    ) -> None:
        arrays = (text, dims, attrs, variables, ids)
        self.held, self.count = arrays, len(variables)
        self.words = [word for array in arrays for word in (address(array), len(array))]

    def plan(self, version: int, records: int) -> tuple[c.Planned, np.ndarray]:
        """The lengths of the header, of a record and of the file, and a place for each variable."""
        places, planned = np.empty(self.count, c.PLACE), c.Planned()
        c.library.ncc_plan(version, records, *self.words, address(places), self.count, ctypes.addressof(planned))
        if planned.state != c.PASSES:
            fail(planned)
        return planned, places

    def encode(self, version: int, records: int, length: int) -> bytes:
        """The header's bytes: so many, as `plan` says."""
        header, planned = np.empty(length, np.uint8), c.Planned()
        c.library.ncc_encode(version, records, *self.words, address(header), length, ctypes.addressof(planned))
        if planned.state != c.PASSES:
            fail(planned)
        return header[: planned.header_length].tobytes()


def record(front: np.ndarray, length: int, limit: int) -> tuple[c.Recorded, bytes]:
    """Where one more record of a file that passes goes, and the bytes of the number of records with it."""
    count, recorded = np.zeros(8, np.uint8), c.Recorded()
    c.library.ncc_record(address(front), len(front), length, limit, address(count), 8, ctypes.addressof(recorded))
    if recorded.state != c.PASSES:
        fail(recorded)
    return recorded, count[: recorded.count_width].tobytes()
