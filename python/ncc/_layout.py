"""Where a header says that its variables lie: only for pictures. This is plain Python; nothing of it is proved.

It is for files whose header is sound and whose layout has a fault: the library gives no rows of those.
"""

from __future__ import annotations

from dataclasses import dataclass
from math import prod

from . import _library
from ._index import text
from ._sources import judged_front, source_of

LAYOUT_FAULTS = {"TooLarge", "InHeader", "Overlap", "RecordWindow", "FixedAfterRecords", "Truncated"}


@dataclass
class Bar:
    """A variable: its bytes from `begin` on, in the file or, of a record variable, in all records."""

    name: str
    begin: int
    end: int
    is_record: bool
    field: int
    """Where the header says the begin."""


@dataclass
class Layout:
    """What a header says of the places in a file of this length."""

    length: int
    header: int
    bars: list[Bar]


class _Cursor:
    def __init__(self, data: memoryview) -> None:
        self.data, self.at, self.version = data, 4, data[3]
        self.width = 8 if self.version == 5 else 4

    def number(self, width: int = 0) -> int:
        width = width or self.width
        if self.at + width > len(self.data):
            raise EOFError
        self.at += width
        return int.from_bytes(self.data[self.at - width : self.at], "big")

    def skip(self, size: int) -> int:
        before = self.at
        self.at += (size + 3) // 4 * 4
        return before

    def items(self) -> range:
        self.number(4)
        return range(self.number())

    def name(self) -> str:
        size = self.number()
        at = self.skip(size)
        return text(bytes(self.data[at : at + size]))

    def attrs(self) -> None:
        for _ in self.items():
            self.name()
            size = _library.TYPES[self.number(4)].itemsize
            self.skip(self.number() * size)


def _variable(cursor: _Cursor, dims: list[int]) -> tuple[Bar, int]:
    name = cursor.name()
    shape = [dims[cursor.number()] for _ in range(cursor.number())]
    cursor.attrs()
    size = _library.TYPES[cursor.number(4)].itemsize
    cursor.number()
    field = cursor.at
    begin = cursor.number(4 if cursor.version == 1 else 8)
    is_record = bool(shape) and shape[0] == 0
    slab = prod(shape[1:] if is_record else shape) * size
    return Bar(name, begin, begin + slab, is_record, field), slab


def _lengthen(bars: list[Bar], slabs: list[int], records: int) -> None:
    """Lets the bars of record variables go through all records."""
    own = [slab for bar, slab in zip(bars, slabs) if bar.is_record]
    step = own[0] if len(own) == 1 else sum((slab + 3) // 4 * 4 for slab in own)
    for bar in bars:
        if bar.is_record:
            bar.end += step * max(records - 1, 0)


def _read(data: memoryview, length: int) -> Layout:
    cursor = _Cursor(data)
    records = cursor.number()
    if records == (1 << 8 * cursor.width) - 1:
        records = 1
    dims = [(cursor.name(), cursor.number())[1] for _ in cursor.items()]
    cursor.attrs()
    found = [_variable(cursor, dims) for _ in cursor.items()]
    bars = [bar for bar, _ in found]
    _lengthen(bars, [slab for _, slab in found], records)
    return Layout(length, cursor.at, bars)


def layout_of(path: str, limit: int) -> Layout | None:
    """What the header of a file with a fault of its layout says; None for another file."""
    source = source_of(path)
    try:
        front, judged = judged_front(source, limit)
        if _library.FAULTS.get(judged.kind) not in LAYOUT_FAULTS:
            return None
        return _read(memoryview(front), source.length)
    except (OSError, EOFError, LookupError):
        return None
    finally:
        source.close()
