"""Files made by hand, and the fields of a header: written from the format's grammar, apart from the package."""

from __future__ import annotations

from dataclasses import dataclass, field
from math import prod

SIZES = {1: 1, 2: 1, 3: 2, 4: 4, 5: 4, 6: 8, 7: 1, 8: 2, 9: 4, 10: 8, 11: 8}
LETTERS = {1: "b", 2: "c", 3: "h", 4: "i", 5: "f", 6: "d", 7: "B", 8: "H", 9: "I", 10: "q", 11: "Q"}


def up(size: int) -> int:
    return (size + 3) // 4 * 4


def padded(raw: bytes) -> bytes:
    return raw + bytes(up(len(raw)) - len(raw))


@dataclass
class Made:
    """A header, where each variable begins, the bytes of a record, and the length of the whole file."""

    header: bytes
    begins: list[int]
    record_size: int
    length: int


class Writer:
    """Writes a header of one version."""

    def __init__(self, version: int) -> None:
        self.version, self.wide, self.offset = version, 8 if version == 5 else 4, 4 if version == 1 else 8
        self.kept: dict[int, bytes] = {}

    def number(self, value: int) -> bytes:
        return value.to_bytes(self.wide, "big")

    def name(self, name: bytes) -> bytes:
        return self.number(len(name)) + padded(name)

    def listed(self, tag: int, items: list[bytes]) -> bytes:
        if not items:
            return bytes(4) + self.number(0)
        return tag.to_bytes(4, "big") + self.number(len(items)) + b"".join(items)

    def attrs(self, attrs: list[tuple[bytes, int, bytes]]) -> bytes:
        """Attributes of (name, type, values as bytes). A list that many variables share is made once."""
        if id(attrs) not in self.kept:
            self.kept[id(attrs)] = self.listed(12, [self.attr(*it) for it in attrs])
        return self.kept[id(attrs)]

    def attr(self, name: bytes, code: int, raw: bytes) -> bytes:
        return self.name(name) + code.to_bytes(4, "big") + self.number(len(raw) // SIZES[code]) + padded(raw)

    def header(self, dims, attrs, variables, records, begins, sizes) -> bytes:
        """The whole header, for these begins."""
        start = b"CDF" + bytes([self.version]) + self.number(records)
        lengths = self.listed(10, [self.name(name) + self.number(length) for name, length in dims])
        rows = []
        for (name, ids, own, code), begin, size in zip(variables, begins, sizes):
            shape = self.number(len(ids)) + b"".join(self.number(k) for k in ids)
            least = min(up(size), 2**32 - 1) if self.wide == 4 else up(size)
            place = begin.to_bytes(self.offset, "big")
            kind = code.to_bytes(4, "big")
            rows.append(self.name(name) + shape + self.attrs(own) + kind + self.number(least) + place)
        return start + lengths + self.attrs(attrs) + self.listed(11, rows)


def make(version: int, dims, attrs, variables, records: int = 0) -> Made:
    """A packed file: dims of (name, length), variables of (name, numbers of dims, attrs, type)."""
    writer = Writer(version)
    is_record = [bool(ids) and dims[ids[0]][1] == 0 for _, ids, _, _ in variables]
    sizes = [prod(dims[k][1] for k in ids if dims[k][1]) * SIZES[code] for _, ids, _, code in variables]
    own = [size for size, it in zip(sizes, is_record) if it]
    record_size = own[0] if len(own) == 1 else sum(map(up, own))
    at = len(writer.header(dims, attrs, variables, records, [0] * len(variables), sizes))
    begins = [0] * len(variables)
    for wanted in (False, True):
        for k, it in enumerate(is_record):
            if it == wanted:
                begins[k] = at
                at += up(sizes[k])
    first = min((begin for begin, it in zip(begins, is_record) if it), default=at)
    length = first + record_size * records if own else at
    return Made(writer.header(dims, attrs, variables, records, begins, sizes), begins, record_size, length)


@dataclass
class Walk:
    """The fields of a sound header as (offset, size), and of each variable (field of its begin, end of its bytes)."""

    data: bytes
    at: int = 4
    fields: list[tuple[int, int]] = field(default_factory=lambda: [(0, 3), (3, 1)])
    ends: list[tuple[int, int]] = field(default_factory=list)

    def __post_init__(self) -> None:
        self.version = self.data[3]
        self.wide = 8 if self.version == 5 else 4
        records = self.number()
        dims = [(self.name(), self.number())[1] for _ in self.items()]
        self.attrs()
        found = [self.variable(dims) for _ in self.items()]
        own = [slab for _, _, slab, it in found if it]
        step = own[0] if len(own) == 1 else sum(map(up, own))
        for place, begin, slab, it in found:
            if not it or records:
                self.ends.append((place, begin + slab + (step * (records - 1) if it else 0)))

    def take(self, size: int) -> bytes:
        if size:
            self.fields.append((self.at, size))
        self.at += size
        return self.data[self.at - size : self.at]

    def number(self, width: int = 0) -> int:
        return int.from_bytes(self.take(width or self.wide), "big")

    def padded(self, size: int) -> None:
        self.take(size)
        self.take(up(size) - size)

    def name(self) -> None:
        self.padded(self.number())

    def items(self) -> range:
        self.number(4)
        return range(self.number())

    def attrs(self) -> None:
        for _ in self.items():
            self.name()
            size = SIZES[self.number(4)]
            self.padded(self.number() * size)

    def variable(self, dims: list[int]) -> tuple[int, int, int, bool]:
        self.name()
        shape = [dims[self.number()] for _ in range(self.number())]
        self.attrs()
        size = SIZES[self.number(4)]
        self.number()
        place = self.at
        begin = self.number(4 if self.version == 1 else 8)
        return place, begin, prod(k for k in shape if k) * size, bool(shape) and shape[0] == 0

    def field_at(self, length: int) -> int | None:
        """The first field that doesn't end within this length."""
        return next((at for at, size in self.fields if at + size > length), None)

    def cut(self, length: int) -> int | None:
        """The field of the begin of the first variable that doesn't end within this length."""
        return next((place for place, end in self.ends if end > length), None)
