"""The C library: its numbers, its structures and its calls, as they stand in ncc.h."""

from __future__ import annotations

import ctypes
import os
from pathlib import Path

import numpy as np

LIMIT = 1 << 26
"""The greatest length of a header that is read, if no other is given (NCC_LIMIT)."""

PASSES, FAULT, MORE, MEMORY, MISUSED, REFUSED, NO_ROOM = range(7)

FAULTS = {
    1: "BadMagic", 2: "BadVersion", 3: "NegativeCount", 4: "BadTag", 5: "BadType", 6: "TwoRecordDims", 7: "BadDimId",
    8: "RecordDimNotFirst", 9: "NegativeOffset", 10: "HeaderTooLong", 11: "EndsEarly",
    21: "TooLarge", 22: "InHeader", 23: "Overlap", 24: "RecordWindow", 25: "FixedAfterRecords", 26: "Truncated",
}  # fmt: skip
NOTES = {
    41: "VsizeField", 42: "HeaderPadding", 43: "TaggedEmpty", 44: "NameRule", 45: "DuplicateName",
    46: "UnalignedBegin", 47: "Order", 48: "LargeCount",
}  # fmt: skip
SELECTION_REFUSALS = {62: "RankMismatch", 63: "ZeroStride", 64: "Outside"}
WRITING_REFUSALS = {
    71: "NoRecordVariable", 72: "NotPacked", 73: "Streaming", 74: "CountFull",
    6: "TwoRecordDims", 7: "BadDimId", 8: "RecordDimNotFirst", 45: "DuplicateName", 81: "BadName",
    82: "TypeForVersion", 83: "CountForVersion", 84: "OffsetForVersion", 85: "SizeForVersion",
}  # fmt: skip

TYPES = {
    1: np.dtype("i1"), 2: np.dtype("S1"), 3: np.dtype(">i2"), 4: np.dtype(">i4"), 5: np.dtype(">f4"),
    6: np.dtype(">f8"), 7: np.dtype("u1"), 8: np.dtype(">u2"), 9: np.dtype(">u4"), 10: np.dtype(">i8"),
    11: np.dtype(">u8"),
}  # fmt: skip
"""The dtype of each type code, with the high byte first as in the file."""


def _row(names: str) -> np.dtype:
    return np.dtype([(name, np.uint64) for name in names.split()])


DIM = _row("name_at name_length length")
ATTR = _row("name_at name_length xtype count values_at")
VAR = _row("name_at name_length xtype begin slab rank attrs is_record")
RUN = _row("place count")
PLACE = _row("begin slab")
NOTE = np.dtype([("kind", np.uint32), ("reserved", np.uint32), ("at", np.uint64)])


def _answer(names: str) -> list[tuple[str, type]]:
    head: list[tuple[str, type]] = [("state", ctypes.c_uint32), ("kind", ctypes.c_uint32), ("at", ctypes.c_uint64)]
    return head + [(name, ctypes.c_uint64) for name in names.split()]


class Judged(ctypes.Structure):
    """ncc_verdict."""

    _fields_ = _answer("version header_length records record_size dims global_attrs vars notes")


class Noted(ctypes.Structure):
    """ncc_noted."""

    _fields_ = _answer("notes")


class Indexed(ctypes.Structure):
    """ncc_indexed."""

    _fields_ = _answer("dims attrs vars ids")


class Opened(ctypes.Structure):
    """ncc_opened."""

    _fields_ = _answer("dims attrs vars ids version header_length records record_size global_attrs")


class Stepped(ctypes.Structure):
    """ncc_stepped."""

    _fields_ = _answer("base size total")


class Stretched(ctypes.Structure):
    """ncc_stretched."""

    _fields_ = _answer("size total next written")


class Recorded(ctypes.Structure):
    """ncc_recorded."""

    _fields_ = _answer("count place length count_at count_width")


class Planned(ctypes.Structure):
    """ncc_planned."""

    _fields_ = _answer("header_length record_size file_length vars")


_pointer, _size, _u64 = ctypes.c_void_p, ctypes.c_size_t, ctypes.c_uint64
_front = [_pointer, _size, _u64, _u64]
_rows = [_pointer, _size]
_selection = [_pointer, *_rows, _u64, _u64, *_rows * 3]
_schema = [_u64, _u64, *_rows * 5]
_SIGNATURES = {
    "ncc_judge": [*_front, _pointer],
    "ncc_notes": [*_front, *_rows, _pointer],
    "ncc_index": [*_front, *_rows * 4, _pointer],
    "ncc_read": [*_front, *_rows * 4, _pointer],
    "ncc_steps": [*_selection, *_rows, _pointer],
    "ncc_stretches": [*_selection, _u64, *_rows, _pointer],
    "ncc_record": [*_front, *_rows, _pointer],
    "ncc_plan": [*_schema, *_rows, _pointer],
    "ncc_encode": [*_schema, *_rows, _pointer],
}


def _find() -> str:
    """The library's path: beside the package, else where NCC_LIBRARY says."""
    beside = Path(__file__).with_name("libncc.so")
    if beside.exists():
        return str(beside)
    named = os.environ.get("NCC_LIBRARY")
    if named:
        return named
    raise ImportError(f"libncc.so isn't at {beside}, and NCC_LIBRARY isn't set")


def _load() -> ctypes.CDLL:
    library = ctypes.CDLL(_find())
    for name, arguments in _SIGNATURES.items():
        call = getattr(library, name)
        call.argtypes, call.restype = arguments, None
    library.ncc_fault_text.argtypes = [ctypes.c_uint32, *_rows]
    library.ncc_fault_text.restype = _size
    return library


library = _load()


def commit() -> str:
    """The commit of which the library in this package was built; "unknown" if the package doesn't say."""
    built = Path(__file__).with_name("built.txt")
    return built.read_text(encoding="utf-8").strip() if built.exists() else "unknown"
