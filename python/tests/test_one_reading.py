"""A file is opened by one reading of its header, which tells what a verdict and an index tell."""

from __future__ import annotations

from pathlib import Path
from typing import Any

import numpy as np
import pytest
from classic import make
from conftest import ALL, EXAMPLES, SOUND, named

import ncc
from ncc import _calls, _library

OCEAN = EXAMPLES / "ocean.nc"
SAME = "state kind at version header_length records record_size dims global_attrs vars".split()


class Counted:
    """The library. It keeps the name of each call, and the length of the front that it was given."""

    def __init__(self, library: Any) -> None:
        self.library = library
        self.calls: list[tuple[str, int]] = []

    def __getattr__(self, name: str) -> Any:
        call = getattr(self.library, name)

        def counted(*words: int) -> Any:
            self.calls.append((name, words[1]))
            return call(*words)

        return counted


@pytest.fixture
def counted(monkeypatch: pytest.MonkeyPatch) -> Counted:
    it = Counted(_library.library)
    monkeypatch.setattr(_library, "library", it)
    return it


def least(version: int, kind: str) -> bytes:
    """A header of ten thousand items of one kind, each of which takes as few bytes as it can."""
    count, bare = 10_000, [(b"", [], [], 1)]
    dims = [(b"", 1)] * count if kind == "dims" else [(b"", 1)]
    attrs = [(b"", 1, b"")] * count if kind == "attrs" else []
    variables = {"vars": bare * count, "ids": [(b"", [0] * count, [], 1)]}.get(kind, [])
    made = make(version, dims, attrs, variables)
    return made.header + bytes(made.length - len(made.header))


def rows_of(index: Any) -> list[list[Any]]:
    return [rows.tolist() for rows in (index.dims, index.attrs, index.vars, index.ids)]


@pytest.mark.parametrize("path", ALL, ids=named)
def test_same_as_a_verdict_and_an_index(path: Path):
    data = np.frombuffer(path.read_bytes(), np.uint8)
    for front in (data, data[: len(data) // 2].copy(), data[:9].copy()):
        numbers, rows = _calls.read(front, len(data), ncc.LIMIT)
        judged = _calls.judge(front, len(data), ncc.LIMIT)
        assert [getattr(numbers, name) for name in SAME] == [getattr(judged, name) for name in SAME]
        assert [len(own) for own in rows] == [numbers.dims, numbers.attrs, numbers.vars, numbers.ids]
        if numbers.state == _library.PASSES:
            again = _calls._counted(front, len(data), ncc.LIMIT, [len(own) for own in rows])
            assert [own.tolist() for own in rows] == [own.tolist() for own in again]
        else:
            assert [len(own) for own in rows] == [0, 0, 0, 0]


def test_front_longer_than_the_file():
    read = _calls.read(np.frombuffer(OCEAN.read_bytes(), np.uint8), 9, ncc.LIMIT)
    assert read.state == _library.MISUSED and [len(own) for own in read.rows] == [0, 0, 0, 0]


def test_small_file_is_read_once(counted: Counted):
    with ncc.open(OCEAN), ncc.open(OCEAN.read_bytes()):
        assert counted.calls == [("ncc_read", OCEAN.stat().st_size)] * 2


@pytest.mark.parametrize("kind", ["dims", "attrs", "vars", "ids"])
@pytest.mark.parametrize("version", [1, 2, 5])
def test_long_header_is_read_once(version: int, kind: str, counted: Counted, tmp_path: Path):
    data, path = least(version, kind), tmp_path / "least.nc"
    path.write_bytes(data)
    sizes = [65_536, len(data)] if len(data) > 65_536 else [len(data)]
    for where in (path, data):
        counted.calls.clear()
        with ncc.open(where) as file:
            index = file._file.index
            assert counted.calls == [("ncc_read", size) for size in sizes]
            assert len(getattr(index, kind)) == 10_000


@pytest.mark.parametrize("path", SOUND, ids=named)
def test_rows_without_room_are_counted(path: Path, counted: Counted, monkeypatch: pytest.MonkeyPatch):
    with ncc.open(path) as data:
        wanted = rows_of(data._file.index)
    for small in (_calls.SMALL, 8):
        # (no room is spare but one for nothing, and of a longer front none is made)
        monkeypatch.setattr(_calls, "_spare", [_calls.Room([0, 0, 0, 0])])
        monkeypatch.setattr(_calls, "SMALL", small)
        monkeypatch.setattr(_calls, "LONG", 0)
        counted.calls.clear()
        with ncc.open(path) as data:
            assert rows_of(data._file.index) == wanted
        names = [name for name, _ in counted.calls]
        assert names == (["ncc_read", "ncc_index"] if any(wanted) else ["ncc_read"])


@pytest.mark.parametrize("count", [0, 63, 64, 65, 200])
def test_notes_are_looked_for_when_asked_for(count: int, counted: Counted):
    # (a name with a space at its end is against the rule for names)
    data = make(1, [(b"d%d " % k, 1) for k in range(count)], [], [])
    with ncc.open(data.header + bytes(data.length - len(data.header))) as file:
        assert [name for name, _ in counted.calls] == ["ncc_read"]
        assert len(file.notes) == count and {name for name, _ in file.notes} <= {"NameRule"}
        calls = ["ncc_read", "ncc_notes", "ncc_notes"] if count > 64 else ["ncc_read", "ncc_notes"]
        assert [name for name, _ in counted.calls] == calls


def test_rows_stay_while_other_files_are_opened():
    with ncc.open(OCEAN) as data:
        wanted = rows_of(data._file.index)
        for path in SOUND:
            ncc.open(path).close()
        assert rows_of(data._file.index) == wanted


@pytest.mark.parametrize("kind", ["dims", "attrs", "vars"])
def test_long_room_refused(kind: str, counted: Counted, monkeypatch: pytest.MonkeyPatch):
    data = np.frombuffer(least(2, kind), np.uint8)
    wanted = [rows.tolist() for rows in _calls.read(data, len(data), _library.LIMIT).rows]
    make_room = _calls.Room.__init__

    def refuse(room: Any, counts: Any) -> None:
        counts = list(counts)
        if sum(counts) > 20_000:
            raise MemoryError
        make_room(room, counts)

    monkeypatch.setattr(_calls.Room, "__init__", refuse)
    counted.calls.clear()
    found = _calls.read(data, len(data), _library.LIMIT)
    assert [rows.tolist() for rows in found.rows] == wanted
    assert len(data) > _calls.SMALL
    assert [name for name, _ in counted.calls] == ["ncc_read", "ncc_index"]
