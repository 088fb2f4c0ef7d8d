"""Verdicts of the examples against the texts beside them, and of what can't be read."""

import io
import os
import pickle
from pathlib import Path

import numpy as np
import pytest
from classic import Walk
from conftest import ALL, EXAMPLES, FAULTY, SOUND, expected, named

import ncc
from ncc import _calls, _library, errors

SMALL = [path for path in ALL if path.stat().st_size <= 3000]
UNSOUND_WALK = {"noted": "its number of records has the top bit set, and its values aren't the point"}


def test_there_are_examples():
    assert len(SOUND) >= 12 and len(FAULTY) >= 30


@pytest.mark.parametrize("path", ALL, ids=named)
def test_lines_are_those_of_the_program(path: Path):
    assert str(ncc.check(path)) == expected(path)


@pytest.mark.parametrize("path", ALL, ids=named)
def test_same_wherever_the_bytes_are(path: Path):
    data = path.read_bytes()
    array = np.frombuffer(data, np.uint8)
    with open(path, "rb") as file:
        places = (str(path), data, bytearray(data), memoryview(data), array, file, io.BytesIO(data))
        others = [ncc.check(it) for it in places]
    assert [str(it) for it in others] == [expected(path)] * len(others)


@pytest.mark.parametrize("path", FAULTY, ids=named)
def test_fault_is_raised_by_its_name(path: Path):
    _, name, _, offset = expected(path).split()
    with pytest.raises(getattr(errors, name)) as raised:
        ncc.open(path)
    assert (raised.value.kind, raised.value.offset, raised.value.path) == (name, int(offset), str(path))
    assert str(raised.value) == f"{path}: {expected(path)}"
    again = pickle.loads(pickle.dumps(raised.value))
    assert (type(again), str(again), again.offset) == (type(raised.value), str(raised.value), int(offset))
    with pytest.raises(getattr(errors, name)) as raised:
        ncc.open(path.read_bytes())
    assert (str(raised.value), raised.value.path) == (expected(path), None)
    verdict = ncc.check(path)
    assert (verdict.ok, verdict.fault, verdict.offset, verdict.notes) == (False, name, int(offset), ())
    assert not verdict


@pytest.mark.parametrize("path", SOUND, ids=named)
def test_numbers_of_a_file_that_passes(path: Path):
    lines = expected(path).split("\n")
    word, version, _, records, _, variables = lines[0].split()
    notes = tuple((line.split()[1], int(line.split()[3])) for line in lines[1:])
    verdict = ncc.check(path)
    assert verdict and verdict == ncc.Verdict(True, int(version[4:]), int(records), int(variables), notes, None, None)
    with ncc.open(path) as data:
        assert (data.version, data.records, data.notes) == (int(version[4:]), int(records), notes)
        assert len(data.variables.numbers) == int(variables)


@pytest.mark.parametrize("path", SMALL, ids=named)
def test_fronts_of_every_length(path: Path):
    data, last = np.frombuffer(path.read_bytes(), np.uint8), None
    whole = _calls.judge(data, len(data), ncc.LIMIT)
    for length in range(len(data) + 1):
        judged = _calls.judge(data[:length].copy(), len(data), ncc.LIMIT)
        if judged.state == _library.MORE:
            assert last in (None, _library.MORE) and length < len(data)
        else:
            assert bytes(judged) == bytes(whole)
        last = judged.state
    assert last != _library.MORE


@pytest.mark.parametrize("path", [path for path in SOUND if path.stem not in UNSOUND_WALK], ids=named)
def test_fronts_end_in_the_field_that_is_said(path: Path):
    data = path.read_bytes()
    walk, array = Walk(data), np.frombuffer(data, np.uint8)
    for length in range(len(data)):
        judged = _calls.judge(array[:length].copy(), len(data), ncc.LIMIT)
        field = walk.field_at(length)
        assert judged.state == (_library.PASSES if field is None else _library.MORE)
        assert field is None or judged.at == field


@pytest.mark.parametrize("path", [path for path in SOUND if path.stem not in UNSOUND_WALK], ids=named)
def test_files_that_are_cut_at_every_length(path: Path):
    data = path.read_bytes()
    walk = Walk(data)
    for length in range(len(data)):
        field, cut = walk.field_at(length), walk.cut(length)
        wanted = f"fault EndsEarly at {field}" if field is not None else f"fault Truncated at {cut}"
        found = str(ncc.check(data[:length]))
        assert found == wanted if field is not None or cut is not None else found.startswith("ok")


def test_limit():
    data = (EXAMPLES / "ocean.nc").read_bytes()
    header = Walk(data).at
    assert ncc.check(data, max_header=header).ok
    assert ncc.check(data, max_header=header - 1).fault == "HeaderTooLong"
    assert ncc.check(data, max_header=0).offset == 0
    assert ncc.check(io.BytesIO(data), max_header=0).fault == "HeaderTooLong"
    with pytest.raises(errors.HeaderTooLong):
        ncc.open(data, max_header=10)


def test_what_cannot_be_read(tmp_path: Path):
    with pytest.raises(FileNotFoundError):
        ncc.check(tmp_path / "not_there.nc")
    with pytest.raises(IsADirectoryError):
        ncc.check(tmp_path)
    os.mkfifo(tmp_path / "pipe.nc")
    with pytest.raises(OSError):
        ncc.check(tmp_path / "pipe.nc")
    with pytest.raises(OSError):
        ncc.check("/dev/null")
    with pytest.raises(ValueError):
        ncc.check("a\0b")
    (tmp_path / "empty.nc").touch()
    assert str(ncc.check(tmp_path / "empty.nc")) == "fault EndsEarly at 0"


def test_names_are_those_of_the_library():
    for kind, name in {**_library.FAULTS, **_library.NOTES}.items():
        room = np.zeros(32, np.uint8)
        length = _library.library.ncc_fault_text(kind, _calls.address(room), 32)
        assert room[:length].tobytes().decode() == name
    assert set(errors.BY_NAME) == set(_library.FAULTS.values())
    assert all(fault.words and fault.__doc__ for fault in errors.BY_NAME.values())


@pytest.mark.parametrize("path", SOUND, ids=named)
def test_rows_are_the_same_if_they_are_counted_first(path: Path, monkeypatch: pytest.MonkeyPatch):
    first = ncc.open(path)._file.index
    monkeypatch.setattr(_calls, "LONG", 0)
    second = ncc.open(path)._file.index
    for name in ("dims", "attrs", "vars", "ids"):
        assert getattr(first, name).tobytes() == getattr(second, name).tobytes()
