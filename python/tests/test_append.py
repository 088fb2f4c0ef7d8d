"""Records that are added: their bytes, the order of writes and syncs, and what a stop leaves."""

from __future__ import annotations

import fcntl
import io
import os
import signal
import subprocess
import sys
from pathlib import Path
from typing import Any

import numpy as np
import pytest
from classic import make
from conftest import EXAMPLES, FAULTY, by_program, expected, named
from test_values import by_netcdf4, same

import ncc
from ncc import appending, errors

VERSIONS = (1, 2, 5)
BYTES = np.array([1, 2, 3, 4, 5], "i1")
SHORTS = np.arange(15, dtype="i2").reshape(5, 3)
TEXTS = ["ab", "cdefg", "x", "yz", "ä"]
DOUBLES = np.array([0.5, 1.5, 2.5, 3.5, 4.5])


def written(version: int, records: int) -> bytes:
    """A file with the first of five records."""
    variables = {
        "byte": ("t", BYTES[:records], {"_FillValue": np.int8(9)}),
        "fixed": ("x", np.array([1, 2, 3], "i1")),
        "short": (("t", "x"), SHORTS[:records]),
        "text": (("t", "n"), np.array(TEXTS[:records], "U5")),
        "double": ("t", DOUBLES[:records]),
    }
    out = io.BytesIO()
    ncc.write(out, {"t": None, "x": 3, "n": 5}, {"title": "a try"}, variables, version=version)
    return out.getvalue()


def values(low: int, high: int) -> dict[str, Any]:
    """The values of these records."""
    every = {"byte": BYTES.tolist(), "short": SHORTS, "text": TEXTS, "double": DOUBLES.astype("f4")}
    return {name: it[low:high] for name, it in every.items()}


@pytest.fixture
def path(tmp_path: Path) -> Path:
    """A file of two records."""
    it = tmp_path / "grows.nc"
    it.write_bytes(written(1, 2))
    return it


@pytest.mark.parametrize("version", VERSIONS)
@pytest.mark.parametrize("records", [0, 1, 2, 4])
def test_same_bytes_as_if_written_at_once(tmp_path: Path, version: int, records: int):
    path = tmp_path / "grows.nc"
    path.write_bytes(written(version, records))
    assert ncc.append(path, values(records, 5)) == 5
    assert path.read_bytes() == written(version, 5)
    path.write_bytes(written(version, records))
    for record in range(records, 5):
        assert ncc.append(path, values(record, record + 1)) == record + 1
        assert path.read_bytes() == written(version, record + 1)


@pytest.mark.parametrize("version", VERSIONS)
@pytest.mark.parametrize("code", ["i1", "S1", "i2", "f4"])
def test_record_variable_that_is_alone(tmp_path: Path, version: int, code: str):
    array = np.frombuffer(bytes(range(60)), np.dtype(code).newbyteorder(">")).reshape(-1, 3)
    path, dims = tmp_path / "grows.nc", {"t": None, "x": 3}
    ncc.write(path, dims, {}, {"v": (("t", "x"), array[:2])}, version=version)
    assert ncc.append(path, {"v": array[2:]}) == len(array)
    out = io.BytesIO()
    ncc.write(out, dims, {}, {"v": (("t", "x"), array)}, version=version)
    assert path.read_bytes() == out.getvalue()


@pytest.mark.parametrize("form", ["NETCDF3_CLASSIC", "NETCDF3_64BIT_OFFSET", "NETCDF3_64BIT_DATA"])
def test_as_netcdf4_appends(tmp_path: Path, form: str):
    peer = pytest.importorskip("netCDF4", reason="netCDF4 isn't installed")
    own, other = tmp_path / "own.nc", tmp_path / "other.nc"
    with peer.Dataset(own, "w", format=form) as file:
        file.createDimension("t", None)
        file.createDimension("x", 3)
        for name, code in (("short", "i2"), ("byte", "i1"), ("double", "f8")):
            file.createVariable(name, code, ("t", "x") if name == "short" else ("t",))
        for name, array in (("short", SHORTS), ("byte", BYTES), ("double", DOUBLES)):
            file[name][:2] = array[:2]
    other.write_bytes(own.read_bytes())
    with peer.Dataset(other, "a") as file:
        for name, array in (("short", SHORTS), ("byte", BYTES), ("double", DOUBLES)):
            file[name][2:5] = array[2:5]
    assert ncc.append(own, {"short": SHORTS[2:], "byte": BYTES[2:], "double": DOUBLES[2:]}) == 5
    found, wanted = by_netcdf4(own)[0], by_netcdf4(other)[0]
    for name in wanted:
        same(found[name], wanted[name])
    assert own.read_bytes() == other.read_bytes()


@pytest.mark.parametrize("name", ["kinds_1", "kinds_2", "kinds_5", "lone_1", "lone_5", "ocean"])
def test_as_the_program_extends(tmp_path: Path, name: str):
    """Fill values that are given are those that `ncc extend` writes."""
    own, other = tmp_path / "own.nc", tmp_path / "other.nc"
    for path in (own, other):
        path.write_bytes((EXAMPLES / f"{name}.nc").read_bytes())
    line = by_program("extend", other, "2")
    with ncc.open(other) as data:
        given = {it.name: it[-2:] for it in data.variables.values() if it.is_record}
        assert line == f"records {data.records}"
    assert ncc.append(own, given) == int(line.removeprefix("records "))
    assert own.read_bytes() == other.read_bytes()


def test_values_become_those_of_the_file(path: Path):
    more = {"byte": np.array([7], "u8"), "short": np.array([[1, 2, 3]], ">i8"), "text": [list("abcde")], "double": [1]}
    assert ncc.append(path, more) == 3
    with ncc.open(path) as data:
        assert data["byte"][2] == 7 and data["short"][2].tolist() == [1, 2, 3]
        assert data["text"][2].tobytes() == b"abcde" and data["double"][2] == 1.0


@pytest.mark.parametrize(
    ("name", "value", "error"),
    [
        ("byte", [128], ValueError), ("byte", [-129], ValueError), ("byte", [1.0], TypeError),
        ("byte", ["a"], TypeError), ("byte", 1, ValueError), ("byte", [[1]], ValueError), ("byte", [1, 2], ValueError), ("byte", [True], TypeError),
        ("byte", [None], TypeError), ("short", [[1, 2]], ValueError), ("short", [1, 2, 3], ValueError),
        ("short", np.uint64([[1, 2, 1 << 63]]), ValueError), ("text", ["abcdef"], ValueError), ("text", [1], TypeError),
        ("text", "abcde", ValueError), ("double", [1j], TypeError), ("double", np.array(["x"]), TypeError),
        ("double", np.ma.array([1.0], mask=[1]), TypeError),
    ],
)  # fmt: skip
def test_values_that_do_not_fit(path: Path, name: str, value: Any, error: type[Exception]):
    before = path.read_bytes()
    with pytest.raises(error):
        ncc.append(path, {**values(2, 3), name: value})
    assert path.read_bytes() == before


def test_all_record_variables_have_to_be_there(path: Path):
    before = path.read_bytes()
    for more in ({}, {"byte": [1]}, {**values(2, 3), "fixed": [[1, 2, 3]]}, {**values(2, 3), "none": [1]}):
        with pytest.raises(ValueError, match="record variables"):
            ncc.append(path, more)
    assert path.read_bytes() == before


def test_other_numbers_of_records(path: Path):
    with pytest.raises(ValueError, match="'byte' has 2, and 'short' has 1"):
        ncc.append(path, {**values(2, 3), "byte": [1, 2]})


def test_no_record_is_refused(path: Path):
    before = path.read_bytes()
    nothing = {"byte": [], "short": np.zeros((0, 3), "i2"), "text": np.zeros((0, 5), "S1"), "double": []}
    with pytest.raises(ValueError, match="no record"):
        ncc.append(path, nothing)
    assert path.read_bytes() == before


@pytest.mark.parametrize(
    ("name", "value", "words"),
    [
        ("byte", [1, 128], "'byte': 128 at index 1 isn't kept by int8"),
        ("short", np.uint64([[1, 2, 1 << 63]]), r"'short': 9223372036854775808 at index \(0, 2\) isn't kept by int16"),
        ("short", [1, 2, 3], r"'short': .* shape \(3,\), .* \(records, 3\): the axis of records is missing"),
        ("short", [[1, 2]], r"'short': .* shape \(1, 2\), and it has to be \(records, 3\)$"),
        ("byte", 1, r"'byte': .* \(records\): the axis of records is missing"),
        ("text", "abcde", r"'text': .* \(records, 5\): the axis of records is missing"),
        ("text", ["ab", "abcdef"], "'text': the text at index 1 has 6 bytes, and its dimension has 5"),
        ("byte", [1, None], "'byte': .* NoneType at index 1"), ("byte", [1.0], "'byte': values of dtype float64"),
        ("double", np.ma.array([1.0, 2.0], mask=[0, 1]), "'double': a value is masked at index 1"),
        ("double", [1, (1 << 53) + 1], "'double': 9007199254740993 at index 1 isn't kept by float64"),
    ],
)  # fmt: skip
def test_errors_name_the_place(path: Path, name: str, value: Any, words: str):
    before = path.read_bytes()
    with pytest.raises((ValueError, TypeError), match=words):
        ncc.append(path, {**values(2, 3), name: value})
    assert path.read_bytes() == before


@pytest.mark.parametrize("code", ["f4", "f8"])
def test_integers_are_kept_by_floats(tmp_path: Path, code: str):
    path, size = tmp_path / "floats.nc", 1 << (24 if code == "f4" else 53)
    near = [size - 1, size, size + 1, size + 2, 2 * size + 2, 1 << 62, (1 << 62) + 1, (1 << 63) - 1]
    numbers = [np.int64(sign * it) for it in near for sign in (1, -1)]
    numbers += [np.int64(-1 << 63), np.uint64(1 << 63), np.uint64((1 << 64) - 1), np.int32(0), np.int8(-128)]
    ncc.write(path, {"t": None}, {}, {"v": ("t", np.zeros(0, code))})
    for number in numbers:
        before = path.read_bytes()
        if int(np.dtype(code).type(number)) == int(number):
            ncc.append(path, {"v": [number]})
            with ncc.open(path) as data:
                assert int(data["v"][-1]) == int(number)
        else:
            with pytest.raises(ValueError, match=f"'v': {number} at index 1 isn't kept by float"):
                ncc.append(path, {"v": np.array([0, number], number.dtype)})
            assert path.read_bytes() == before


def test_finite_floats_stay_finite(tmp_path: Path):
    path = tmp_path / "floats.nc"
    ncc.write(path, {"t": None}, {}, {"v": ("t", np.zeros(0, "f4"))})
    with pytest.raises(ValueError, match=r"'v': -1e\+300 at index 2 isn't kept by float32"):
        ncc.append(path, {"v": [np.inf, 1.0, -1e300, 1e300]})
    assert ncc.append(path, {"v": [np.inf, -np.inf, np.nan, 0.1, 1e-300]}) == 5
    with ncc.open(path) as data:
        assert data["v"].native().tolist() == pytest.approx([np.inf, -np.inf, np.nan, 0.1, 0.0], nan_ok=True)


def test_bytes_after_the_last_record_are_overwritten(path: Path):
    path.write_bytes(path.read_bytes() + b"junk" * 100)
    ncc.append(path, values(2, 5))
    assert path.read_bytes()[: len(written(1, 5))] == written(1, 5)


def test_missing_padding_becomes_zeros(tmp_path: Path):
    made = make(1, [(b"t", 0)], [], [(b"a", [0], [], 4), (b"b", [0], [], 1)], 1)
    path = tmp_path / "short.nc"
    path.write_bytes(made.header + b"\0\0\0\1\2")
    assert ncc.append(path, {"a": [3], "b": [4]}) == 2
    assert path.read_bytes()[len(made.header) :] == b"\0\0\0\1\2\0\0\0" + b"\0\0\0\3\4\x81\x81\x81"


@pytest.mark.parametrize("fill", [(b"_FillValue", 3, b"\0\7"), (b"_FillValue", 1, b"\7\7"), (b"_FillValue", 1, b"")])
def test_fill_values_of_another_type_are_no_padding(tmp_path: Path, fill: tuple[bytes, int, bytes]):
    made = make(1, [(b"t", 0)], [], [(b"a", [0], [fill], 1), (b"b", [0], [], 1)], 0)
    path = tmp_path / "fills.nc"
    path.write_bytes(made.header)
    assert ncc.append(path, {"a": [3], "b": [4]}) == 1
    assert path.read_bytes()[len(made.header) :] == b"\3\x81\x81\x81" + b"\4\x81\x81\x81"


def test_refusals(tmp_path: Path):
    path = tmp_path / "refused.nc"

    def refused(data: bytes, kind: type[errors.Unwritable], given: dict[str, Any]) -> None:
        path.write_bytes(data)
        with pytest.raises(kind):
            ncc.append(path, given)
        assert path.read_bytes() == data

    refused((EXAMPLES / "tiny.nc").read_bytes(), errors.NoRecordVariable, {"vx": [1]})
    swapped = bytearray((EXAMPLES / "kinds_1.nc").read_bytes())
    swapped[147], swapped[427] = swapped[427], swapped[147]
    refused(bytes(swapped), errors.NotPacked, {})
    streaming = bytearray((EXAMPLES / "lone_1.nc").read_bytes())
    streaming[4:8] = b"\xff" * 4
    refused(bytes(streaming), errors.Streaming, {"v": [[1, 2, 3]]})
    made = make(1, [(b"t", 0)], [], [(b"a", [0], [], 4)], 0)
    refused(made.header[:4] + bytes(4) + made.header[8:-4] + b"\0\0\1\0", errors.NotPacked, {"a": [1]})


def test_count_that_is_full(tmp_path: Path):
    path = tmp_path / "full.nc"
    data = bytearray((EXAMPLES / "lone_1.nc").read_bytes())
    data[4:8] = b"\xff\xff\xff\xfd"
    path.write_bytes(data)
    with open(path, "r+b") as file:
        file.truncate(96 + ((1 << 32) - 3) * 3)
    with pytest.raises(errors.CountFull):
        ncc.append(path, {"v": [[1, 2, 3], [4, 5, 6]]})
    with ncc.open(path) as opened:
        assert opened.records == (1 << 32) - 2 and opened["v"][-1].tolist() == [1, 2, 3]
    path.unlink()


@pytest.mark.parametrize("path", FAULTY, ids=named)
def test_fault_of_the_file(tmp_path: Path, path: Path):
    own = tmp_path / "own.nc"
    own.write_bytes(path.read_bytes())
    with pytest.raises(ncc.Fault) as raised:
        ncc.append(own, {"v": [1]})
    assert str(raised.value) == f"{own}: {expected(path)}" and own.read_bytes() == path.read_bytes()


@pytest.mark.parametrize("kind", [fcntl.LOCK_EX, fcntl.LOCK_SH])
def test_locked_file(path: Path, kind: int):
    before = path.read_bytes()
    with open(path, "rb") as file:
        fcntl.flock(file, kind)
        with pytest.raises(BlockingIOError):
            ncc.append(path, values(2, 3))
    assert path.read_bytes() == before
    assert ncc.append(path, values(2, 3)) == 3


def test_errors_name_the_file(path: Path, tmp_path: Path, monkeypatch: pytest.MonkeyPatch):
    with open(path, "rb") as file:
        fcntl.flock(file, fcntl.LOCK_EX)
        with pytest.raises(BlockingIOError) as raised:
            ncc.append(path, values(2, 3))
    assert raised.value.filename == str(path)
    tiny = tmp_path / "tiny.nc"
    tiny.write_bytes((EXAMPLES / "tiny.nc").read_bytes())
    with pytest.raises(errors.NoRecordVariable, match=f"^{tiny}: refused NoRecordVariable: ") as refused:
        ncc.append(tiny, {})
    assert refused.value.path == str(tiny)

    def full(*words: Any) -> int:
        raise OSError(28, "No space left on device")

    monkeypatch.setattr(os, "pwrite", full)
    with pytest.raises(OSError, match="No space") as raised:
        ncc.append(path, values(2, 3))
    assert raised.value.filename == str(path)


def test_lock_is_kept_while_it_is_written(path: Path, monkeypatch: pytest.MonkeyPatch):
    tried = []

    def locks(self: Any) -> None:
        with open(path, "rb") as file, pytest.raises(BlockingIOError):
            fcntl.flock(file, fcntl.LOCK_SH | fcntl.LOCK_NB)
        tried.append(1)

    monkeypatch.setattr(appending.GrowingFile, "sync", locks)
    ncc.append(path, values(2, 4))
    assert len(tried) == 1 + 2 * 2
    with open(path, "rb") as file:
        fcntl.flock(file, fcntl.LOCK_EX | fcntl.LOCK_NB)


def traced(monkeypatch: pytest.MonkeyPatch, stop: int = -1) -> list[Any]:
    """The writes and syncs in their order; the one with the number `stop` fails, after half of its bytes."""
    calls: list[Any] = []
    write, sync = os.pwrite, os.fsync

    def step(call: Any) -> bool:
        calls.append(call)
        return len(calls) - 1 == stop

    def pwrite(fd: int, data: memoryview, place: int) -> int:
        if step((place, len(data))):
            write(fd, data[: len(data) // 2], place)
            raise OSError(28, "No space left on device")
        return write(fd, data, place)

    def fsync(fd: int) -> None:
        if step("sync"):
            raise OSError(5, "Input/output error")
        sync(fd)

    monkeypatch.setattr(os, "pwrite", pwrite)
    monkeypatch.setattr(os, "fsync", fsync)
    return calls


def test_order_of_writes_and_syncs(path: Path, monkeypatch: pytest.MonkeyPatch):
    length, size = path.stat().st_size, 4 + 8 + 8 + 8
    calls = traced(monkeypatch)
    ncc.append(path, values(2, 4))
    one = [(length, size), "sync", (4, 4), "sync"]
    assert calls == ["sync", *one, (length + size, size), "sync", (4, 4), "sync"]


@pytest.mark.parametrize("stop", range(9))
def test_stop_at_any_call(path: Path, stop: int):
    before = path.read_bytes()
    with pytest.MonkeyPatch.context() as patch:
        calls = traced(patch, stop)
        with pytest.raises(OSError):
            ncc.append(path, values(2, 4))
        assert len(calls) == stop + 1
    # (a count of 4 bytes that is written by half is that of before: its first half doesn't change)
    with ncc.open(path) as data:
        records = data.records
        assert records in (2, 3, 4) and data["byte"][...].tolist() == BYTES[:records].tolist()
        assert np.array_equal(data["short"][...], SHORTS[:records]) and data["fixed"][...].tolist() == [1, 2, 3]
    assert path.read_bytes()[8 : len(before)] == before[8:]
    assert ncc.append(path, values(records, 5)) == 5
    assert path.read_bytes() == written(1, 5)


KILLED = """
import os, signal, sys, ncc
left, write = int(sys.argv[2]), os.pwrite
def pwrite(fd, data, place):
    global left
    if left == 0:
        os.kill(os.getpid(), signal.SIGKILL)
    left -= 1
    return write(fd, data, place)
os.pwrite = pwrite
ncc.append(sys.argv[1], {"v": [[1, 2, 3], [4, 5, 6]]})
"""


@pytest.mark.parametrize("writes", range(4))
def test_kill_between_writes(tmp_path: Path, writes: int):
    path = tmp_path / "killed.nc"
    path.write_bytes((EXAMPLES / "lone_5.nc").read_bytes())
    done = subprocess.run([sys.executable, "-c", KILLED, str(path), str(writes)], timeout=60)
    assert done.returncode == -signal.SIGKILL
    with ncc.open(path) as data:
        assert data.records == 3 + writes // 2
        assert data["v"][:3].tolist() == [[1, 2, 3], [4, 5, 6], [7, 8, 9]]


def test_writes_that_take_few_bytes(path: Path, monkeypatch: pytest.MonkeyPatch):
    write = os.pwrite
    monkeypatch.setattr(os, "pwrite", lambda fd, data, place: write(fd, data[:3], place))
    ncc.append(path, values(2, 5))
    assert path.read_bytes() == written(1, 5)


def test_dataset_that_is_open_keeps_its_values(path: Path):
    with ncc.open(path) as data:
        view = data["short"][...]
        ncc.append(path, values(2, 5))
        assert np.array_equal(view, SHORTS[:2]) and np.array_equal(data["short"][...], SHORTS[:2])
    with ncc.open(path) as data:
        assert np.array_equal(data["short"][...], SHORTS)


def test_long_header(tmp_path: Path):
    path = tmp_path / "long.nc"
    ncc.write(path, {"t": None}, {"long": "x" * 200_000}, {"a": ("t", [1, 2]), "b": ("t", np.zeros(2, "i1"))})
    assert ncc.append(path, {"a": [3], "b": [4]}) == 3
    with ncc.open(path) as data:
        assert data["a"][...].tolist() == [1, 2, 3] and data["b"][...].tolist() == [0, 0, 4]
    with pytest.raises(errors.HeaderTooLong):
        ncc.append(path, {"a": [3], "b": [4]}, max_header=1000)
    with pytest.raises(ValueError):
        ncc.append(path, {}, max_header=-1)


def test_files_that_cannot_be(tmp_path: Path):
    with pytest.raises(FileNotFoundError):
        ncc.append(tmp_path / "none.nc", {})
    with pytest.raises(OSError):
        ncc.append(tmp_path, {})
    os.mkfifo(tmp_path / "pipe")
    with pytest.raises(OSError):
        ncc.append(tmp_path / "pipe", {})
    with pytest.raises(TypeError):
        ncc.append(io.BytesIO(), {})


def test_two_record_variables_of_one_name(tmp_path: Path):
    made = make(1, [(b"t", 0)], [], [(b"a", [0], [], 4), (b"a", [0], [], 4)], 0)
    path = tmp_path / "twice.nc"
    path.write_bytes(made.header)
    with pytest.raises(ValueError):
        ncc.append(path, {"a": [1]})
    assert path.read_bytes() == made.header
