"""How a new file gets its name: whole or not at all."""

from __future__ import annotations

import errno
import os
import signal
import subprocess
import sys
from pathlib import Path
from typing import Any

import numpy as np
import pytest
from conftest import EXAMPLES

import ncc
from ncc import _target

WORDS = ({"x": 3}, {}, {"v": ("x", [1, 2, 3])})
OTHER = ({"x": 3}, {}, {"v": ("x", [4, 5, 6])})


def values(path: Path) -> list[int]:
    with ncc.open(path) as data:
        return data["v"][...].tolist()


class Fails:
    """Values that can't be read once a part of them was."""

    shape, dtype = (3_000_000,), np.dtype("f8")

    def __init__(self, error: BaseException) -> None:
        self.error, self.asked = error, 0

    def __getitem__(self, key: tuple[slice, ...]) -> np.ndarray:
        self.asked += 1
        if self.asked > 2:
            raise self.error
        return np.zeros(key[0].stop - key[0].start)


def test_errors_name_the_file(tmp_path: Path, monkeypatch: pytest.MonkeyPatch):
    path = tmp_path / "new.nc"

    def failed(fd: int) -> None:
        raise OSError(5, "Input/output error")

    with monkeypatch.context() as patch:
        patch.setattr(os, "fsync", failed)
        with pytest.raises(OSError, match="Input/output") as raised:
            ncc.write(path, *WORDS)
    assert raised.value.filename == str(path) and list(tmp_path.iterdir()) == []

    class Full:
        """Has no room."""

        def write(self, piece: Any) -> int:
            raise OSError(28, "No space left on device")

    with pytest.raises(OSError, match="No space") as raised:
        _target.Out(Full(), path).put(b"abc")
    assert raised.value.filename == str(path)
    with pytest.raises(OSError, match="No space") as raised:
        ncc.write(Full(), *WORDS)
    assert raised.value.filename is None


def test_only_the_file_is_left(tmp_path: Path):
    path = tmp_path / "new.nc"
    assert ncc.write(path, *WORDS) == 1
    assert [it.name for it in tmp_path.iterdir()] == ["new.nc"] and values(path) == [1, 2, 3]
    assert ncc.write(os.fspath(tmp_path / "second.nc"), *WORDS) == 1
    assert path.read_bytes() == (tmp_path / "second.nc").read_bytes()


def test_path_without_a_folder(tmp_path: Path, monkeypatch: pytest.MonkeyPatch):
    monkeypatch.chdir(tmp_path)
    ncc.write("new.nc", *WORDS)
    assert values(tmp_path / "new.nc") == [1, 2, 3]


def test_file_that_is_there_is_left_as_it_is(tmp_path: Path):
    path = tmp_path / "new.nc"
    path.write_text("old")
    with pytest.raises(FileExistsError) as raised:
        ncc.write(path, *WORDS)
    assert raised.value.filename == str(path) and path.read_text() == "old"
    (tmp_path / "link.nc").symlink_to("nowhere")
    with pytest.raises(FileExistsError):
        ncc.write(tmp_path / "link.nc", *WORDS)
    assert sorted(it.name for it in tmp_path.iterdir()) == ["link.nc", "new.nc"]


def test_part_that_is_there_is_left_as_it_is(tmp_path: Path):
    part = tmp_path / "new.nc.part"
    part.write_text("of another")
    for replace in (False, True):
        with pytest.raises(FileExistsError) as raised:
            ncc.write(tmp_path / "new.nc", *WORDS, replace=replace)
        assert raised.value.filename == str(part) and "left over from a writer that was stopped" in str(raised.value)
    assert [it.name for it in tmp_path.iterdir()] == ["new.nc.part"] and part.read_text() == "of another"


def test_replace(tmp_path: Path):
    path = tmp_path / "new.nc"
    ncc.write(path, *WORDS, replace=True)
    ncc.write(path, *OTHER, replace=True)
    assert values(path) == [4, 5, 6] and len(list(tmp_path.iterdir())) == 1


def test_old_file_stays_open_while_it_is_replaced(tmp_path: Path):
    path = tmp_path / "new.nc"
    ncc.write(path, *WORDS)
    with ncc.open(path) as data:
        ncc.write(path, {"x": 3}, {}, {"v": ("x", data["v"]), "w": ("x", data["v"])}, replace=True)
        assert data["v"][...].tolist() == [1, 2, 3] and len(data.variables) == 1
    with ncc.open(path) as data:
        assert data["w"][...].tolist() == [1, 2, 3]


@pytest.mark.parametrize(
    "error", [RuntimeError("no"), OSError(28, "full"), KeyboardInterrupt(), SystemExit(1)], ids=repr
)
@pytest.mark.parametrize("replace", [False, True])
def test_stop_in_the_middle_leaves_no_file(tmp_path: Path, error: BaseException, replace: bool):
    path = tmp_path / "new.nc"
    if replace:
        ncc.write(path, *WORDS)
    with pytest.raises(type(error)):
        ncc.write(path, {"x": 3_000_000}, {}, {"v": ("x", Fails(error))}, replace=replace)
    assert [it.name for it in tmp_path.iterdir()] == ["new.nc"] * replace
    assert not replace or values(path) == [1, 2, 3]


KILLED = """
import os, signal, sys, numpy, ncc
class Kills:
    shape, dtype, asked = (3_000_000,), numpy.dtype("f8"), 0
    def __getitem__(self, key):
        self.asked += 1
        if self.asked == 3:
            os.kill(os.getpid(), signal.SIGKILL)
        return numpy.zeros(key[0].stop - key[0].start)
ncc.write(sys.argv[1], {"x": 3_000_000}, {}, {"v": ("x", Kills())}, replace=bool(int(sys.argv[2])))
"""


@pytest.mark.parametrize("replace", [False, True])
def test_kill_leaves_the_part_at_most(tmp_path: Path, replace: bool):
    path = tmp_path / "new.nc"
    if replace:
        ncc.write(path, *WORDS)
    done = subprocess.run([sys.executable, "-c", KILLED, str(path), str(int(replace))], timeout=60)
    assert done.returncode == -signal.SIGKILL
    assert sorted(it.name for it in tmp_path.iterdir()) == ["new.nc"] * replace + ["new.nc.part"]
    assert not replace or values(path) == [1, 2, 3]


def traced(monkeypatch: pytest.MonkeyPatch, failing: str = "", number: int = errno.EIO) -> list[str]:
    """The calls that name and sync, in their order; one of them fails."""
    calls: list[str] = []

    def wrap(name: str) -> None:
        call = getattr(os, name)

        def wrapped(*words: Any, **more: Any) -> Any:
            which = name + " folder" * (name == "fsync" and os.path.isdir(f"/proc/self/fd/{words[0]}"))
            calls.append(which)
            if which == failing:
                raise OSError(number, os.strerror(number))
            return call(*words, **more)

        monkeypatch.setattr(os, name, wrapped)

    for name in ("fsync", "link", "unlink", "replace"):
        wrap(name)
    return calls


def test_order_of_the_calls(tmp_path: Path, monkeypatch: pytest.MonkeyPatch):
    calls = traced(monkeypatch)
    ncc.write(tmp_path / "new.nc", *WORDS)
    assert calls == ["fsync", "link", "unlink", "fsync folder"]
    calls.clear()
    ncc.write(tmp_path / "new.nc", *WORDS, replace=True)
    assert calls == ["fsync", "replace", "fsync folder"]


@pytest.mark.parametrize("failing", ["fsync", "link", "fsync folder"])
def test_failing_call_leaves_no_file(tmp_path: Path, monkeypatch: pytest.MonkeyPatch, failing: str):
    traced(monkeypatch, failing)
    with pytest.raises(OSError) as raised:
        ncc.write(tmp_path / "new.nc", *WORDS)
    assert raised.value.errno == errno.EIO and list(tmp_path.iterdir()) == []


@pytest.mark.parametrize("failing", ["fsync", "replace"])
def test_failing_call_leaves_the_old_file(tmp_path: Path, monkeypatch: pytest.MonkeyPatch, failing: str):
    path = tmp_path / "new.nc"
    ncc.write(path, *WORDS)
    traced(monkeypatch, failing)
    with pytest.raises(OSError):
        ncc.write(path, *OTHER, replace=True)
    assert [it.name for it in tmp_path.iterdir()] == ["new.nc"] and values(path) == [1, 2, 3]


@pytest.mark.parametrize("number", sorted(_target.NO_LINKS))
def test_file_system_without_hard_links(tmp_path: Path, monkeypatch: pytest.MonkeyPatch, number: int):
    calls = traced(monkeypatch, "link", number)
    ncc.write(tmp_path / "new.nc", *WORDS)
    assert calls == ["fsync", "link", "replace", "fsync folder"]
    assert [it.name for it in tmp_path.iterdir()] == ["new.nc"] and values(tmp_path / "new.nc") == [1, 2, 3]


def test_name_that_is_taken_meanwhile(tmp_path: Path):
    path = tmp_path / "new.nc"

    class Takes:
        """Values that take the name of the file while they are read."""

        shape, dtype = (2,), np.dtype("i4")

        def __getitem__(self, key: Any) -> np.ndarray:
            path.write_text("of another")
            return np.zeros(2, "i4")

    with pytest.raises(FileExistsError):
        ncc.write(path, {"x": 2}, {}, {"v": ("x", Takes())})
    assert [it.name for it in tmp_path.iterdir()] == ["new.nc"] and path.read_text() == "of another"


def test_folders_that_cannot_be(tmp_path: Path):
    with pytest.raises(FileNotFoundError):
        ncc.write(tmp_path / "none" / "new.nc", *WORDS)
    (tmp_path / "file").touch()
    with pytest.raises(NotADirectoryError):
        ncc.write(tmp_path / "file" / "new.nc", *WORDS)
    for path in (f"{tmp_path}/", str(tmp_path), "", "."):
        with pytest.raises(OSError):
            ncc.write(path, *WORDS)
        with pytest.raises(OSError):
            ncc.write(path, *WORDS, replace=True)
    with pytest.raises(OSError):
        ncc.write(tmp_path / ("x" * 252), *WORDS)
    assert [it.name for it in tmp_path.iterdir()] == ["file"]


def test_permissions_are_those_of_a_new_file(tmp_path: Path):
    before = os.umask(0o027)
    try:
        ncc.write(tmp_path / "new.nc", *WORDS)
    finally:
        os.umask(before)
    assert (tmp_path / "new.nc").stat().st_mode & 0o777 == 0o640


def test_new_file_of_a_conversion(tmp_path: Path):
    path = tmp_path / "new.nc"
    ncc.convert(EXAMPLES / "ocean.nc", path)
    with pytest.raises(FileExistsError):
        ncc.convert(EXAMPLES / "tiny.nc", path)
    ncc.convert(path, path, version=5, replace=True)
    assert ncc.check(path).version == 5 and [it.name for it in tmp_path.iterdir()] == ["new.nc"]


LIMITED = """
import resource, sys, numpy, ncc
resource.setrlimit(resource.RLIMIT_FSIZE, (1 << 20, 1 << 20))
try:
    if sys.argv[2] == "write":
        ncc.write(sys.argv[1], {"x": 1_000_000}, {}, {"v": ("x", numpy.zeros(1_000_000, "i4"))})
    else:
        ncc.append(sys.argv[1], {"v": numpy.ones((2, 400_000), "i1")})
except OSError as error:
    print(error.errno)
"""


def limited(path: Path, call: str) -> str:
    """What a process prints that may write 1 MiB."""
    words = [sys.executable, "-c", LIMITED, str(path), call]
    return subprocess.run(words, capture_output=True, text=True, timeout=60).stdout


def test_file_that_would_be_too_large(tmp_path: Path):
    assert limited(tmp_path / "new.nc", "write") == f"{errno.EFBIG}\n"
    assert list(tmp_path.iterdir()) == []


def test_record_that_would_be_too_large(tmp_path: Path):
    path = tmp_path / "grows.nc"
    ncc.write(path, {"t": None, "x": 400_000}, {}, {"v": (("t", "x"), np.zeros((1, 400_000), "i1"))})
    assert limited(path, "append") == f"{errno.EFBIG}\n"
    with ncc.open(path) as data:
        assert data["v"].shape == (2, 400_000) and data["v"][:, -1].tolist() == [0, 1]


def test_two_that_write_the_same_file(tmp_path: Path):
    class Writes:
        """Values whose reading writes the same file."""

        shape, dtype = (2,), np.dtype("i4")

        def __getitem__(self, key: Any) -> np.ndarray:
            with pytest.raises(FileExistsError, match="part"):
                ncc.write(tmp_path / "new.nc", *OTHER)
            return np.array([7, 8], "i4")

    ncc.write(tmp_path / "new.nc", {"x": 2}, {}, {"v": ("x", Writes())})
    assert values(tmp_path / "new.nc") == [7, 8]
