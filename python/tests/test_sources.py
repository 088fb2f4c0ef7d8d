"""Files behind `read` and `seek`, on a server that counts, and in fsspec's memory."""

from __future__ import annotations

import io
import math
import pickle
from pathlib import Path
from typing import Any

import numpy as np
import pytest
from classic import make
from conftest import ALL, EXAMPLES, HttpFile, RangeServer, expected

import ncc
from ncc import errors
from ncc._reading import GAP

KIB64 = 65536


def long_header(bytes_of_text: int) -> bytes:
    """A file with a header of about so many bytes, and a variable of 1000 records of 300 shorts."""
    attrs = [(b"a%05d" % k, 2, b"x" * 1000) for k in range(bytes_of_text // 1020)]
    made = make(2, [(b"t", 0), (b"x", 300)], attrs, [(b"v", [0, 1], [], 3), (b"w", [0], [], 6)], 1000)
    data = bytearray(made.length)
    data[: len(made.header)] = made.header
    for record in range(1000):
        at = made.begins[0] + record * made.record_size
        data[at : at + 600] = (np.arange(300) + record).astype(">i2").tobytes()
    return bytes(data)


@pytest.mark.parametrize("size", [100, 60_000, 70_000, 300_000, 1_500_000])
def test_header_alone_is_read(server: RangeServer, size: int):
    data = long_header(size)
    server.files["/f.nc"] = data
    header = len(data) - 1000 * 608
    assert str(ncc.check(HttpFile(server.url("/f.nc")))) == "ok CDF-2 records 1000 variables 2"
    most = 1 + max(0, math.ceil(math.log2(header / KIB64)))
    assert len(server.requests) <= most
    assert server.bytes_read <= max(KIB64, 2 * header)
    firsts = [first for first, _ in server.requests]
    assert firsts == [sum(size for _, size in server.requests[:k]) for k in range(len(firsts))]


def test_no_read_goes_past_the_limit(server: RangeServer):
    server.files["/f.nc"] = long_header(300_000)
    assert ncc.check(HttpFile(server.url("/f.nc")), max_header=100_000).fault == "HeaderTooLong"
    assert server.bytes_read == 100_000


def test_small_file_is_one_request(server: RangeServer):
    for path in ALL:
        server.files["/f.nc"] = path.read_bytes()
        server.requests.clear()
        assert str(ncc.check(HttpFile(server.url("/f.nc")))) == expected(path)
        assert len(server.requests) <= 1 and server.bytes_read == path.stat().st_size


def test_rows_are_ranges(server: RangeServer):
    data = long_header(100)
    server.files["/f.nc"] = data
    with ncc.open(HttpFile(server.url("/f.nc"))) as remote, ncc.open(data) as local:
        for key, requests, size in (
            (slice(5, 6), 1, 600),
            ((7, slice(10, 20)), 1, 20),
            (slice(3, 5), 1, 600 + 608),
            (slice(0, 1000, 10), 100, 60_000),
            ((9, slice(None, None, 2)), 1, 598),
            (slice(0, 0), 0, 0),
        ):
            server.requests.clear()
            found = remote["v"][key]
            assert found.tobytes() == local["v"][key].tobytes() and found.shape == local["v"][key].shape
            assert (len(server.requests), server.bytes_read) == (requests, size)
        assert 608 - 600 < GAP < 6080 - 600


def test_many_runs_go_on(server: RangeServer):
    made = make(1, [(b"x", 40_000)], [], [(b"v", [0], [], 1)])
    values = (np.arange(40_000) % 101).astype("i1")
    server.files["/f.nc"] = made.header + values.tobytes()
    with ncc.open(HttpFile(server.url("/f.nc"))) as data:
        assert np.array_equal(data["v"][::3], values[::3])
        assert np.array_equal(data["v"][::-2], values[::-2])
        assert np.array_equal(data["v"][:: 8192 // 2 + 1], values[:: 8192 // 2 + 1])


class Odd:
    """A file that misbehaves."""

    def __init__(self, data: bytes, piece: int = 1 << 30, cut: int = 0, error: Exception | None = None) -> None:
        self.data, self.piece, self.cut, self.error, self.at = data, piece, cut, error, 0

    def seek(self, at: int, whence: int = 0) -> int:
        self.at = at + (len(self.data) if whence == 2 else 0)
        return self.at

    def read(self, size: int) -> Any:
        if self.error:
            raise self.error
        read = self.data[: len(self.data) - self.cut][self.at : self.at + min(size, self.piece)]
        self.at += len(read)
        return read


def test_short_reads_are_taken_together():
    data = (EXAMPLES / "kinds_1.nc").read_bytes()
    whole, pieces = ncc.open(data), ncc.open(Odd(data, piece=7))
    for name in whole.variables:
        assert whole[name][...].tobytes() == pieces[name][...].tobytes()


def test_files_that_misbehave():
    data = (EXAMPLES / "ocean.nc").read_bytes()
    with pytest.raises(errors.Changed):
        ncc.check(Odd(data, cut=1))
    with pytest.raises(OSError, match="no line"):
        ncc.open(Odd(data, error=OSError("no line")))
    with pytest.raises(TypeError, match="text"):
        ncc.check(io.StringIO("CDF"))
    opened = ncc.open(file := Odd(data))
    file.cut = 100
    with pytest.raises(errors.Changed):
        opened["temperature"][...]


def test_more_bytes_than_were_asked_for():
    fsspec = pytest.importorskip("fsspec", reason="fsspec isn't installed")

    class Whole(fsspec.AbstractFileSystem):
        """Gives the whole file, whatever the range, as a server without ranges does."""

        protocol = "whole"

        def info(self, path: str, **words: Any) -> dict[str, Any]:
            return {"name": path, "size": 100, "type": "file"}

        def cat_file(self, path: str, start: int = 0, end: int = 0, **words: Any) -> bytes:
            return bytes(17764)

    fsspec.register_implementation("whole", Whole, clobber=True)
    with pytest.raises(OSError, match="100 bytes were asked for, and 17764 came, which is more: .*ranges") as raised:
        ncc.check("whole://f.nc")
    assert raised.value.filename == "whole://f.nc" and "ends before" not in str(raised.value)
    assert not isinstance(raised.value, errors.Changed)


def test_open_file_is_left_open(tmp_path: Path):
    with open(EXAMPLES / "ocean.nc", "rb") as file:
        with ncc.open(file) as data:
            assert data["station"][...].tobytes() == b"abc"
        assert ncc.check(file).ok and not file.closed


def test_local_file_that_is_cut(tmp_path: Path):
    path = tmp_path / "cut.nc"
    path.write_bytes((EXAMPLES / "ocean.nc").read_bytes())
    with ncc.open(path) as data:
        path.write_bytes(b"CDF")
        with pytest.raises(errors.Changed, match=f"^{path}: the file ends before its length") as raised:
            data["temperature"][...]
        assert raised.value.filename == raised.value.path == str(path)


def test_long_header_of_a_local_file(tmp_path: Path):
    path = tmp_path / "long.nc"
    path.write_bytes(long_header(300_000))
    assert ncc.check(path).records == 1000
    with ncc.open(path) as data:
        assert len(data.attrs) == 294 and data["v"][999, -1] == 1298


def test_memory_of_fsspec():
    fsspec = pytest.importorskip("fsspec", reason="fsspec isn't installed")
    memory = fsspec.filesystem("memory")
    for path in ALL:
        memory.pipe(f"/{path.name}", path.read_bytes())
        assert str(ncc.check(f"memory://{path.name}")) == expected(path)
        assert str(ncc.check(memory.open(f"/{path.name}", "rb"))) == expected(path)
    with ncc.open("memory://ocean.nc") as data, ncc.open(EXAMPLES / "ocean.nc") as local:
        for name in local.variables:
            assert np.array_equal(data[name][...], local[name][...])
    assert ncc.check(fsspec.open("memory://ocean.nc")).ok
    with pytest.raises(FileNotFoundError):
        ncc.check("memory://not_there.nc")
    kept = pickle.dumps(ncc.open("memory://ocean.nc")["station"])
    assert pickle.loads(kept)[...].tobytes() == b"abc"
    memory.pipe("/ocean.nc", (EXAMPLES / "tiny.nc").read_bytes())
    with pytest.raises(errors.Changed):
        pickle.loads(kept)


def test_url_asks_for_just_its_ranges(server: RangeServer):
    fsspec = pytest.importorskip("fsspec", reason="fsspec isn't installed")

    class Counted(fsspec.AbstractFileSystem):
        """A file system over the server."""

        protocol = "counted"

        def info(self, path: str, **words: Any) -> dict[str, Any]:
            return {"name": path, "size": HttpFile(server.url(path)).length, "type": "file"}

        def cat_file(self, path: str, start: int = 0, end: int = 0, **words: Any) -> bytes:
            file = HttpFile(server.url(path))
            file.seek(start)
            return file.read(end - start)

        @classmethod
        def _strip_protocol(cls, path: str) -> str:
            return path.removeprefix("counted:/")

    fsspec.register_implementation("counted", Counted, clobber=True)
    server.files["/f.nc"] = long_header(70_000)
    with ncc.open("counted://f.nc") as data:
        before = server.bytes_read
        assert before <= 2 * KIB64 and len(server.requests) == 2
        assert data["v"][17].tolist() == list(range(17, 317))
        assert (server.bytes_read - before, len(server.requests)) == (600, 3)
