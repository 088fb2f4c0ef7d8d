"""Files in another version: byte for byte, and against netCDF's own tools."""

from __future__ import annotations

import io
import random
import shutil
import subprocess
from pathlib import Path

import numpy as np
import pytest
from classic import make
from conftest import EXAMPLES, FAULTY, SOUND, HttpFile, RangeServer, by_program, expected, named
from test_values import NOT_BY_PEERS, by_netcdf4, same

import ncc
from ncc import _writing, converting, errors

NOT_BY_NCCOPY = {**NOT_BY_PEERS, "grid": "nccopy drops its records, since no variable has them"}
REFUSED = {("noted", 1), ("noted", 2), ("noted", 5), ("counts", 1), ("counts", 2)}
VERSIONS = (1, 2, 5)


def converted(source: object, version: int | None = None) -> bytes:
    """The bytes of the new file, which passes without a note."""
    out = io.BytesIO()
    made = ncc.convert(source, out, version=version)
    verdict = ncc.check(out.getvalue())
    assert verdict.ok and verdict.version == made and verdict.notes == ()
    return out.getvalue()


@pytest.mark.parametrize("version", VERSIONS)
@pytest.mark.parametrize("path", SOUND, ids=named)
def test_examples(path: Path, version: int):
    if (path.stem, version) in REFUSED:
        with pytest.raises(errors.Unwritable):
            converted(path, version)
        return
    data = converted(path, version)
    verdict = ncc.check(path)
    assert str(ncc.check(data)) == f"ok CDF-{version} records {verdict.records} variables {verdict.variables}"
    with ncc.open(path) as old, ncc.open(data) as new:
        assert dict(old.dims) == dict(new.dims) and old.record_dim == new.record_dim
        assert list(old.variables) == list(new.variables)
        pairs = [(old.attrs, new.attrs)]
        for one, two in zip(old.variables.values(), new.variables.values()):
            assert (one.dims, one.dtype, one.shape) == (two.dims, two.dtype, two.shape)
            assert one[...].tobytes() == two[...].tobytes()
            pairs.append((one.attrs, two.attrs))
        for one, two in pairs:
            assert list(one) == list(two)
            assert all(one.raw(name).tobytes() == two.raw(name).tobytes() for name in one)
            assert all(one.raw(name).dtype == two.raw(name).dtype for name in one)
    assert converted(data, version) == data


@pytest.mark.parametrize("name", ["kinds", "lone"])
def test_same_dataset_in_each_version(name: str):
    files = {version: (EXAMPLES / f"{name}_{version}.nc").read_bytes() for version in VERSIONS}
    for source in files.values():
        for version, wanted in files.items():
            assert converted(source, version) == wanted
        assert converted(source) == files[1]


@pytest.mark.parametrize("version", VERSIONS)
@pytest.mark.parametrize("path", SOUND, ids=named)
def test_bytes_of_the_program(tmp_path: Path, path: Path, version: int):
    line = by_program("convert", "--to", str(version), path, tmp_path / "program.nc")
    if (path.stem, version) in REFUSED:
        with pytest.raises(errors.UNWRITABLE[line.removeprefix("refused ")]):
            converted(path, version)
        return
    assert line == f"ok CDF-{version}"
    assert converted(path, version) == (tmp_path / "program.nc").read_bytes()


@pytest.mark.parametrize("path", FAULTY, ids=named)
def test_fault_of_the_source(tmp_path: Path, path: Path):
    with pytest.raises(ncc.Fault) as raised:
        ncc.convert(path, tmp_path / "new.nc")
    assert str(raised.value) == f"{path}: {expected(path)}" and list(tmp_path.iterdir()) == []


@pytest.mark.parametrize("path", [path for path in SOUND if path.stem not in NOT_BY_PEERS], ids=named)
def test_values_by_netcdf4(tmp_path: Path, path: Path):
    values, attrs = by_netcdf4(path)
    for version in VERSIONS:
        if (path.stem, version) in REFUSED:
            continue
        new = tmp_path / f"{version}.nc"
        ncc.convert(path, new, version=version)
        found, others = by_netcdf4(new)
        assert list(found) == list(values) and attrs.keys() == others.keys()
        for name, array in values.items():
            same(found[name], array)
        for name, own in attrs.items():
            assert list(own) == list(others[name])
            assert all(np.array_equal(value, others[name][key]) for key, value in own.items())


@pytest.mark.parametrize("path", [path for path in SOUND if path.stem not in NOT_BY_NCCOPY], ids=named)
def test_data_as_nccopy_has_it(tmp_path: Path, path: Path):
    if not shutil.which("nccopy") or not shutil.which("ncdump"):
        pytest.skip("nccopy and ncdump aren't installed")
    for version, kind in ((1, "classic"), (2, "64-bit offset"), (5, "cdf5")):
        if (path.stem, version) in REFUSED:
            continue
        new, other = tmp_path / f"new_{version}.nc", tmp_path / f"other_{version}.nc"
        ncc.convert(path, new, version=version)
        subprocess.run(["nccopy", "-k", kind, path, other], check=True)
        dumped = [
            subprocess.run(["ncdump", "-n", "x", it], capture_output=True, check=True).stdout for it in (new, other)
        ]
        assert dumped[0] == dumped[1]


def test_random_places(monkeypatch: pytest.MonkeyPatch):
    """Record variables with odd sizes, and blocks of any length."""
    draw = random.Random(5)
    for turn in range(60):
        monkeypatch.setattr(_writing, "PIECE", draw.choice([1, 5, 64, 300]))
        monkeypatch.setattr(converting, "PIECE", draw.choice([1, 5, 64]))
        dims = [(b"t", 0), (b"x", draw.randint(1, 5)), (b"y", draw.randint(1, 4))]
        variables = []
        for k in range(draw.randint(1, 5)):
            ids = [0] * draw.randint(0, 1) + [draw.randint(1, 2) for _ in range(draw.randint(0, 2))]
            variables.append((b"v%d" % k, ids, [], draw.randint(1, 6)))
        records = draw.randint(0, 9)
        made = make(draw.choice(VERSIONS), dims, [], variables, records)
        data = made.header + draw.randbytes(made.length - len(made.header))
        version = draw.choice(VERSIONS)
        new = converted(data, version)
        assert new[:4] == b"CDF" + bytes([version])
        assert len(new) == make(version, dims, [], variables, records).length
        for source in (data, io.BytesIO(data)):
            assert converted(source, version) == new
        with ncc.open(data) as one, ncc.open(new) as two:
            for name in one.variables:
                assert one[name][...].tobytes() == two[name][...].tobytes()


def test_places_that_are_not_the_standard_ones():
    """Gaps, and record variables that stand in another order."""
    made = make(1, [(b"t", 0), (b"x", 3)], [], [(b"a", [0, 1], [], 1), (b"b", [0], [], 3), (b"c", [1], [], 4)], 3)
    data = bytearray(made.header + bytes(range(1, 1 + made.length - len(made.header))))
    at = data.find(made.begins[0].to_bytes(4, "big"))
    other = data.find(made.begins[1].to_bytes(4, "big"))
    data[at : at + 4], data[other : other + 4] = data[other : other + 4], data[at : at + 4]
    assert dict(ncc.check(data).notes).keys() == {"Order"}
    for version in VERSIONS:
        with ncc.open(data) as old, ncc.open(converted(data, version)) as new:
            for name in "abc":
                assert old[name][...].tobytes() == new[name][...].tobytes()
            assert new["a"].begin < new["b"].begin


def test_last_padding_that_is_missing():
    made = make(2, [(b"t", 0)], [], [(b"a", [0], [], 1), (b"b", [0], [], 1)], 2)
    data = made.header + b"\1\0\0\0\2\0\0\0\3\0\0\0\4"
    assert ncc.check(data).ok and len(data) == made.length - 3
    new = converted(data, 2)
    assert new == made.header + b"".join(bytes([k]) + b"\x81" * 3 for k in (1, 2, 3, 4))


def test_file_that_is_still_written():
    data = bytearray((EXAMPLES / "lone_1.nc").read_bytes())
    whole = bytes(data)
    data[4:8] = b"\xff" * 4
    assert converted(data + b"\1\2", 1) == whole
    assert ncc.check(converted(data + b"\1\2\3", 1)).records == 4


def test_large_records(tmp_path: Path):
    length = 1 << 21
    array = np.arange(2 * length, dtype="f4").reshape(2, length)
    words = ({"t": None, "x": length}, {}, {"a": (("t", "x"), array), "b": ("t", [1, 2]), "c": (("t", "x"), -array)})
    ncc.write(tmp_path / "old.nc", *words)
    ncc.convert(tmp_path / "old.nc", tmp_path / "new.nc", version=5)
    with ncc.open(tmp_path / "new.nc") as data:
        assert np.array_equal(data["a"][...], array) and np.array_equal(data["c"][...], -array)
        assert data["b"][...].tolist() == [1, 2]


def test_values_are_read_by_few_ranges(server: RangeServer):
    count = 300_000
    out = io.BytesIO()
    numbers = np.arange(count, dtype="i4")
    ncc.write(out, {"t": None, "x": 3}, {}, {"a": ("t", numbers), "b": (("t", "x"), np.stack([numbers] * 3, 1))})
    server.files["/f.nc"] = out.getvalue()
    assert converted(HttpFile(server.url("/f.nc")), 1) == out.getvalue()
    assert len(server.requests) == 1 + -(-count * 16 // _writing.PIECE)
    assert max(size for _, size in server.requests) <= _writing.PIECE


def test_small_variables_are_read_ahead(server: RangeServer):
    out = io.BytesIO()
    variables = {f"v{k}": ("x", np.full(3, k, "i2")) for k in range(500)}
    variables["large"] = ("y", np.arange(3_000_000, dtype="i4"))
    ncc.write(out, {"x": 3, "y": 3_000_000, "t": None}, {}, {**variables, "r": ("t", [1, 2]), "last": ("x", [1, 2, 3])})
    server.files["/f.nc"] = out.getvalue()
    assert converted(HttpFile(server.url("/f.nc")), 1) == out.getvalue()
    assert len(server.requests) == 1 + -(-12_004_012 // _writing.PIECE) + 1
    assert server.bytes_read <= len(out.getvalue()) + 65536


def test_source_that_is_cut():
    class Cut(io.BytesIO):
        """Its last bytes are gone once its header was read."""

        reads = 0

        def read(self, size: int = -1) -> bytes:
            self.reads += 1
            read = super().read(size)
            return read if self.reads == 1 else read[: len(read) // 2]

    out = io.BytesIO()
    ncc.write(out, {"x": 1_000_000}, {}, {"v": ("x", np.zeros(1_000_000, "i4"))})
    with pytest.raises(errors.Changed):
        ncc.convert(Cut(out.getvalue()), io.BytesIO())


def test_more_dimensions_than_numpy_has():
    made = make(1, [(b"x", 1)], [], [(b"v", [0] * 40, [], 4)])
    new = converted(made.header + b"\1\2\3\4", 5)
    assert new.endswith(b"\1\2\3\4") and ncc.open(new)["v"].ndim == 40


def test_source_stays_open():
    with open(EXAMPLES / "ocean.nc", "rb") as file:
        assert converted(file) == converted(EXAMPLES / "ocean.nc")
        assert not file.closed
    with pytest.raises(TypeError):
        ncc.convert(5, io.BytesIO())
    with pytest.raises(FileNotFoundError):
        ncc.convert("not_there.nc", io.BytesIO())
    with pytest.raises(errors.HeaderTooLong):
        ncc.convert(EXAMPLES / "ocean.nc", io.BytesIO(), max_header=10)
