"""Values and attributes of the examples and of made files, against SciPy and netCDF4."""

import io
import random
import warnings
from pathlib import Path
from typing import Any

import numpy as np
import pytest
from classic import make
from conftest import EXAMPLES, SOUND, named, random_key

import ncc
from ncc.errors import SelectionError

NOT_BY_PEERS = {"noted": "neither SciPy nor netCDF4 opens it: its number of records has the top bit set"}
PEER_FILES = [path for path in SOUND if path.stem not in NOT_BY_PEERS]


def by_scipy(path: Path) -> tuple[dict[str, np.ndarray], dict[str, dict[str, Any]]]:
    io_ = pytest.importorskip("scipy.io", reason="SciPy isn't installed")
    with io_.netcdf_file(path, "r", mmap=False) as file:
        values = {name: np.array(it[...]) for name, it in file.variables.items()}
        attrs = {name: dict(it._attributes) for name, it in file.variables.items()}
        attrs[""] = dict(file._attributes)
    return values, attrs


def by_netcdf4(path: Path) -> tuple[dict[str, np.ndarray], dict[str, dict[str, Any]]]:
    peer = pytest.importorskip("netCDF4", reason="netCDF4 isn't installed")
    with peer.Dataset(path) as file:
        file.set_auto_maskandscale(False)
        file.set_auto_chartostring(False)
        values = {name: np.array(it[...]) for name, it in file.variables.items()}
        attrs = {name: {key: it.getncattr(key) for key in it.ncattrs()} for name, it in file.variables.items()}
        attrs[""] = {key: file.getncattr(key) for key in file.ncattrs()}
    return values, attrs


def peers(path: Path) -> list:
    # (SciPy doesn't read CDF-5)
    return [by_netcdf4] if path.read_bytes()[3] == 5 else [by_netcdf4, by_scipy]


def same(found: Any, wanted: Any) -> None:
    found, wanted = np.asarray(found), np.asarray(wanted)
    assert found.shape == wanted.shape
    assert found.dtype.newbyteorder("=") == wanted.dtype.newbyteorder("=")
    native = wanted.dtype.newbyteorder("=")
    assert found.astype(native).tobytes() == wanted.astype(native).tobytes()


@pytest.mark.parametrize("path", PEER_FILES, ids=named)
def test_whole_variables(path: Path):
    for peer in peers(path):
        values, _ = peer(path)
        with ncc.open(path) as data, ncc.open(io.BytesIO(path.read_bytes())) as ranged:
            assert list(data.variables) == list(values)
            for name, variable in data.variables.items():
                same(variable[...], values[name])
                same(variable.native(), values[name])
                same(ranged.variables[name][...], values[name])
                assert variable.dtype.byteorder in ">|" and variable.native().dtype.isnative


@pytest.mark.parametrize("path", PEER_FILES, ids=named)
def test_random_selections(path: Path):
    draw = random.Random(path.stem)
    values, _ = peers(path)[-1](path)
    with ncc.open(path) as data, ncc.open(io.BytesIO(path.read_bytes())) as ranged:
        for name, whole in values.items():
            for _ in range(40):
                key = random_key(draw, whole.shape)
                for variable in (data.variables[name], ranged.variables[name]):
                    compare(variable, whole, key)


def compare(variable: ncc.Variable, whole: np.ndarray, key: Any) -> None:
    try:
        wanted = whole[key]
    except IndexError:
        with pytest.raises(SelectionError):
            variable[key]
        return
    found = variable[key]
    same(found, wanted)
    assert isinstance(found, np.ndarray) == isinstance(wanted, np.ndarray)


@pytest.mark.parametrize("path", PEER_FILES, ids=named)
def test_attributes(path: Path):
    for peer in peers(path):
        _, attrs = peer(path)
        with ncc.open(path) as data:
            own = {"": data.attrs, **{name: it.attrs for name, it in data.variables.items()}}
            for name, wanted in attrs.items():
                assert list(own[name]) == list(wanted)
                for key, value in wanted.items():
                    attribute(own[name][key], value)


def attribute(found: Any, wanted: Any) -> None:
    if isinstance(wanted, bytes):
        wanted = wanted.decode("utf-8")
    if isinstance(wanted, str):
        # (both peers leave out NULs)
        assert isinstance(found, str) and found.rstrip("\0") == wanted
        return
    same(found, wanted if np.ndim(found) else np.asarray(wanted).reshape(()))
    assert np.asarray(found).dtype.isnative


@pytest.mark.parametrize("path", PEER_FILES, ids=named)
def test_dimensions(path: Path):
    peer = pytest.importorskip("netCDF4", reason="netCDF4 isn't installed")
    with peer.Dataset(path) as file, ncc.open(path) as data:
        assert dict(data.dims) == {name: len(dim) for name, dim in file.dimensions.items()}
        unlimited = [name for name, dim in file.dimensions.items() if dim.isunlimited()]
        assert data.record_dim == (unlimited[0] if unlimited else None)
        for name, variable in data.variables.items():
            assert (variable.dims, variable.shape) == (file[name].dimensions, file[name].shape)


def test_noted_has_two_dimensions_of_one_name():
    with ncc.open(EXAMPLES / "noted.nc") as data:
        assert [data.dims.by_number(k) for k in data.dims.numbers] == [3, 4]
        assert (dict(data.dims), list(data.variables)) == ({"x": 3}, ["/", "c"])


@pytest.mark.parametrize("form", ["NETCDF3_CLASSIC", "NETCDF3_64BIT_OFFSET", "NETCDF3_64BIT_DATA"])
def test_made_by_netcdf4(tmp_path: Path, form: str):
    peer = pytest.importorskip("netCDF4", reason="netCDF4 isn't installed")
    draw, path = np.random.default_rng(7), tmp_path / "made.nc"
    with peer.Dataset(path, "w", format=form) as file:
        for name, length in (("t", None), ("y", 5), ("x", 7), ("n", 3)):
            file.createDimension(name, length)
        shapes = {"a": ("t", "y", "x"), "b": ("y", "x"), "c": ("t", "n"), "d": ("t",), "s": ()}
        types = ["i1", "S1", "i2", "i4", "f4", "f8"] + ["u1", "u2", "u4", "i8", "u8"] * form.endswith("DATA")
        for dims_name, dims in shapes.items():
            for code in types:
                it = file.createVariable(f"{dims_name}_{code}", code, dims)
                shape = tuple({"t": 6, "y": 5, "x": 7, "n": 3}[dim] for dim in dims)
                it.set_auto_maskandscale(False)
                numbers = draw.integers(65, 90, shape)
                it[...] = numbers.astype("u1").view("S1") if code == "S1" else numbers
    values, _ = by_netcdf4(path)
    chance = random.Random(form)
    with ncc.open(path) as data, ncc.open(io.BytesIO(path.read_bytes())) as ranged:
        for name, whole in values.items():
            same(data[name][...], whole)
            for _ in range(10):
                key = random_key(chance, whole.shape)
                compare(data[name], whole, key)
                compare(ranged[name], whole, key)


@pytest.mark.parametrize("extra", [0, 1, 2, 3, 5, 6])
def test_file_that_is_still_written(extra: int):
    data = bytearray((EXAMPLES / "lone_1.nc").read_bytes())
    with ncc.open(data) as whole:
        variable = whole.variables.by_number(0)
        record, values = variable[0].nbytes, variable[...].tobytes()
    assert len(data) - variable.begin == 3 * record == 9
    data[4:8] = b"\xff" * 4
    with ncc.open(data + bytes(extra)) as grows:
        assert grows.records == 3 + extra // record
        assert grows.variables.by_number(0)[...].tobytes() == values + bytes(extra // record * record)


def test_view_copies_nothing():
    data = (EXAMPLES / "ocean.nc").read_bytes()
    variable = ncc.open(data)["temperature"]
    view = variable[::2, :, 1:]
    assert np.shares_memory(view, np.frombuffer(data, np.uint8))
    assert not view.flags.writeable and variable.native().flags.writeable
    with pytest.raises(ValueError):
        view[0, 0, 0] = 1
    writable = bytearray(data)
    assert not ncc.open(writable)["temperature"][...].flags.writeable


def test_view_outlives_the_dataset():
    with ncc.open(EXAMPLES / "ocean.nc") as data:
        variable = data["temperature"]
        view = variable[...]
    with pytest.raises(ncc.errors.Closed):
        variable[...]
    assert view[1, 0].tolist() == [1204, 1190, -32768]
    data.close()


def test_large_sparse_file_is_a_view(tmp_path: Path):
    made = make(5, [(b"y", 1 << 15), (b"x", 1 << 18)], [], [(b"v", [0, 1], [], 5)])
    path = tmp_path / "sparse.nc"
    with open(path, "wb") as file:
        file.write(made.header)
        file.truncate(made.length)
        file.seek(made.length - 4)
        file.write(np.array(1.5, ">f4").tobytes())
    assert made.length > 1 << 34
    with ncc.open(path) as data:
        assert data["v"][-1, -1] == 1.5
        assert data["v"][:: 1 << 14, 5 :: 1 << 16].tolist() == [[0.0] * 4] * 2
        assert data["v"].nbytes == 1 << 35


def test_text_that_is_not_utf8_and_names_of_any_bytes():
    attrs = [(b"latin", 2, b"caf\xe9"), (b"none", 2, b""), (b"utf", 2, "é".encode())]
    attrs.append((b"nan", 5, bytes.fromhex("7fa00001")))
    made = make(1, [(b"\xff\xfe", 2)], attrs + [(b"empty", 4, b"")], [(b"a\0b", [0], [], 3)])
    with warnings.catch_warnings():
        warnings.simplefilter("error")
        data = ncc.open(made.header + bytes.fromhex("00070008"))
    assert data.attrs["latin"] == b"caf\xe9" and data.attrs["none"] == "" and data.attrs["utf"] == "é"
    assert data.attrs["empty"].shape == (0,) and data.attrs["nan"].view("u4") == 0x7FA00001
    assert list(data.dims) == [b"\xff\xfe".decode("utf-8", "surrogateescape")]
    assert data["a\0b"][...].tolist() == [7, 8]
    assert "a\0b" in data.variables and "b" not in data.variables


def test_as_an_array():
    with ncc.open(EXAMPLES / "ocean.nc") as data:
        variable = data["temperature"]
        assert np.asarray(variable).dtype == ">i2" and np.shares_memory(np.asarray(variable), variable[...])
        assert np.asarray(variable, "f8")[1, 0, 0] == 1204.0 and np.array(variable).flags.writeable
        assert (variable.ndim, variable.size, variable.nbytes, len(variable)) == (3, 12, 24, 2)
        assert variable.begin == 492 and variable.is_record and not data["depth"].is_record
        assert ncc.native(variable[0, 0, 0]) == 1201 and ncc.native(variable[0]).dtype.isnative
        assert repr(variable) == "<ncc.Variable 'temperature' >i2 (time=2, depth=2, lat=3)>"
        assert "depth" in data and "none" not in data and list(data) == list(data.variables)
        assert repr(data) == "<ncc.Dataset CDF-1, 3 dimensions, 4 variables>"
        assert variable.attrs.to_dict()["_FillValue"] == -32768 and data.attrs.raw("title").dtype == "S1"
    scalar = make(1, [], [], [(b"s", [], [], 4)])
    with ncc.open(scalar.header + b"\0\0\0\5") as data:
        assert data["s"][()] == 5 and data["s"][...].shape == () and data["s"][None].tolist() == [5]
        with pytest.raises(TypeError):
            len(data["s"])
