"""The engine `ncc` of xarray against the engine netcdf4."""

from __future__ import annotations

import io
import pickle
from importlib.metadata import entry_points
from pathlib import Path

import numpy as np
import pytest
from conftest import EXAMPLES, FAULTY, SOUND, named

import ncc

xr = pytest.importorskip("xarray", reason="xarray isn't installed")
peer = pytest.importorskip("netCDF4", reason="netCDF4 isn't installed")

NOT_BY_PEERS = {"noted": "netCDF4 doesn't open it: its number of records has the top bit set"}
PEER_FILES = [path for path in SOUND if path.stem not in NOT_BY_PEERS]
ENCODING = (
    "dtype", "original_shape", "source", "_FillValue", "scale_factor", "add_offset", "units", "calendar",
    "char_dim_name",
)  # fmt: skip


def equal(path: Path, **words: object) -> None:
    opened = [xr.open_dataset(path, engine=engine, **words) for engine in ("ncc", "netcdf4")]
    with opened[0] as found, opened[1] as wanted:
        xr.testing.assert_identical(found, wanted)
        assert list(found.variables) == list(wanted.variables)
        assert found.encoding["unlimited_dims"] == wanted.encoding["unlimited_dims"]
        for name, variable in wanted.variables.items():
            own = found.variables[name]
            assert own.dtype == variable.dtype and own.dtype.isnative
            for key in ENCODING:
                mine, other = own.encoding.get(key), variable.encoding.get(key)
                assert np.array_equal(mine, other, equal_nan=isinstance(other, float)) or mine == other, key


def test_entry_point():
    found = [it for it in entry_points(group="xarray.backends") if it.name == "ncc"]
    assert [it.value for it in found] == ["ncc.xarray_backend:NccBackendEntrypoint"]
    assert "ncc" in xr.backends.list_engines()


@pytest.mark.parametrize("path", PEER_FILES, ids=named)
def test_examples(path: Path):
    equal(path)
    equal(path, decode_cf=False)
    equal(path, concat_characters=False, mask_and_scale=False)


@pytest.fixture(scope="module")
def rich(tmp_path_factory: pytest.TempPathFactory) -> Path:
    """A file with all that is decoded by the CF conventions."""
    path = tmp_path_factory.mktemp("rich") / "rich.nc"
    with peer.Dataset(path, "w", format="NETCDF3_64BIT_OFFSET") as file:
        for name, length in (("time", None), ("y", 4), ("x", 6), ("chars", 5)):
            file.createDimension(name, length)
        file.title = "r\u00e9sum\u00e9"
        file.createVariable("y", "f4", ("y",))[:] = [1, 2, 3, 4]
        time = file.createVariable("time", "f8", ("time",))
        time.units, time.calendar = "hours since 2001-02-03 04:05", "standard"
        time[:] = [0, 1.5, 3]
        packed = file.createVariable("packed", "i2", ("time", "y", "x"), fill_value=-99)
        packed.set_auto_maskandscale(False)
        packed.scale_factor, packed.add_offset, packed.coordinates = 0.5, 10.0, "y"
        packed[:] = np.arange(72).reshape(3, 4, 6) - 99
        floats = file.createVariable("floats", "f4", ("y", "x"), fill_value=np.float32(1e20))
        floats[:] = np.linspace(0, 1, 24).reshape(4, 6)
        words = file.createVariable("words", "S1", ("time", "chars"))
        words[:] = np.array([list("hello"), list("ab\0\0\0"), list("\0\0\0\0\0")], "S1")
        lone = file.createVariable("lone", "S1", ("y",), fill_value=b"x")
        lone[:] = np.array(list("axbc"), "S1")
        span = file.createVariable("span", "i4", ("time",))
        span.units = "days"
        span[:] = [1, 2, 3]
        file.createVariable("scalar", "i1", ())[...] = 7
    return path


def test_decoded(rich: Path):
    equal(rich)
    equal(rich, decode_times=False)
    equal(rich, mask_and_scale=False, drop_variables=["words"])
    equal(rich, decode_coords=False, concat_characters=False, decode_timedelta=False)


def test_lazy_selections(rich: Path):
    with xr.open_dataset(rich, engine="ncc") as found, xr.open_dataset(rich, engine="netcdf4") as wanted:
        # (in memory: netCDF4 itself gives another shape where nothing is selected)
        wanted.load()
        keys = ({"x": slice(None, None, -2)}, {"time": -1, "y": [0, 3]}, {"x": slice(4, 1, -1), "y": 2}, {"time": []})
        for key in keys:
            xr.testing.assert_identical(found.packed.isel(key), wanted.packed.isel(key))
        points = {"y": xr.DataArray([0, 1], dims="p"), "x": xr.DataArray([5, 2], dims="p")}
        xr.testing.assert_identical(found.packed.isel(points), wanted.packed.isel(points))
        none = {"y": xr.DataArray(np.zeros(0, int), dims="p"), "x": xr.DataArray(np.zeros(0, int), dims="p")}
        xr.testing.assert_identical(found.packed.isel(none), wanted.packed.isel(none))


STEPS = (None, 1, 2, 3, 4, -1, -2, -3, -4, -5, -7, -8, -100)
SLICES = [slice(a, b, c) for a in (None, 0, 2, 6, 9, -1, -3, -9) for b in (None, 0, 3, 7, -1, -4, -9) for c in STEPS]
GRID = np.arange(7 * 9, dtype="i4").reshape(7, 9)


@pytest.fixture(scope="module")
def grid(tmp_path_factory: pytest.TempPathFactory) -> Path:
    """A variable of 7 by 9 ints."""
    path = tmp_path_factory.mktemp("grid") / "grid.nc"
    ncc.write(path, {"y": None, "x": 9}, {}, {"v": (("y", "x"), GRID)})
    return path


def test_slices_are_those_of_numpy(grid: Path):
    with xr.open_dataset(grid, engine="ncc", cache=False) as data:
        for k, key in enumerate(SLICES):
            other = SLICES[(k * 37) % len(SLICES)]
            for index in ((key,), (..., key), (key, other), (key, k % 9), (-1 - k % 7, key)):
                found = data.v[index].values
                assert np.array_equal(found, GRID[index]) and found.shape == GRID[index].shape, index


def test_slices_beside_lists_and_points(grid: Path):
    with xr.open_dataset(grid, engine="ncc", cache=False) as data:
        for key in SLICES[::5]:
            for some in ([0], [-1, 2, 2], [5, 0, -6]):
                assert np.array_equal(data.v[key, some].values, GRID[key, some]), (key, some)
                assert np.array_equal(data.v[some, key].values, GRID[some, key]), (key, some)
                points = xr.DataArray(some, dims="p")
                assert np.array_equal(data.v[points, key].values, GRID[some, key]), (key, some)
                found = data.v[key, points].transpose("y", "p").values
                assert np.array_equal(found, GRID[key, some]), (key, some)
        square = xr.DataArray([[0, -1], [3, 3]], dims=("p", "q"))
        assert np.array_equal(data.v[square, 1].values, GRID[square.values, 1])
        assert np.array_equal(data.v[square, square].values, GRID[square.values, square.values])
        assert data.v[[], ::-3].shape == (0, 3) and data.v[[], []].shape == (0, 0)


@pytest.mark.parametrize("chunks", [{"y": 3, "x": 4}, {}], ids=str)
def test_slices_of_chunks(grid: Path, chunks: dict[str, int]):
    dask = pytest.importorskip("dask", reason="dask isn't installed")
    pytest.importorskip("dask.array", reason="dask.array isn't installed")
    with xr.open_dataset(grid, engine="ncc", chunks=chunks) as data, dask.config.set(scheduler="sync"):
        # (Dask's own slices differ from numpy's where one begins before the first index)
        for key in [it for it in SLICES if it.start != -9][::11]:
            for index in ((key,), (..., key), (key, key)):
                assert np.array_equal(data.v[index].values, GRID[index]), index


def test_nothing_is_read_when_it_is_opened(rich: Path, monkeypatch: pytest.MonkeyPatch):
    read: list[str] = []
    get = ncc.Variable.__getitem__
    monkeypatch.setattr(ncc.Variable, "__getitem__", lambda self, key: read.append(self.name) or get(self, key))
    with xr.open_dataset(rich, engine="ncc", decode_cf=False) as found:
        assert set(read) <= {"y", "time"}
        read.clear()
        found.packed[0].load()
        assert read == ["packed"]


def test_pickled(rich: Path):
    with xr.open_dataset(rich, engine="ncc") as found:
        again = pickle.loads(pickle.dumps(found))
        xr.testing.assert_identical(again, found)


def test_dask_chunks(rich: Path):
    dask = pytest.importorskip("dask", reason="dask isn't installed")
    pytest.importorskip("dask.array", reason="dask.array isn't installed")
    with xr.open_dataset(rich, engine="netcdf4") as wanted:
        chunked = xr.open_dataset(rich, engine="ncc", chunks={"time": 1, "x": 4})
        with chunked as found, dask.config.set(scheduler="threads"):
            assert found.packed.chunks == ((1, 1, 1), (4,), (4, 2))
            xr.testing.assert_identical(found.compute(), wanted.load())
            assert float(found.packed.mean()) == pytest.approx(float(wanted.packed.mean()))


def test_from_objects(rich: Path):
    with xr.open_dataset(rich, engine="netcdf4") as wanted:
        with open(rich, "rb") as file:
            xr.testing.assert_identical(xr.open_dataset(file, engine="ncc").load(), wanted)
        xr.testing.assert_identical(xr.open_dataset(io.BytesIO(rich.read_bytes()), engine="ncc").load(), wanted)


def test_from_a_url(rich: Path):
    fsspec = pytest.importorskip("fsspec", reason="fsspec isn't installed")
    fsspec.filesystem("memory").pipe("/rich.nc", rich.read_bytes())
    with xr.open_dataset(rich, engine="netcdf4") as wanted:
        found = xr.open_dataset("memory://rich.nc", engine="ncc")
        xr.testing.assert_identical(found.load(), wanted)


def test_guess(tmp_path: Path, rich: Path):
    from ncc.xarray_backend import NccBackendEntrypoint

    guess = NccBackendEntrypoint().guess_can_open
    assert guess(str(rich)) and guess(rich) and guess(io.BytesIO(rich.read_bytes())) and guess(rich.read_bytes())
    assert not guess(tmp_path) and not guess(5) and not guess(b"\x89HDF") and not guess(tmp_path / "none.nc")


@pytest.mark.parametrize("path", FAULTY[::6], ids=named)
def test_faults_are_raised(path: Path):
    with pytest.raises(ncc.Fault):
        xr.open_dataset(path, engine="ncc")


def test_fault_among_many_files_names_its_file(tmp_path: Path, grid: Path):
    bad = tmp_path / "bad.nc"
    bad.write_bytes(grid.read_bytes()[:-1])
    words = rf"^{bad}: fault Truncated at \d+$"
    with pytest.raises(ncc.errors.Truncated, match=words) as raised:
        xr.open_mfdataset([grid, bad], engine="ncc", combine="nested", concat_dim="y")
    assert raised.value.path == str(bad)


README = EXAMPLES.parent / "python" / "README.md"


@pytest.mark.skipif(not README.exists(), reason="the README isn't beside the examples")
@pytest.mark.parametrize("name", ["ocean", "kinds_1", "kinds_5", "tiny", "rich"])
def test_recipe_of_the_readme(tmp_path: Path, rich: Path, monkeypatch: pytest.MonkeyPatch, name: str):
    lines = README.read_text(encoding="utf-8").split("\n")
    first = lines.index('    with xr.open_dataset("ocean.nc", engine="ncc", decode_cf=False) as ds:')
    recipe = "\n".join(line[4:] for line in lines[first : lines.index("", first)])
    monkeypatch.chdir(tmp_path)
    Path("ocean.nc").write_bytes((rich if name == "rich" else EXAMPLES / f"{name}.nc").read_bytes())
    exec(recipe, {"xr": xr, "ncc": ncc})
    with ncc.open("ocean.nc") as old, ncc.open("copy.nc") as new:
        assert dict(old.dims) == dict(new.dims) and old.record_dim == new.record_dim
        assert list(old.variables) == list(new.variables)
        for key, it in old.variables.items():
            assert it.dtype == new[key].dtype and it.dims == new[key].dims
            assert it[...].tobytes() == new[key][...].tobytes()
    with xr.open_dataset("ocean.nc", engine="ncc") as found, xr.open_dataset("copy.nc", engine="ncc") as copy:
        xr.testing.assert_identical(found, copy)


def test_dataset_in_memory_is_written(tmp_path: Path):
    times = ("time", np.array(["2001-02-03", "2001-02-04"], "M8[ns]"))
    made = xr.Dataset({"v": (("time", "x"), np.float32([[1, np.nan, 3], [4, 5, 6]]), {"units": "m"})}, {"time": times})
    made["v"].encoding = {"_FillValue": np.float32(-999), "dtype": "f4"}
    variables = {name: xr.conventions.encode_cf_variable(v) for name, v in made.variables.items()}
    given = {name: (v.dims, v.data, v.attrs) for name, v in variables.items()}
    ncc.write(tmp_path / "made.nc", {"time": None, "x": 3}, made.attrs, given)
    with xr.open_dataset(tmp_path / "made.nc", engine="ncc") as found:
        xr.testing.assert_equal(found, made)
        assert found.encoding["unlimited_dims"] == {"time"}


def test_text_attributes_have_no_nuls():
    from classic import make

    attrs = [(b"units", 2, b"m\0"), (b"_FillValue", 2, b"\0")]
    made = make(1, [(b"x", 2)], attrs[:1], [(b"c", [0], attrs, 2)])
    found = xr.open_dataset(made.header + b"ab\0\0", engine="ncc", decode_cf=False)
    assert found.attrs == {"units": "m"} and found["c"].attrs == {"units": "m", "_FillValue": b"\0"}


def test_noted_opens_with_the_first_of_each_name():
    found = xr.open_dataset(EXAMPLES / "noted.nc", engine="ncc")
    assert set(found.variables) == {"/", "c"}
