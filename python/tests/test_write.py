"""New files: their bytes against a header made apart from the package, and their values against SciPy and netCDF4."""

from __future__ import annotations

import io
import itertools
import random
from math import prod
from pathlib import Path
from typing import Any

import numpy as np
import pytest
from classic import SIZES, make, padded
from test_values import attribute, by_netcdf4, by_scipy, same

import ncc
from ncc import _external, _library, _writing

NAMES = {1: "i1", 2: "S1", 3: "i2", 4: "i4", 5: "f4", 6: "f8", 7: "u1", 8: "u2", 9: "u4", 10: "i8", 11: "u8"}
FILLS = {
    1: b"\x81", 2: b"\0", 3: b"\x80\1", 4: b"\x80\0\0\1", 5: b"\x7c\xf0\0\0", 6: b"\x47\x9e" + bytes(6), 7: b"\xff",
    8: b"\xff\xff", 9: b"\xff" * 4, 10: b"\x80" + bytes(6) + b"\2", 11: b"\xff" * 7 + b"\xfe",
}  # fmt: skip


def codes(version: int) -> list[int]:
    return [code for code in NAMES if code <= 6 or version == 5]


def numbers(code: int, shape: tuple[int, ...], seed: int = 0) -> np.ndarray:
    """Any bits, as values of the type."""
    draw = np.random.default_rng((code, seed, *shape))
    raw = draw.integers(0, 256, prod(shape) * SIZES[code], np.uint8)
    return raw.view(_library.TYPES[code]).reshape(shape)


def written(*words: Any, **more: Any) -> bytes:
    """The bytes of a new file, which passes without a note."""
    out = io.BytesIO()
    version = ncc.write(out, *words, **more)
    verdict = ncc.check(out.getvalue())
    assert verdict.ok and verdict.version == version and verdict.notes == ()
    return out.getvalue()


def wanted(version: int, dims: dict, variables: dict, records: int, attrs: Any = ()) -> bytes:
    """The whole file by hand: variables of (dims, array, attributes as (name, type, bytes), fill value)."""
    names, lengths = list(dims), [(name.encode(), length or 0) for name, length in dims.items()]
    rows = []
    for name, (own, array, its, _) in variables.items():
        code = next(code for code, dtype in _library.TYPES.items() if dtype == array.dtype)
        rows.append((name.encode(), [names.index(dim) for dim in own], list(its), code))
    made = make(version, lengths, list(attrs), rows, records)
    data = bytearray(made.header)
    kinds = [bool(own) and dims[own[0]] is None for own, *_ in variables.values()]
    for (_, array, _, fill), it in zip(variables.values(), kinds):
        if not it:
            data += filled(array.tobytes(), fill)
    for record in range(records):
        for (_, array, _, fill), it in zip(variables.values(), kinds):
            if it:
                slab = array[record : record + 1].tobytes()
                data += slab if sum(kinds) == 1 else filled(slab, fill)
    assert len(data) == made.length
    return bytes(data)


def filled(raw: bytes, fill: bytes) -> bytes:
    return raw + (fill * 4)[: len(padded(raw)) - len(raw)]


@pytest.mark.parametrize("version", [1, 2, 5])
@pytest.mark.parametrize("records", [0, 1, 2, 7])
@pytest.mark.parametrize("alone", [True, False])
def test_all_types(version: int, records: int, alone: bool):
    dims = {"x": 3, "t": None, "y": 5}
    shapes = [("t", "x")] if alone else [("t",), ("t", "x"), ("t", "y", "x")]
    fixed = [(), ("x",), ("y", "x"), ("x", "x", "y")]
    for code in codes(version):
        variables = {}
        for k, own in enumerate(fixed + shapes):
            shape = tuple(dims[dim] or records for dim in own)
            variables[f"v{k}"] = (own, numbers(code, shape, k), (), FILLS[code])
        given = {
            name: (own, array.astype(array.dtype.newbyteorder("="))) for name, (own, array, _, _) in variables.items()
        }
        data = written(dims, {}, given, version=version)
        assert data == wanted(version, dims, variables, records)


@pytest.mark.parametrize("version", [1, 2, 5])
def test_types_side_by_side(version: int):
    dims = {"t": None, "x": 3}
    variables = {}
    for code, own in itertools.product(codes(version), [("t",), ("x",), ("t", "x"), ()]):
        shape = tuple(dims[dim] or 4 for dim in own)
        variables[f"v{code}_{len(variables)}"] = (own, numbers(code, shape), (), FILLS[code])
    given = {name: (own, array) for name, (own, array, _, _) in variables.items()}
    assert written(dims, {}, given, version=version) == wanted(version, dims, variables, 4)


@pytest.mark.parametrize("version", [1, 2, 5])
def test_random_files(version: int, monkeypatch: pytest.MonkeyPatch):
    draw = random.Random(version)
    for turn in range(60):
        monkeypatch.setattr(_writing, "PIECE", draw.choice([1, 7, 64, 1000, 4 << 20]))
        dims: dict[str, int | None] = {f"d{k}": draw.randint(1, 5) for k in range(draw.randint(0, 4))}
        if draw.random() < 0.7:
            dims["t"] = None
        names, records, variables = [name for name in dims if name != "t"], draw.randint(0, 6), {}
        for k in range(draw.randint(0, 5)):
            own = tuple(draw.choice(names) for _ in range(draw.randint(0, 3)) if names)
            own = ("t", *own) if "t" in dims and draw.random() < 0.5 else own
            code = draw.choice(codes(version))
            shape = tuple(dims[dim] or records for dim in own)
            fill = draw.randbytes(SIZES[code])
            variables[f"v{k}"] = (own, numbers(code, shape, turn), [(b"_FillValue", code, fill)], fill)
        given = {}
        for name, (own, array, its, _) in variables.items():
            given[name] = (own, array, {"_FillValue": np.frombuffer(its[0][2], array.dtype)})
        records = records if any("t" in own for own, *_ in variables.values()) else 0
        assert written(dims, {}, given, version=version) == wanted(version, dims, variables, records)


def test_fill_value_of_the_padding():
    def end(attrs: dict, dtype: str = "i1", length: int = 5) -> bytes:
        return written({"x": length}, {}, {"v": ("x", np.zeros(length, dtype), attrs)})[-3:]

    assert end({}) == b"\x81\x81\x81" and end({"_FillValue": np.int8(7)}) == b"\7\7\7"
    assert end({"_FillValue": b"z"}, "S1") == b"zzz"
    assert end({"_FillValue": np.int16(-2)}, "i2", 3)[1:] == b"\xff\xfe"
    assert end({"other": np.int8(7), "_FillValue": np.int8(8)}) == b"\x08\x08\x08"


@pytest.mark.parametrize("form", ["NETCDF3_CLASSIC", "NETCDF3_64BIT_OFFSET", "NETCDF3_64BIT_DATA"])
def test_read_by_peers(tmp_path: Path, form: str):
    version = {"NETCDF3_CLASSIC": 1, "NETCDF3_64BIT_OFFSET": 2, "NETCDF3_64BIT_DATA": 5}[form]
    dims = {"time": None, "naïve": 3, "x": 4}
    attrs = {f"a{code}": _external.plain(numbers(code, (3,))) for code in codes(version) if code != 2}
    attrs |= {"title": "a café", "raw": b"bytes", "one": 1.5, "empty": [], "none": "", "Größe": "m"}
    variables = {}
    for code in codes(version):
        for k, own in enumerate([("time", "naïve"), ("x", "naïve"), ("time",), ()]):
            array = numbers(code, tuple(dims[dim] or 6 for dim in own))
            array = np.full(array.shape, b"q", "S1") if code == 2 else array
            variables[f"v{code}_{k}"] = (own, array, {"units": "m s-1", "own": np.int16([1, 2])})
    path = tmp_path / "new.nc"
    assert ncc.write(path, dims, attrs, variables, version=version) == version
    for peer in [by_netcdf4] if version == 5 else [by_netcdf4, by_scipy]:
        values, found = peer(path)
        assert list(values) == list(variables)
        for name, (_, array, _) in variables.items():
            same(values[name], array)
            assert list(found[name]) == ["units", "own"]
        with ncc.open(path) as data:
            # (SciPy reads names as Latin-1)
            for own, value in zip(data.attrs.values(), found[""].values(), strict=True):
                attribute(own, value)
            assert list(data.attrs) == list(attrs)
    netcdf4 = pytest.importorskip("netCDF4", reason="netCDF4 isn't installed")
    with netcdf4.Dataset(path) as file:
        assert file.data_model == form and file.dimensions["time"].isunlimited()
        assert {name: len(dim) for name, dim in file.dimensions.items()} == {"time": 6, "naïve": 3, "x": 4}


def test_read_back():
    attrs = {"title": "café", "raw": b"\xff\0", "one": np.float32(1.5), "many": np.uint16([1, 2]), "empty": np.zeros(0)}
    array = np.arange(24, dtype="u8").reshape(4, 2, 3)
    with ncc.open(written({"t": None, "y": 2, "x": 3}, attrs, {"v": (("t", "y", "x"), array, attrs)})) as data:
        assert (data.version, data.records, data.record_dim) == (5, 4, "t")
        assert dict(data.dims) == {"t": 4, "y": 2, "x": 3}
        same(data["v"][...], array)
        for found in (data.attrs, data["v"].attrs):
            assert list(found) == list(attrs)
            assert found["title"] == "café" and found["raw"] == b"\xff\0"
            for key in ("one", "many", "empty"):
                same(found[key], attrs[key])


def test_nothing_but_a_header():
    assert written({}, {}, {}) == written({}, None, {}) == bytes.fromhex("43444601") + bytes(28)
    assert ncc.check(written({"t": None, "x": 2}, {}, {}, records=4)).records == 4
    assert ncc.check(written({"t": None}, {}, {"v": ("t", np.zeros(0, "i2"))})).records == 0
    assert len(written({"t": None}, {}, {"v": ("t", np.zeros(0, "i2")), "w": ("t", [])})) % 4 == 0


@pytest.mark.parametrize(
    ("value", "dtype"),
    [
        (1, "i4"), (-1.5, "f8"), ([1, 2], "i4"), ([1, 2.5], "f8"), ([1 << 31], "i8"), (1 << 63, "u8"), ([], "f8"),
        (np.int64(1), "i8"), (np.int64([1]), "i8"), (np.float32(1), "f4"), (np.uint8([1]), "u1"), ((1, -2), "i4"),
        (np.array(["a", "b"]), "S1"), (np.array([b"a", b"b"]), "S1"), (np.array("text"), "S1"), (np.str_("ä"), "S1"),
        (np.bytes_(b"ab"), "S1"), (np.array([1, 2], ">i2"), "i2"), (np.ma.array([1, 2]), "i8"),
    ],
)  # fmt: skip
def test_types_of_attributes(value: Any, dtype: str):
    raw = ncc.open(written({}, {"a": value}, {})).attrs.raw("a")
    assert raw.dtype == np.dtype(dtype).newbyteorder(">")
    text = value if isinstance(value, (str, bytes)) else None
    assert raw.tobytes() == (text.encode() if isinstance(text, str) else text) if text is not None else True


@pytest.mark.parametrize(
    ("dtype", "value", "words"),
    [
        ("f4", -999.0, r"dtype float32, .* of dtype float64: give numpy.float32\(-999.0\)"),
        ("f4", -999, r"dtype float32, .* of dtype int32: give numpy.float32\(-999\)"),
        ("i1", np.int16(7), r"dtype int8, .* of dtype int16: give numpy.int8\(7\)"),
        ("i1", np.int8([7, 7]), r"dtype int8, .* 2 values: give numpy.int8\(..\)"),
        ("f8", [], r"dtype float64, .* 0 values: give numpy.float64\(..\)"),
        ("i2", "x", r"dtype int16, .* of dtype \|?S1: give numpy.int16\(..\)"), ("S1", "xy", "2 values: give one byte"),
        ("S1", np.int8(0), "of dtype int8: give one byte"),
    ],
    ids=repr,
)  # fmt: skip
def test_fill_values_that_netcdf_refuses(dtype: str, value: Any, words: str):
    with pytest.raises(ValueError, match=f"the variable 'v' has .*{words}"):
        written({"x": 2}, {}, {"u": ((), 1), "v": ("x", np.zeros(2, dtype), {"units": "m", "_FillValue": value})})


def test_fill_values_of_the_type():
    for value in (np.float32(-999), np.array([1], "f4"), np.array(1, ">f4")):
        attrs = {"units": "m", "_FillValue": value}
        with ncc.open(written({"x": 2}, attrs, {"v": ("x", np.zeros(2, "f4"), attrs)})) as data:
            assert data["v"].attrs["_FillValue"] == np.ravel(value)[0]
    assert ncc.check(written({"x": 2}, {"_FillValue": "a text"}, {"v": ("x", list("ab"), {"_FillValue": "x"})})).ok


WRONG = ("wrong", np.float16([1, 2]), np.array([True, False]), np.array(["2000-01-01"] * 2, "M8[D]"), [1, None],
         np.ma.array([1, 2], mask=[0, 1]), [[1], [2, 3]], ["ab", "c"], [1j, 2], np.array(["a", "b"], object))  # fmt: skip


@pytest.mark.parametrize("value", WRONG, ids=repr)
def test_errors_name_the_item(value: Any):
    with pytest.raises((TypeError, ValueError), match="^the variable 'bad': "):
        written({"x": 2}, {}, {"good": ("x", [1, 2]), "bad": ("x", value)})
    value = np.ma.array([1, 2], mask=[0, 1]) if isinstance(value, str) else value
    with pytest.raises((TypeError, ValueError), match="^the attribute 'bad' of the file: "):
        written({}, {"good": 1, "bad": value}, {})
    with pytest.raises((TypeError, ValueError), match="^the attribute 'bad' of the variable 'v': "):
        written({}, {}, {"u": ((), 1), "v": ((), 1, {"bad": value})})


def test_errors_tell_what_is_wrong():
    def told(words: str, dims: Any, attrs: Any, variables: Any) -> None:
        with pytest.raises((TypeError, ValueError), match=words):
            written(dims, attrs, variables)

    told("'v': .* object: NoneType at index 1$", {"x": 2}, {}, {"v": ("x", [1, None])})
    told("'v': .* object: str at index 0$", {"x": 2}, {}, {"v": ("x", np.array(["a", "b"], object))})
    told("'v': .* object: NoneType$", {}, {}, {"v": ((), None)})
    told("'v': a value is masked at index 1: ", {"x": 2}, {}, {"v": ("x", np.ma.array([1, 2], mask=[0, 1]))})
    told("'v': the text at index 1 has 3 bytes, and .* 2$", {"x": 2, "n": 2}, {}, {"v": (("x", "n"), ["a", "bcd"])})
    told("'v': the text at index 1 has 2 bytes, and no dimension is left", {"x": 2}, {}, {"v": ("x", ["a", "bc"])})
    told("'v': texts of shape", {"x": 2, "n": 2}, {}, {"v": (("x", "n"), "ab")})
    told("the dimension 'x' has the length 2.5: give an integer", {"x": 2.5}, {}, {})
    told("the dimension 'x' has the length 0", {"x": 0}, {}, {})
    told("str, not int: 5", {5: 1}, {}, {})
    told("'v': .* not iterable", {}, {}, {"v": (5, 1)})


@pytest.mark.parametrize(
    ("value", "error"),
    [
        (None, TypeError), (True, TypeError), (1j, TypeError), (["ab", "c"], TypeError), ([[1]], ValueError),
        (np.float16(1), TypeError), (np.datetime64("2000-01-01"), TypeError), ({}, TypeError), ("\ud800", ValueError),
        (np.ma.array([1, 2], mask=[0, 1]), TypeError), ([1, None], TypeError), (1 << 64, TypeError),
    ],
    ids=repr,
)  # fmt: skip
def test_attributes_that_cannot_be(value: Any, error: type[Exception]):
    out = io.BytesIO()
    with pytest.raises(error):
        ncc.write(out, {}, {"a": value}, {})
    with pytest.raises(error):
        ncc.write(out, {}, {}, {"v": ((), 1, {"a": value})})
    assert out.getvalue() == b""


@pytest.mark.parametrize(
    ("dims", "data", "chars"),
    [
        (("n",), "abc", b"abc\0\0"), (("n",), b"abcde", b"abcde"), (("n",), list("abcde"), b"abcde"),
        (("x", "n"), ["ab", "é"], b"ab\0\0\0\xc3\xa9\0\0\0"),
        (("x", "n"), [list("abcde"), list("fghij")], b"abcdefghij"),
        (("t", "n"), np.array(["abcd"]), b"abcd\0"), (("t",), list("xyz"), b"xyz"), ((), "a", b"a"), ((), b"", b"\0"),
        (("t",), "xyz", b"xyz"), ("n", np.array(["abc"], "S9")[0], b"abc\0\0"), ("x", np.array(["a", "b"], "S9"), b"ab"), (("t", "n"), np.zeros((0, 5), "S1"), b""), (("t", "n"), np.zeros(0, "S3"), b""),
    ],
)  # fmt: skip
def test_chars(dims: tuple[str, ...], data: Any, chars: bytes):
    with ncc.open(written({"x": 2, "n": 5, "t": None}, {}, {"v": (dims, data)})) as file:
        assert file["v"].dtype == "S1" and file["v"][...].tobytes() == chars


@pytest.mark.parametrize(
    ("dims", "data"),
    [
        ("x", [1, 2, 3]), (("x", "x"), [1, 2]), ((), [1, 2]), ("x", 1), (("t", "x"), [[1]]), ("n", "too long"),
        ("t", 1), (("x", "n"), [["ab", "c"]]), (("x", "n"), "ab"), ((), "ab"), ("x", [[1, 2], [3]]),
    ],
)  # fmt: skip
def test_shapes_that_do_not_fit(tmp_path: Path, dims: Any, data: Any):
    with pytest.raises(ValueError):
        ncc.write(tmp_path / "new.nc", {"x": 2, "n": 5, "t": None}, {}, {"v": (dims, data)})
    assert list(tmp_path.iterdir()) == []


def test_numbers_of_records():
    dims, short, long = {"t": None}, ("t", [1, 2]), ("t", [1, 2, 3])
    with pytest.raises(ValueError, match="'a' has 2, and 'b' has 3"):
        written(dims, {}, {"a": short, "b": long})
    with pytest.raises(ValueError):
        written(dims, {}, {"a": short}, records=3)
    assert ncc.check(written(dims, {}, {"a": short}, records=np.int8(2))).records == 2
    for records in (-1, 1 << 64):
        with pytest.raises(ValueError):
            written(dims, {}, {}, records=records)
    with pytest.raises(TypeError):
        written(dims, {}, {}, records=1.5)


@pytest.mark.parametrize("length", [0, -1, 1 << 64, 1.0, "3"], ids=repr)
def test_lengths_that_cannot_be(length: Any):
    with pytest.raises((ValueError, TypeError)):
        written({"x": length}, {}, {})


@pytest.mark.parametrize("item", [[("x",), [1, 2]], (("x",),), np.zeros(2), None, ("x", [1, 2], {}, {})], ids=repr)
def test_variables_are_tuples(item: Any):
    with pytest.raises(TypeError):
        written({"x": 2}, {}, {"v": item})


def test_names_are_texts():
    for dims, attrs, variables in (({1: 2}, {}, {}), ({}, {b"a": 1}, {}), ({}, {}, {None: ((), 1)})):
        with pytest.raises(TypeError):
            written(dims, attrs, variables)


class Lazy:
    """An object with nothing but `shape` and `__getitem__`, which keeps how much was asked for."""

    def __init__(self, array: np.ndarray) -> None:
        self._array, self.shape, self.sizes = array, array.shape, []

    def __getitem__(self, key: tuple[slice, ...]) -> np.ndarray:
        assert len(key) == len(self.shape)
        part = self._array[key]
        self.sizes.append(part.nbytes)
        return part


@pytest.mark.parametrize("shape", [(3_000_000,), (3, 1 << 21), (2, 3, 500_000), (5, 1, 1 << 22)], ids=str)
@pytest.mark.parametrize("is_record", [False, True])
def test_lazy_values(shape: tuple[int, ...], is_record: bool):
    array = np.arange(prod(shape), dtype="f8").reshape(shape)
    lazy, other = Lazy(array), Lazy(array.astype("i2"))
    names = tuple("tuvw"[: len(shape)])
    dims = {name: None if is_record and name == "t" else length for name, length in zip(names, shape)}
    data = written(dims, {}, {"v": (names, lazy), "w": (names, other)})
    with ncc.open(data) as file:
        assert np.array_equal(file["v"][...], array) and np.array_equal(file["w"][...], array.astype("i2"))
    for it in (lazy, other):
        assert max(it.sizes) <= _writing.PIECE and sum(it.sizes[1:]) == it._array.nbytes


def test_lazy_values_that_are_not_as_they_say():
    class Wrong(Lazy):
        """Gives other values than it says."""

        def __init__(self, array: np.ndarray, shape: tuple[int, ...], dtype: str) -> None:
            super().__init__(array)
            self.shape, self.dtype = shape, np.dtype(dtype)

        def __getitem__(self, key: Any) -> np.ndarray:
            return self._array

    for array, dtype in ((np.zeros(1, "i4"), "i4"), (np.zeros(4, "f4"), "i4"), (np.zeros(4, "i2"), "i4")):
        with pytest.raises((ValueError, TypeError)):
            written({"x": 4}, {}, {"v": ("x", Wrong(array, (4,), dtype))})


def test_values_of_a_variable_of_another_file():
    array = np.arange(12, dtype="f4").reshape(4, 3)
    with ncc.open(written({"t": None, "x": 3}, {"a": 1}, {"v": (("t", "x"), array, {"u": "m"})})) as data:
        lengths = {name: None if name == data.record_dim else length for name, length in data.dims.items()}
        given = {name: (it.dims, it, it.attrs) for name, it in data.variables.items()}
        again = written(lengths, data.attrs, given)
        assert again == data._file.source.read(0, data._file.source.length)


def test_values_of_xarray_and_dask():
    xarray = pytest.importorskip("xarray", reason="xarray isn't installed")
    dask = pytest.importorskip("dask.array", reason="Dask isn't installed")
    array = np.arange(600, dtype="i2").reshape(30, 20)
    for it in (xarray.DataArray(array), xarray.Variable(("t", "x"), array), dask.from_array(array, chunks=(7, 9))):
        data = written({"t": None, "x": 20}, {}, {"v": (("t", "x"), it), "w": ("x", it[0])})
        with ncc.open(data) as file:
            assert np.array_equal(file["v"][...], array) and np.array_equal(file["w"][...], array[0])


class Counted(io.RawIOBase):
    """Keeps the length of each write, and nothing else; takes at most so many bytes at a time."""

    def __init__(self, most: int = 1 << 62) -> None:
        self.sizes: list[int] = []
        self.most = most

    def write(self, piece: Any) -> int:
        self.sizes.append(min(len(piece), self.most))
        return self.sizes[-1]


def test_records_go_out_in_blocks():
    count = 400_000
    dims = {"t": None, "x": 3}
    variables = {
        "a": ("t", np.zeros(count, "i2")),
        "b": (("t", "x"), np.zeros((count, 3), "f4")),
        "c": ("t", np.zeros(count, "i1")),
    }
    out = Counted()
    ncc.write(out, dims, {}, variables)
    size = 4 + 12 + 4
    assert sum(out.sizes[1:]) == count * size
    assert len(out.sizes) == 1 + -(-count * size // (_writing.PIECE // size * size))
    out = Counted()
    ncc.write(out, {"x": 10_000_000}, {}, {"v": ("x", np.zeros(10_000_000, "f8"))})
    assert out.sizes[1:-1] == [_writing.PIECE] * 19 and max(out.sizes) == _writing.PIECE


def test_file_that_takes_few_bytes_at_a_time():
    class Slow(io.BytesIO):
        """Takes 7 bytes."""

        def write(self, piece: Any) -> int:
            return super().write(piece[:7])

    class Silent:
        """Doesn't say what it took."""

        def __init__(self) -> None:
            self.taken = b""

        def write(self, piece: Any) -> None:
            self.taken += bytes(piece)

    words = ({"t": None, "x": 3}, {"a": "text"}, {"v": (("t", "x"), [[1, 2, 3]] * 4), "w": ("t", [1, 2, 3, 4])})
    slow, silent = Slow(), Silent()
    ncc.write(slow, *words)
    ncc.write(silent, *words)
    assert slow.getvalue() == silent.taken == written(*words)
    with pytest.raises(TypeError):
        ncc.write(io.StringIO(), *words)
    with pytest.raises(TypeError):
        ncc.write(5, *words)
    with pytest.raises(ValueError, match="URL"):
        ncc.write("s3://bucket/file.nc", *words)


def test_file_of_fsspec():
    fsspec = pytest.importorskip("fsspec", reason="fsspec isn't installed")
    with fsspec.open("memory://written.nc", "wb") as file:
        ncc.write(file, {"x": 3}, {}, {"v": ("x", [1, 2, 3])})
    with ncc.open("memory://written.nc") as data:
        assert data["v"][...].tolist() == [1, 2, 3]


def test_names_of_any_text():
    names = ["é", "a b", "temp@2m", "x" * 256, "中文", "_1", "1st", "😀"]
    data = written({name: 2 for name in names}, {name: 1 for name in names}, {name: (name, [1, 2]) for name in names})
    with ncc.open(data) as file:
        assert list(file.dims) == list(file.attrs) == list(file.variables) == names


@pytest.mark.parametrize("form", ["NETCDF3_CLASSIC", "NETCDF3_64BIT_OFFSET", "NETCDF3_64BIT_DATA"])
@pytest.mark.parametrize("alone", [True, False])
def test_same_bytes_as_netcdf4(tmp_path: Path, form: str, alone: bool):
    peer = pytest.importorskip("netCDF4", reason="netCDF4 isn't installed")
    version = {"NETCDF3_CLASSIC": 1, "NETCDF3_64BIT_OFFSET": 2, "NETCDF3_64BIT_DATA": 5}[form]
    dims = {"t": None, "x": 3, "y": 5}
    attrs = {"title": "a text", "one": np.int16(7), "many": np.float32([1, 2, 3]), "byte": np.int8([1, -1])}
    variables: dict[str, Any] = {}
    for code in codes(version):
        for own in [("x",), ("y", "x"), ()] + [("t", "x"), ("t",)] * (not alone):
            array = numbers(code, tuple(dims[dim] or 4 for dim in own))
            its = {"units": "m"} if code != 3 else {"_FillValue": np.int16(-5), "units": "m"}
            variables[f"v{code}_{len(variables)}"] = (own, array, its)
    if alone:
        variables["alone"] = (("t", "x"), numbers(1, (4, 3)), {})
    with peer.Dataset(tmp_path / "other.nc", "w", format=form) as file:
        file.set_auto_maskandscale(False)
        for name, length in dims.items():
            file.createDimension(name, length)
        file.setncatts(attrs)
        for name, (own, array, its) in variables.items():
            # (netCDF4 writes the fill value of a variable first)
            it = file.createVariable(name, array.dtype.newbyteorder("="), own, fill_value=its.get("_FillValue"))
            it.setncatts({key: value for key, value in its.items() if key != "_FillValue"})
        for name, (_, array, _) in variables.items():
            file[name].set_auto_maskandscale(False)
            file[name][...] = array.astype(array.dtype.newbyteorder("="))
    data = written(dims, attrs, variables, version=version)
    assert data == (tmp_path / "other.nc").read_bytes()
