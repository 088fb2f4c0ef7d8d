"""What a version, or any version, can't hold: each refusal by its name, and nothing is written."""

from __future__ import annotations

import io
import pickle
import random
from pathlib import Path
from typing import Any

import numpy as np
import pytest
from conftest import EXAMPLES

import ncc
from ncc import _calls, _library, errors


class Many:
    """Zeros of one byte, made when they are asked for."""

    dtype = np.dtype("i1")

    def __init__(self, *shape: int) -> None:
        self.shape = shape

    def __getitem__(self, key: tuple[slice, ...]) -> np.ndarray:
        return np.broadcast_to(np.int8(0), [part.stop - part.start for part in key])


def var(*item: Any) -> dict[str, Any]:
    return {"v": item}


WIDE = {"y": 1 << 16, "x": 1 << 16}
NOT_UTF8 = b"\xff".decode("utf-8", "surrogateescape")
CASES = [
    ("BadName", 1, {"": 1}, {}, {}),
    ("BadName", 5, {"a/b": 1}, {}, {}),
    ("BadName", 2, {"x" * 257: 1}, {}, {}),
    ("BadName", 1, {}, {" a": 1}, {}),
    ("BadName", 1, {}, {"a ": 1}, {}),
    ("BadName", 5, {}, {}, {"a\n": ((), 1)}),
    ("BadName", None, {}, {}, {"-": ((), 1)}),
    ("BadName", None, {"e\u0301": 1}, {}, {}),
    ("BadName", None, {}, {}, var((), 1, {NOT_UTF8: 1})),
    ("TwoRecordDims", None, {"t": None, "u": None}, {}, {}),
    ("BadDimId", None, {"x": 1}, {}, var("y", [1])),
    ("RecordDimNotFirst", None, {"x": 1, "t": None}, {}, var(("x", "t"), [[1]])),
    *[("TypeForVersion", 1, {}, {"a": np.dtype(code).type(1)}, {}) for code in ("u1", "u2", "u4", "i8", "u8")],
    *[("TypeForVersion", 2, {"x": 1}, {}, var("x", np.zeros(1, code))) for code in ("u1", "u2", "u4", "i8", "u8")],
    ("TypeForVersion", 2, {}, {}, var((), 1, {"a": np.int64(1)})),
    ("TypeForVersion", 1, {}, {}, var((), 1 << 31)),
    ("CountForVersion", 1, {"x": 1 << 31}, {}, {}),
    ("CountForVersion", 2, {"x": 1 << 31}, {}, {}),
    ("CountForVersion", None, {"x": 1 << 63}, {}, {}),
    ("CountForVersion", None, {"x": (1 << 64) - 1}, {}, {}),
    ("SizeForVersion", 1, WIDE, {}, var(("y", "x"), Many(1 << 16, 1 << 16))),
    ("SizeForVersion", 2, {"t": None, **WIDE}, {}, var(("t", "y", "x"), Many(1, 1 << 16, 1 << 16))),
    ("SizeForVersion", None, {"x": (1 << 63) - 1}, {}, var("x", Many((1 << 63) - 1))),
    ("SizeForVersion", None, {"t": None, "x": 1 << 40}, {}, var(("t", "x"), Many(1 << 23, 1 << 40))),
    ("OffsetForVersion", 1, {**WIDE, "z": 1 << 15}, {}, {"a": (("z", "x"), Many(1 << 15, 1 << 16)), "b": ((), 1)}),
]  # fmt: skip


@pytest.mark.parametrize(("name", "version", "dims", "attrs", "variables"), CASES)
def test_refused_by_its_name(tmp_path: Path, name: str, version: int | None, dims: dict, attrs: dict, variables: dict):
    with pytest.raises(errors.UNWRITABLE[name]) as raised:
        ncc.write(tmp_path / "new.nc", dims, attrs, variables, version=version)
    item = raised.value.item
    assert raised.value.kind == name and raised.value.words
    assert str(raised.value) == f"refused {name}: {f'{item}: ' if item else ''}{raised.value.words}"
    assert isinstance(raised.value, (ncc.Unwritable, ncc.NccError, ValueError)) and not list(tmp_path.iterdir())


@pytest.mark.parametrize(
    ("item", "dims", "attrs", "variables"),
    [
        ("dimension 'a/b'", {"x": 1, "a/b": 2, "c/d": 3}, {"e/f": 1}, {}),
        ("attribute 'a/b'", {"x": 1}, {"u": 1, "a/b": 2}, {"c/d": ((), 1)}),
        ("attribute ''", {}, {"": 2}, {"v": ((), 1)}),
        ("variable 'a/b'", {"x": 1}, {"u": 1}, {"v": ("x", [1], {"u": 1}), "a/b": ("x", [1], {"c/d": 1})}),
        ("attribute 'a/b' of the variable 'v'", {"x": 1}, {}, {"u": ((), 1, {"u": 1}), "v": ("x", [1], {"a/b": 1})}),
        (
            "attribute 'a/b' of the variable 'v'",
            {},
            {"u": 1},
            {"v": ((), 1, {"u": 1, "a/b": 1, "w": 1}), "c/d": ((), 1)},
        ),
        (f"dimension {NOT_UTF8!r}", {NOT_UTF8: 1}, {}, {}),
    ],
)
def test_item_that_is_refused(item: str, dims: dict, attrs: dict, variables: dict):
    for version in (1, 2, 5, None):
        with pytest.raises(errors.BadName) as raised:
            ncc.write(io.BytesIO(), dims, attrs, variables, version=version)
        assert raised.value.item == item and item in str(raised.value)


def test_item_at_any_place():
    draw = random.Random(9)
    for _ in range(200):
        dims, attrs, variables = ([f"n{k}" for k in range(draw.randint(0, 3))] for _ in range(3))
        own = {name: [f"a{k}" for k in range(draw.randint(0, 3))] for name in variables}
        places: list[tuple[list[str], str]] = [(dims, "dimension {!r}"), (attrs, "attribute {!r}")]
        places += [(variables, "variable {!r}")]
        places += [(names, f"attribute {{!r}} of the variable {name!r}") for name, names in own.items()]
        names, words = draw.choice([(names, words) for names, words in places if names] or [(dims, "dimension {!r}")])
        bad = f"bad/{len(names)}"
        at = draw.randint(0, len(names)) if names is not variables else draw.randrange(len(names))
        if names is variables:
            own[bad] = own.pop(names[at])
            names[at] = bad
        else:
            names.insert(at, bad)
        given = {name: ((), 1, dict.fromkeys(own[name], 1)) for name in variables}
        with pytest.raises(errors.BadName) as raised:
            ncc.write(io.BytesIO(), dict.fromkeys(dims, 2), dict.fromkeys(attrs, 1), given)
        assert raised.value.item == words.format(bad)


def test_item_of_each_kind():
    items = {}
    for name, version, dims, attrs, variables in CASES:
        with pytest.raises(errors.Unwritable) as raised:
            ncc.write(io.BytesIO(), dims, attrs, variables, version=version)
        items.setdefault(name, []).append(raised.value.item)
    assert items["TwoRecordDims"] == ["dimension 'u'"]
    assert items["BadDimId"] == items["RecordDimNotFirst"] == ["variable 'v'"]
    assert set(items["TypeForVersion"]) == {"attribute 'a'", "variable 'v'", "attribute 'a' of the variable 'v'"}
    assert set(items["CountForVersion"]) == {"dimension 'x'"}
    assert items["SizeForVersion"] == ["variable 'v'", "variable 'v'", "variable 'v'", None]
    with pytest.raises(errors.DuplicateName) as raised:
        ncc.convert(EXAMPLES / "noted.nc", io.BytesIO())
    assert raised.value.item == "dimension 'x'"


@pytest.mark.parametrize(("records", "version"), [(1 << 31, 1), (1 << 31, 2), (1 << 63, 5), (1 << 63, None)])
def test_numbers_of_records(records: int, version: int | None):
    with pytest.raises(errors.CountForVersion) as raised:
        ncc.write(io.BytesIO(), {"t": None}, {}, {}, version=version, records=records)
    assert raised.value.item is None


def test_version_is_the_first_that_has_all_of_it():
    class Sink(io.RawIOBase):
        """Keeps the start and the length."""

        start, length = b"", 0

        def write(self, piece: Any) -> int:
            self.start, self.length = self.start or bytes(piece[:4]), self.length + len(piece)
            return len(piece)

    def first(*words: Any, **more: Any) -> int:
        sink = Sink()
        version = ncc.write(sink, *words, **more)
        assert sink.start[3] == version
        return version

    assert first({}, {}, {}) == 1 and first({"x": (1 << 31) - 1}, {}, {}) == 1
    assert first({"x": 1 << 31}, {}, {}) == 5 and first({}, {"a": np.uint8(1)}, {}) == 5
    assert first({"t": None}, {}, {}, records=(1 << 31) - 1) == 1 and first({"t": None}, {}, {}, records=1 << 31) == 5
    large = {"a": (("y", "x"), Many(1 << 15, 1 << 16)), "b": ((), np.int8(1))}
    assert first({"y": 1 << 15, "x": 1 << 16}, {}, large) == 2


@pytest.mark.parametrize("version", [0, 3, 4, 6, -1, "1", 1 << 80], ids=repr)
def test_versions_that_there_are_not(version: Any):
    with pytest.raises(ValueError):
        ncc.write(io.BytesIO(), {}, {}, {}, version=version)
    with pytest.raises(ValueError):
        ncc.convert(EXAMPLES / "tiny.nc", io.BytesIO(), version=version)


def test_what_a_conversion_refuses(tmp_path: Path):
    counts = bytearray((EXAMPLES / "empty.nc").read_bytes())
    counts[4] = 0x80
    tiny = (EXAMPLES / "tiny.nc").read_bytes()
    wide = bytearray((EXAMPLES / "lone_5.nc").read_bytes())
    wide[11], wide[60], wide[63], wide[139] = 0, 0x20, 0, 6
    for source, version, kind in (
        (EXAMPLES / "counts.nc", 1, errors.TypeForVersion),
        (bytes(counts), 2, errors.CountForVersion),
        (bytes(wide), 2, errors.SizeForVersion),
        (tiny.replace(b"dim", b".im"), 5, errors.BadName),
        (EXAMPLES / "noted.nc", 5, errors.DuplicateName),
    ):
        with pytest.raises(kind):
            ncc.convert(source, tmp_path / "new.nc", version=version)
        assert list(tmp_path.iterdir()) == []


def test_refusals_are_pickled():
    for name, kind in errors.UNWRITABLE.items():
        again = pickle.loads(pickle.dumps(kind("variable 'v'")))
        assert again.item == "variable 'v'" and str(again) == f"refused {name}: {again.item}: {again.words}"
        assert type(again) is kind and again.kind == name and again.offset is None and again.words and kind.__doc__


def test_names_and_numbers_are_those_of_the_library():
    refusals = {**_library.SELECTION_REFUSALS, **_library.WRITING_REFUSALS}
    for kind, name in refusals.items():
        room = np.zeros(32, np.uint8)
        length = _library.library.ncc_fault_text(kind, _calls.address(room), 32)
        assert room[:length].tobytes().decode() == name
    assert set(errors.UNWRITABLE) == set(_library.WRITING_REFUSALS.values())


def test_rows_that_do_not_fit():
    text = np.frombuffer(b"xyz", np.uint8)
    rows = {
        "dim": (_library.DIM, [(0, 1, 5)]),
        "attr": (_library.ATTR, [(0, 1, 2, 1, 2)]),
        "var": (_library.VAR, [(1, 1, 4, 0, 0, 1, 1, 0)]),
    }
    good = {name: np.array(items, dtype) for name, (dtype, items) in rows.items()}

    def planned(ids: list[int], version: int = 1, **changed: int) -> None:
        own = {name: array.copy() for name, array in good.items()}
        for key, value in changed.items():
            name, field = key.split("_", 1)
            own[name][field] = value
        describing = _calls.Describing(text, own["dim"], own["attr"], own["var"], np.array(ids, np.uint64))
        describing.encode(version, 0, describing.plan(version, 0)[0].header_length)

    planned([0])
    for wrong in (
        {"ids": []}, {"ids": [0, 0]}, {"version": 0}, {"version": 3}, {"version": (1 << 64) - 1}, {"dim_name_at": 3},
        {"dim_name_length": 4}, {"dim_name_length": (1 << 64) - 1}, {"attr_xtype": 0}, {"attr_xtype": 12},
        {"attr_count": 2}, {"attr_count": 1 << 63}, {"attr_values_at": 3}, {"attr_name_at": (1 << 64) - 1},
        {"var_xtype": 0}, {"var_rank": 2}, {"var_rank": 0}, {"var_attrs": 2}, {"var_name_length": 3},
    ):  # fmt: skip
        with pytest.raises(errors.Misused):
            planned(**{"ids": [0], **wrong})


def test_no_room():
    describing = _calls.Describing(*(np.zeros(0, dtype) for dtype in (np.uint8, _library.DIM, _library.ATTR)),
                                   np.zeros(0, _library.VAR), np.zeros(0, np.uint64))  # fmt: skip
    planned, _ = describing.plan(1, 0)
    assert (planned.header_length, planned.file_length, planned.record_size, planned.vars) == (32, 32, 0, 0)
    with pytest.raises(errors.Misused, match="state 6"):
        describing.encode(1, 0, 31)
    assert describing.encode(1, 0, 40) == (EXAMPLES / "empty.nc").read_bytes()
