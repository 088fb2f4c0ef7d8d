"""A header of 20 MiB: 125,000 variables with 375,000 attributes."""

from __future__ import annotations

import time
from pathlib import Path

import pytest
from classic import make

import ncc

COUNT = 125_000


@pytest.fixture(scope="module")
def path(tmp_path_factory: pytest.TempPathFactory) -> Path:
    it = tmp_path_factory.mktemp("large") / "large.nc"
    attrs = [(b"units", 2, b"m s-1 per day"), (b"range", 5, bytes(8)), (b"_FillValue", 4, b"\0\0\0\7")]
    variables = [(b"variable_%06d" % k, [0], attrs, 4) for k in range(COUNT)]
    made = make(5, [(b"x", 2)], [], variables)
    with open(it, "wb") as file:
        file.write(made.header)
        file.truncate(made.length)
    assert len(made.header) > 20 << 20
    return it


def test_opens_within_a_second(path: Path):
    seconds = []
    for _ in range(3):
        begun = time.perf_counter()
        with ncc.open(path) as data:
            assert len(data.variables.numbers) == COUNT
        seconds.append(time.perf_counter() - begun)
    assert min(seconds) <= 1


def test_rows_take_no_more_room_than_they_need(path: Path):
    with ncc.open(path) as data:
        index = data._file.index
        assert [len(rows) for rows in (index.dims, index.attrs, index.vars, index.ids)] == [1, 3 * COUNT, COUNT, COUNT]
        assert all(rows.base is None for rows in (index.dims, index.attrs, index.vars, index.ids))


def test_items_are_made_when_they_are_asked_for(path: Path):
    with ncc.open(path) as data:
        last = data[f"variable_{COUNT - 1:06d}"]
        assert last.number == COUNT - 1 and last[...].tolist() == [0, 0]
        assert dict(last.attrs)["units"] == "m s-1 per day" and last.attrs["_FillValue"] == 7
        assert len(data.variables) == COUNT and "variable_125000" not in data.variables
