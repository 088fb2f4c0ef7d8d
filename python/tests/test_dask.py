"""An archive on the workers of a Dask cluster, and chunks that workers read."""

from __future__ import annotations

from collections.abc import Iterator
from pathlib import Path
from typing import Any

import pytest
from conftest import ALL

import ncc

distributed = pytest.importorskip("distributed", reason="Dask's distributed isn't installed")


@pytest.fixture(scope="module")
def client() -> Iterator[Any]:
    with distributed.LocalCluster(
        n_workers=2, threads_per_worker=1, processes=True, dashboard_address=None
    ) as cluster, distributed.Client(cluster) as it:
        yield it


def test_archive_is_that_of_one_process(client: Any):
    paths = [str(path) for path in ALL] * 4 + ["not_there.nc"]
    assert list(ncc.archive(paths, client, batch=10)) == list(ncc.archive(paths))
    assert list(ncc.archive([], client)) == []


def test_paths_are_those_that_were_given(client: Any, monkeypatch: pytest.MonkeyPatch):
    monkeypatch.chdir(ALL[0].parent)
    rows = list(ncc.archive(["ocean.nc", Path("tiny.nc")], client))
    assert [(row.path, row.status) for row in rows] == [("ocean.nc", 0), ("tiny.nc", 0)]


def test_chunks_are_read_by_workers(client: Any, tmp_path: Path):
    xr = pytest.importorskip("xarray", reason="xarray isn't installed")
    pytest.importorskip("dask.array", reason="dask.array isn't installed")
    with xr.open_dataset(ALL[0].parent / "ocean.nc", engine="ncc", chunks={"lat": 1}) as found:
        wanted = xr.open_dataset(ALL[0].parent / "ocean.nc", engine="ncc").load()
        xr.testing.assert_identical(found.compute(), wanted)
