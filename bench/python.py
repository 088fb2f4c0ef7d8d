#!/usr/bin/env python3
"""Times the Python package beside SciPy and netCDF4: `bench/python.py [--mib 512] [--turns 7] [NAME]...`.

Run it by a Python that has the package installed from its wheel, numpy, SciPy and netCDF4; for the last row also Dask's
distributed. It makes its files in bench/made/python, about 1.5 GiB. The package and its peer take turns in one process,
with the files in the system's cache. A row has the least seconds of all turns, those of the peer, and their ratio; the
aim is one of the ratio, or in seconds where there is no peer. What takes microseconds is done 200 times in a turn.
"""

from __future__ import annotations

import argparse
import os
import shutil
import sys
import time
from collections.abc import Callable
from pathlib import Path
from typing import Any

import netCDF4
import numpy as np
from scipy.io import netcdf_file

import ncc

TOP = Path(__file__).resolve().parents[1]
MADE = TOP / "bench" / "made" / "python"
sys.path.insert(0, str(TOP / "python" / "tests"))
from classic import make  # noqa: E402

OCEAN = TOP / "examples" / "ocean.nc"
WORKERS = 2
SCIPY, NETCDF4 = "SciPy opens", "netCDF4 opens"
Run = Callable[[], object]


def make_grid(path: Path, mib: int, is_record: bool) -> None:
    """A float variable of so many MiB, fixed or over 256 records, with numbers in it."""
    dims = [(b"t", 0 if is_record else 256), (b"y", 64), (b"x", mib * 16)]
    made = make(2, dims, [], [(b"v", [0, 1, 2], [], 5)], 256 if is_record else 0)
    row = np.arange(mib * 1024, dtype=">f4")
    with open(path, "wb") as file:
        file.write(made.header)
        for record in range(256):
            file.write((row + record).astype(">f4").tobytes())


def make_header(path: Path) -> None:
    """125,000 variables with 375,000 attributes: 20 MiB."""
    attrs = [(b"units", 2, b"m s-1 per day"), (b"range", 5, bytes(8)), (b"_FillValue", 4, b"\0\0\0\7")]
    made = make(5, [(b"x", 2)], [], [(b"variable_%06d" % k, [0], attrs, 4) for k in range(125_000)])
    with open(path, "wb") as file:
        file.write(made.header)
        file.truncate(made.length)


def make_many(folder: Path) -> list[str]:
    """10,000 small files: the examples, again and again."""
    examples = sorted((TOP / "examples").glob("*.nc"))
    paths = [folder / str(k // 500) / f"{k}.nc" for k in range(10_000)]
    for k, path in enumerate(paths):
        if not path.exists():
            path.parent.mkdir(parents=True, exist_ok=True)
            shutil.copyfile(examples[k % len(examples)], path)
    return [str(path) for path in paths]


def make_usual(folder: Path) -> list[str]:
    """10,000 files with headers of 24 KiB: 30 variables of 12 attributes, as files of a climate archive have."""
    texts = [b"standard_name", b"long_name", b"units", b"cell_methods", b"comment", b"history", b"coordinates", b"grid"]
    attrs = [(name, 2, b"a few words about a variable of a model") for name in texts]
    attrs += [(name, 5, bytes(4)) for name in (b"_FillValue", b"missing_value", b"scale_factor", b"add_offset")]
    dims = [(b"time", 0), (b"lat", 4), (b"lon", 8)]
    made = make(2, dims, [], [(b"variable_%02d" % k, [0, 1, 2], attrs, 5) for k in range(30)], 1)
    paths = [folder / str(k // 500) / f"{k}.nc" for k in range(10_000)]
    for path in paths:
        if not path.exists():
            path.parent.mkdir(parents=True, exist_ok=True)
            path.write_bytes(made.header + bytes(made.length - len(made.header)))
    return [str(path) for path in paths]


def least(runs: list[Run], turns: int) -> list[float]:
    """The least seconds of each run; they take turns."""
    best = [float("inf")] * len(runs)
    for _ in range(turns):
        for k, run in enumerate(runs):
            begun = time.perf_counter()
            run()
            best[k] = min(best[k], time.perf_counter() - begun)
    return best


def repeated(run: Run, times: int = 200) -> Run:
    """A run of many, for what takes microseconds."""
    return lambda: [run() for _ in range(times)]


def small_rows() -> dict[str, tuple[list[Run], float, str]]:
    """What is done with a small file; the seconds are those of 200 runs."""
    data, path = OCEAN.read_bytes(), str(OCEAN)
    return {
        "check-memory": ([repeated(lambda: ncc.check(data))], 200 * 15e-6, "15 microseconds each"),
        "check-path": ([repeated(lambda: ncc.check(path)), repeated(lambda: netcdf_file(path).close())], 1, SCIPY),
        "open-path": ([repeated(lambda: ncc.open(path)), repeated(lambda: netCDF4.Dataset(path).close())], 0, NETCDF4),
    }


def grid_rows(kind: str) -> dict[str, tuple[list[Run], float, str]]:
    """Whole variables and selections."""
    path = MADE / f"{kind}.nc"
    own, scipy, peer = ncc.open(path)["v"], netcdf_file(str(path), mmap=True), netCDF4.Dataset(path)
    peer.set_auto_maskandscale(False)
    v, w = scipy.variables["v"], peer["v"]
    part = (slice(None), slice(None, None, 2), slice(None, None, 4))
    assert np.array_equal(own.native(part), v[part]) and np.array_equal(own[3], w[3])
    return {
        f"{kind}-view": ([lambda: own[...]], 1e-3, "no copy"),
        f"{kind}-native": ([own.native, lambda: v[:].astype("=f4")], 1.1, "SciPy"),
        f"{kind}-native-4": ([own.native, lambda: w[...]], 0, "netCDF4"),
        f"{kind}-part": ([lambda: own.native(part), lambda: v[part].astype("=f4")], 1.2, "SciPy"),
    }


def header_rows() -> dict[str, tuple[list[Run], float, str]]:
    """A header of 20 MiB."""
    path = str(MADE / "header.nc")
    return {"header": ([lambda: ncc.open(path).close(), lambda: netCDF4.Dataset(path).close()], 0.1, NETCDF4)}


def many_rows(names: list[str]) -> dict[str, tuple[list[Run], float, str]]:
    """10,000 files: small ones, and ones with headers of the usual length; by one process and by Dask."""
    kinds: dict[str, Callable[[Path], list[str]]] = {"many": make_many, "usual": make_usual}
    rows: dict[str, tuple[list[Run], float, str]] = {}
    client = None
    for kind, made in kinds.items():
        if names and not {kind, f"{kind}-dask"} & set(names):
            continue
        paths = made(MADE / kind)
        rows[kind] = ([lambda paths=paths: list(ncc.archive(paths))], 1.5 if kind == "many" else 0, "10,000 files")
        if names and f"{kind}-dask" not in names:
            continue
        client = client or started()
        if client:
            share = paths[: len(paths) // WORKERS]
            runs = [lambda paths=paths: list(ncc.archive(paths, client)), lambda share=share: list(ncc.archive(share))]
            rows[f"{kind}-dask"] = (runs, 1.3, f"a share of 1 in {WORKERS}, here")
    return rows


def started() -> Any:
    """A client with workers; None where there is no Dask."""
    try:
        from dask.distributed import Client
    except ImportError:
        print("Dask isn't run: there is no distributed")
        return None
    return Client(n_workers=WORKERS, threads_per_worker=1, dashboard_address=None)


def show(name: str, row: tuple[list[Run], float, str], turns: int) -> None:
    """One line."""
    runs, aim, words = row
    seconds = least(runs, turns)
    aimed = f"aim {aim:g}" if aim else ""
    ratio = f"{seconds[0] / seconds[1]:8.3f}" if len(seconds) > 1 else " " * 8
    peer = f"{seconds[1]:10.6f}" if len(seconds) > 1 else " " * 10
    print(f"{name:16} {seconds[0]:10.6f} {peer} {ratio}  {aimed:10} {words}", flush=True)


def main() -> None:
    parser = argparse.ArgumentParser(description=__doc__)
    parser.add_argument("name", nargs="*", help="the rows; all if none is given")
    parser.add_argument("--mib", type=int, default=512)
    parser.add_argument("--turns", type=int, default=7)
    words = parser.parse_args()
    MADE.mkdir(parents=True, exist_ok=True)
    for kind in ("fixed", "records"):
        path = MADE / f"{kind}.nc"
        if not path.exists() or path.stat().st_size < words.mib << 20:
            make_grid(path, words.mib, kind == "records")
    if not (MADE / "header.nc").exists():
        make_header(MADE / "header.nc")
    print(f"ncc of {ncc.commit()}; least of {words.turns} turns; seconds: ncc, peer, ratio", os.uname().machine)
    rows = {**small_rows(), **grid_rows("fixed"), **grid_rows("records"), **header_rows()}
    rows.update(many_rows(words.name))
    for name, row in rows.items():
        if not words.name or name in words.name:
            show(name, row, words.turns)


if __name__ == "__main__":
    main()
