"""Forked and spawned processes, threads, and pickling."""

from __future__ import annotations

import io
import os
import pickle
import subprocess
import sys
from concurrent.futures import ThreadPoolExecutor
from multiprocessing import get_context
from pathlib import Path

import pytest
from conftest import ALL, EXAMPLES, expected

import ncc
from ncc import errors
from ncc.archiving import check_one

FORKING = """
import os, sys, ncc
path, threads = sys.argv[1], len(os.listdir("/proc/self/task"))
before = str(ncc.check(path))
child = os.fork()
if child == 0:
    same = str(ncc.check(path)) == before and ncc.open(path)["station"][...].tobytes() == b"abc"
    os._exit(0 if same else 1)
print(threads, os.waitstatus_to_exitcode(os.waitpid(child, 0)[1]))
"""


def test_forked_child_of_a_process_with_one_thread():
    one = {**os.environ, "OPENBLAS_NUM_THREADS": "1", "OMP_NUM_THREADS": "1", "MKL_NUM_THREADS": "1"}
    words = [sys.executable, "-c", FORKING, str(EXAMPLES / "ocean.nc")]
    done = subprocess.run(words, env=one, capture_output=True, text=True, timeout=30)
    assert done.stdout == "1 0\n", done.stderr


def test_spawned_processes():
    with get_context("spawn").Pool(1) as pool:
        rows = pool.map(check_one, [str(path) for path in ALL])
    assert [row.words for row in rows] == [expected(path).split("\n")[0] for path in ALL]


def test_threads():
    wanted = [expected(path) for path in ALL]
    with ThreadPoolExecutor(4) as pool:
        for _ in range(3):
            assert [str(it) for it in pool.map(ncc.check, ALL)] == wanted
    with ncc.open(io.BytesIO((EXAMPLES / "ocean.nc").read_bytes())) as data, ThreadPoolExecutor(4) as pool:
        variable = data["temperature"]
        rows = list(pool.map(lambda k: variable[k % 2, 0].tolist(), range(200)))
    assert rows == [[1201, 1188, 1175], [1204, 1190, -32768]] * 100


@pytest.mark.parametrize("kind", ["path", "bytes", "bytesio"])
def test_pickled(kind: str):
    path = EXAMPLES / "ocean.nc"
    where = {"path": path, "bytes": path.read_bytes(), "bytesio": io.BytesIO(path.read_bytes())}[kind]
    data = ncc.open(where)
    again = pickle.loads(pickle.dumps(data))
    assert dict(again.dims) == dict(data.dims)
    variable = pickle.loads(pickle.dumps(data["temperature"]))
    assert variable[1, 0].tolist() == [1204, 1190, -32768] and variable.attrs["_FillValue"] == -32768


def test_pickled_from_another_folder(tmp_path: Path, monkeypatch: pytest.MonkeyPatch):
    monkeypatch.chdir(EXAMPLES)
    kept = pickle.dumps(ncc.open("ocean.nc"))
    monkeypatch.chdir(tmp_path)
    assert pickle.loads(kept).records == 2


def test_file_that_changed_since_it_was_pickled(tmp_path: Path):
    path = tmp_path / "changes.nc"
    path.write_bytes((EXAMPLES / "ocean.nc").read_bytes())
    kept = pickle.dumps(ncc.open(path)["time"])
    path.write_bytes((EXAMPLES / "kinds_1.nc").read_bytes())
    with pytest.raises(errors.Changed):
        pickle.loads(kept)


def test_what_cannot_be_pickled():
    with open(EXAMPLES / "ocean.nc", "rb") as file, pytest.raises(TypeError):
        pickle.dumps(ncc.open(file))


def test_faults_are_pickled():
    for fault in errors.BY_NAME.values():
        again = pickle.loads(pickle.dumps(fault(12)))
        assert (type(again), again.offset, str(again)) == (fault, 12, f"fault {fault.__name__} at 12")
    refused = pickle.loads(pickle.dumps(errors.Refused("Outside", 1)))
    assert (refused.kind, refused.offset) == ("Outside", 1)
