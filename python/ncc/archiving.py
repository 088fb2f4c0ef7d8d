"""Many files: one row for each."""

from __future__ import annotations

import fnmatch
import os
import pickle
from collections.abc import Iterable, Iterator
from concurrent.futures import ProcessPoolExecutor
from math import ceil
from multiprocessing import get_context
from typing import Any, NamedTuple, Union

from ._library import LIMIT
from ._sources import require_limit
from .checking import check
from .errors import OfFile

Path = Union[str, "os.PathLike[str]"]
MEMORY = "memory was refused"
SHARES = 4
"""How many batches there are at least for each process, if the caller doesn't say how many files one has."""
SHARES_OF_DASK = 2
"""The same for a worker of Dask. Some time goes by from one batch to the next, so there are few."""
MOST = 2500
"""How many files such a batch has at most."""
AT_ONCE = 4
"""How many batches are taken from a client at a time: of fewer workers, as many as there are workers."""


class Row(NamedTuple):
    """What is said of one file."""

    path: str
    """As it was given."""
    status: int
    """0: it passes. 1: it has a fault. 3: it can't be read, or memory is refused."""
    fault: str | None
    """The name of the first fault, if the status is 1."""
    offset: int | None
    """The field that shows the fault, in bytes from 0, if the status is 1."""
    words: str
    """The first line of `ncc check`; if the status is 3, the system's words."""

    @property
    def verdict(self) -> str:
        """The answer that `ncc check --brief` prints."""
        if self.status != 3:
            return self.words
        return "error memory" if self.words == MEMORY else "error device"


def reason(error: Exception) -> str:
    """Why a file can't be read, in the system's words where there are any."""
    if isinstance(error, MemoryError):
        return MEMORY
    words = getattr(error, "strerror", None)
    return words or f"{type(error).__name__}: {error.said if isinstance(error, OfFile) else error}"


def check_one(path: Path, max_header: int = LIMIT) -> Row:
    """The row of one file. What goes wrong with the file is its row, not an exception."""
    name = os.fspath(path)
    try:
        verdict = check(path, max_header)
    except ImportError:
        raise
    except Exception as error:
        return Row(name, 3, None, None, reason(error))
    return Row(name, 0 if verdict.ok else 1, verdict.fault, verdict.offset, verdict.first_line)


def _check_batch(names: list[str], max_header: int) -> list[Row]:
    return [check_one(name, max_header) for name in names]


def _check_packed(names: bytes, max_header: int) -> bytes:
    """What the rows of a batch have beside the path. Both are packed: Dask looks at each item of a list by itself."""
    return pickle.dumps([row[1:] for row in _check_batch(pickle.loads(names), max_header)])


def _is_url(path: str) -> bool:
    return "://" in path


def _elsewhere(name: str) -> str:
    """The same file for a worker in another folder."""
    if name.startswith("/") or _is_url(name) or not name:
        return name
    # (not os.path.abspath: after a link, `..` isn't the folder that stands before it)
    return os.path.join(os.getcwd(), name)


def _batches(paths: Iterable[Path], batch: int | None, least: int) -> list[list[str]]:
    if batch is not None and batch < 1:
        raise ValueError("batch has to be at least 1")
    names = [os.fspath(path) for path in paths]
    length = batch or max(1, min(MOST, ceil(len(names) / least)))
    return [names[low : low + length] for low in range(0, len(names), length)]


def _workers(client: Any) -> int:
    """How many files the client's workers check at a time; 1 if there are no workers yet."""
    return sum(client.nthreads().values()) or 1


def _by_client(batches: list[list[str]], client: Any, at_once: int, max_header: int) -> Iterator[Row]:
    packed = [pickle.dumps([_elsewhere(name) for name in names]) for names in batches]
    futures = client.map(_check_packed, packed, [max_header] * len(batches), pure=False)
    for low in range(0, len(batches), at_once):
        for names, answers in zip(batches[low : low + at_once], client.gather(futures[low : low + at_once])):
            yield from (Row(name, *answer) for name, answer in zip(names, pickle.loads(answers)))
        # (the workers may forget these)
        futures[low : low + at_once] = [None] * len(futures[low : low + at_once])


def _by_processes(batches: list[list[str]], jobs: int, max_header: int) -> Iterator[Row]:
    with ProcessPoolExecutor(jobs, get_context("spawn")) as pool:
        for rows in pool.map(_check_batch, batches, [max_header] * len(batches)):
            yield from rows


def archive(
    paths: Iterable[Path], client: Any = None, batch: int | None = None, jobs: int = 1, max_header: int = LIMIT
) -> Iterator[Row]:
    """A row for each file, in the order of the paths.

    `client` is a `dask.distributed.Client`: its workers check `batch` files at a time, so each of them has to have this
    package, and to see the files under the same absolute paths. Without a client the files are checked by this process
    as the rows are asked for, or, if `jobs` is above 1, by so many processes, which are started anew (not forked). If
    `batch` is None, there are two batches for each worker, or four for each process, or more, so that none has over
    2500 files. A file that can't be read is a row with status 3. Raises what the client raises if its workers fail, and
    ValueError if `batch` or `max_header` can't be.
    """
    require_limit(max_header)
    if client is not None:
        workers = _workers(client)
        batches = _batches(paths, batch, SHARES_OF_DASK * workers)
        return _by_client(batches, client, min(AT_ONCE, workers), max_header)
    if jobs > 1:
        return _by_processes(_batches(paths, batch, SHARES * jobs), jobs, max_header)
    return (check_one(path, max_header) for path in paths)


def walk(root: Path, pattern: str = "*.nc") -> Iterator[str]:
    """The paths of the files in a tree whose names fit the pattern, in order; `root` itself if it is no folder.

    A folder that can't be read is given as a path too, so that it has a row. Links to folders aren't followed.
    """
    name = os.fspath(root)
    if not os.path.isdir(name):
        yield name
        return
    failed: list[str] = []
    for folder, folders, files in os.walk(name, onerror=lambda error: failed.append(error.filename)):
        folders.sort()
        yield from failed
        failed.clear()
        yield from (os.path.join(folder, file) for file in sorted(files) if fnmatch.fnmatchcase(file, pattern))
    yield from failed
