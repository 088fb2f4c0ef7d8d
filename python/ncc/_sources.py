"""Where the bytes of a file are: on this machine, in memory, behind an object with `read` and `seek`, or at a URL."""

from __future__ import annotations

import errno
import mmap
import os
import stat
import threading
from collections.abc import Callable
from typing import Any, TypeVar, Union

import numpy as np

from . import _calls, _library
from .errors import Changed, told_of

Where = Union[str, "os.PathLike[str]", bytes, bytearray, memoryview, np.ndarray, Any]
"""A path, a URL for fsspec, a buffer, or an object with `read` and `seek`."""

Answer = TypeVar("Answer", _library.Judged, _calls.Read)

FIRST_READ = _calls.SMALL
"""How many bytes of the front are read first."""


class Source:
    """The bytes of one file: `length` says how many they are."""

    length: int
    name: str | None = None
    """By what it can be opened again: an absolute path, or a URL."""
    given: str | None = None
    """What errors call it: the path or URL as it was given."""

    def read(self, at: int, size: int) -> bytes:
        """Exactly these bytes.

        Raises `Changed` where the file ends before them, and OSError where it can't be read, or more comes.
        """
        raise NotImplementedError

    def whole(self) -> np.ndarray | None:
        """All bytes as a read-only uint8 array without reading them, or None where that can't be."""
        return None

    def close(self) -> None:
        """Gives up the file. Arrays that were made of it stay valid."""


def _whole(pieces: list[bytes], size: int) -> bytes:
    read = pieces[0] if len(pieces) == 1 else b"".join(pieces)
    told = f"{size} bytes were asked for, and {len(read)} came"
    if len(read) < size:
        raise Changed(f"{told}: the file ends before its length")
    if len(read) > size:
        raise OSError(errno.EPROTO, f"{told}, which is more: the server doesn't answer ranges")
    return read


class LocalFile(Source):
    """A regular file on this machine. It is mapped when `whole` is first asked for."""

    FLAGS = os.O_RDONLY
    _fd = -1

    def __init__(self, path: str | os.PathLike[str]) -> None:
        self.name, self.given = os.path.abspath(path), os.fspath(path)
        # A pipe would keep a reader waiting for its writer.
        self._fd = os.open(path, self.FLAGS | os.O_CLOEXEC | os.O_NONBLOCK)
        self._map: np.ndarray | None = None
        status = os.fstat(self._fd)
        if not stat.S_ISREG(status.st_mode):
            self.close()
            if stat.S_ISDIR(status.st_mode):
                raise IsADirectoryError(errno.EISDIR, os.strerror(errno.EISDIR), self.name)
            raise OSError(errno.EINVAL, "is a pipe or device, not a file", self.name)
        self.length = status.st_size

    def read(self, at: int, size: int) -> bytes:
        with told_of(self.given):
            pieces = [os.pread(self._fd, size, at)]
            have = len(pieces[0])
            while have < size and pieces[-1]:
                pieces.append(os.pread(self._fd, size - have, at + have))
                have += len(pieces[-1])
            return _whole(pieces, size)

    def whole(self) -> np.ndarray:
        if self._map is None:
            if self.length == 0:
                self._map = np.zeros(0, np.uint8)
            else:
                self._map = np.frombuffer(self._mapped(), np.uint8)
        return self._map

    def _mapped(self) -> mmap.mmap:
        with told_of(self.given):
            if os.fstat(self._fd).st_size < self.length:
                raise Changed("the file ends before its length")
            return mmap.mmap(self._fd, self.length, access=mmap.ACCESS_READ)

    def close(self) -> None:
        if self._fd >= 0:
            os.close(self._fd)
        self._fd, self._map = -1, None

    def __del__(self) -> None:
        self.close()


class Buffer(Source):
    """A file in memory: any object with C-contiguous bytes."""

    def __init__(self, data: Any) -> None:
        view = memoryview(data)
        if not view.c_contiguous:
            raise ValueError("the buffer isn't C-contiguous")
        self.length = view.nbytes
        # (numpy makes no array of an empty buffer)
        self._bytes = np.frombuffer(view, np.uint8) if self.length else np.zeros(0, np.uint8)
        self._bytes.flags.writeable = False

    def read(self, at: int, size: int) -> bytes:
        return _whole([self._bytes[at : at + size].tobytes()], size)

    def whole(self) -> np.ndarray:
        return self._bytes


class Reader(Source):
    """An object with `read` and `seek`, such as an open file, a BytesIO or a file of fsspec.

    Its position is moved. It isn't closed: who opened it closes it. One thread reads at a time.
    """

    def __init__(self, file: Any) -> None:
        self._file, self._lock = file, threading.Lock()
        end = file.seek(0, os.SEEK_END)
        self.length = int(file.tell() if end is None else end)

    def read(self, at: int, size: int) -> bytes:
        pieces: list[bytes] = []
        have = 0
        with self._lock:
            self._file.seek(at)
            while have < size or not pieces:
                piece = self._file.read(size - have)
                if isinstance(piece, str):
                    raise TypeError("the file is open as text: open it with mode 'rb'")
                pieces.append(bytes(piece or b""))
                have += len(pieces[-1])
                if not pieces[-1]:
                    break
        return _whole(pieces, size)


class Remote(Source):
    """A file of an fsspec file system. Each read asks for just its own bytes; no cache of the file is used."""

    name: str

    def __init__(self, system: Any, path: str, name: str) -> None:
        self._system, self._path, self.name, self.given = system, path, name, name
        length = system.size(path)
        if length is None:
            raise OSError(errno.ESPIPE, "the length isn't known", name)
        self.length = int(length)

    def __reduce__(self) -> tuple[type[Remote], tuple[Any, str, str]]:
        # (the length is asked for anew)
        return Remote, (self._system, self._path, self.name)

    def read(self, at: int, size: int) -> bytes:
        with told_of(self.given):
            return _whole([self._system.cat_file(self._path, start=at, end=at + size) if size else b""], size)


def _from_url(url: str) -> Source:
    try:
        from fsspec.core import url_to_fs
    except ImportError as error:
        raise ImportError(f"the package fsspec is needed to read {url}") from error
    system, path = url_to_fs(url)
    return Remote(system, path, url)


def source_of(where: Where) -> Source:
    """The source of a path, a URL, a buffer, or an object with `read` and `seek`. TypeError of anything else."""
    if isinstance(where, Source):
        return where
    if isinstance(where, str):
        return _from_url(where) if "://" in where else LocalFile(where)
    if isinstance(where, (bytes, bytearray, memoryview, np.ndarray, mmap.mmap)):
        return Buffer(where)
    if hasattr(where, "read") and hasattr(where, "seek"):
        return Reader(where)
    if hasattr(where, "fs") and hasattr(where, "path") and not getattr(where, "compression", None):
        return Remote(where.fs, where.path, str(getattr(where, "full_name", where.path)))
    if isinstance(where, os.PathLike):
        return LocalFile(where)
    try:
        return Buffer(where)
    except TypeError:
        raise TypeError(f"no path, buffer or file: {type(where).__name__}") from None


def require_limit(limit: int) -> None:
    """Raises ValueError for a limit that can't be handed to the library."""
    if not 0 <= limit < 1 << 64:
        raise ValueError("max_header has to be at least 0 and below 2**64")


def _as_array(read: bytes) -> np.ndarray:
    return np.frombuffer(read, np.uint8) if read else np.zeros(0, np.uint8)


def _first(source: Source, limit: int) -> np.ndarray:
    size = min(source.length, limit, FIRST_READ)
    if isinstance(source, Buffer):
        return source.whole()[:size]
    return _as_array(source.read(0, size))


def _longer(source: Source, front: np.ndarray, limit: int) -> np.ndarray:
    whole = source.whole()
    if whole is not None:
        return whole
    have = len(front)
    want = min(source.length, limit, 2 * have)
    return np.concatenate([front, _as_array(source.read(have, want - have))])


def _told(source: Source, limit: int, call: Callable[[np.ndarray, int, int], Answer]) -> tuple[np.ndarray, Answer]:
    """The front with which a call asks for no more, and what it says."""
    require_limit(limit)
    front = _first(source, limit)
    answer = call(front, source.length, limit)
    while answer.state == _library.MORE:
        front = _longer(source, front, limit)
        answer = call(front, source.length, limit)
    return front, answer


def judged_front(source: Source, limit: int) -> tuple[np.ndarray, _library.Judged]:
    """As much of the front of a file as a verdict takes, and the verdict.

    Of a file on this machine, or in memory, the first 64 KiB are looked at, and if its header is longer the whole file,
    which is mapped. Of any other the first read has 64 KiB, and each later one doubles what has been read. So at most
    64 KiB or less than twice the header is read, whichever is more, in at most 1 + log2(header / 64 KiB) reads, rounded
    up. No read goes past the limit or the end of the file.
    """
    return _told(source, limit, _calls.judge)


def read_front(source: Source, limit: int) -> tuple[np.ndarray, _calls.Read]:
    """As much of the front as `judged_front` gives, and the verdict with the rows of the header."""
    return _told(source, limit, _calls.read)
