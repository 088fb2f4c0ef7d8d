"""Where a new file goes: a path, whose file gets its name when it is whole, or an object with `write`."""

from __future__ import annotations

import errno
import os
from collections.abc import Iterator
from contextlib import contextmanager, suppress
from typing import Any, BinaryIO, Union

import numpy as np

from .errors import Misused, name_file, told_of

To = Union[str, "os.PathLike[str]", BinaryIO, Any]
"""A path, or an object with `write` for bytes."""

PART = ".part"
LEFT_OVER = "it is left over from a writer that was stopped, and is to be removed, unless another is writing it now"
NO_LINKS = {errno.EPERM, errno.ENOTSUP, errno.EOPNOTSUPP, errno.ENOSYS}
"""What `link` says on a file system without hard links."""


class Folder:
    """The folder of a new file, and the two names that the file may have in it."""

    def __init__(self, path: str | os.PathLike[str]) -> None:
        self.path = os.fspath(path)
        folder, self.name = os.path.split(self.path)
        if not self.name:
            raise IsADirectoryError(errno.EISDIR, os.strerror(errno.EISDIR), self.path)
        self.part = self.name + PART
        self.fd = os.open(folder or ".", os.O_RDONLY | os.O_DIRECTORY | os.O_CLOEXEC)

    def require_new(self) -> None:
        """Raises FileExistsError where the name is taken."""
        with suppress(FileNotFoundError):
            os.stat(self.name, dir_fd=self.fd, follow_symlinks=False)
            raise FileExistsError(errno.EEXIST, os.strerror(errno.EEXIST), self.path)

    def open_part(self) -> BinaryIO:
        """Makes the file under its other name. Raises FileExistsError where that is taken."""
        try:
            flags = os.O_WRONLY | os.O_CREAT | os.O_EXCL | os.O_CLOEXEC
            return os.fdopen(os.open(self.part, flags, 0o666, dir_fd=self.fd), "wb")
        except FileExistsError:
            raise FileExistsError(errno.EEXIST, LEFT_OVER, self.path + PART) from None

    def _rename(self) -> None:
        os.replace(self.part, self.name, src_dir_fd=self.fd, dst_dir_fd=self.fd)

    def _claim(self) -> None:
        """An empty file holds the name until the whole one has it."""
        os.close(os.open(self.name, os.O_WRONLY | os.O_CREAT | os.O_EXCL | os.O_CLOEXEC, dir_fd=self.fd))
        try:
            self._rename()
        except BaseException:
            self.remove(self.name)
            raise

    def _link(self) -> None:
        try:
            os.link(self.part, self.name, src_dir_fd=self.fd, dst_dir_fd=self.fd)
        except OSError as error:
            if error.errno not in NO_LINKS:
                raise
            self._claim()
            return
        try:
            os.unlink(self.part, dir_fd=self.fd)
        except BaseException:
            self.remove(self.name)
            raise

    def give_name(self, replace: bool) -> None:
        """The file has its name instead of the other: if nothing has it, or, with `replace`, whatever has it."""
        if replace:
            self._rename()
        else:
            self._link()

    def remove(self, name: str) -> None:
        """Removes a name, if it is there."""
        with suppress(FileNotFoundError):
            os.unlink(name, dir_fd=self.fd)

    def settle(self, replace: bool) -> None:
        """The name is on the disk. After a failure a new file has no name."""
        try:
            os.fsync(self.fd)
        except BaseException:
            if not replace:
                self.remove(self.name)
            raise


@contextmanager
def _new_file(path: str | os.PathLike[str], replace: bool) -> Iterator[BinaryIO]:
    folder = Folder(path)
    try:
        if not replace:
            folder.require_new()
        file = folder.open_part()
        try:
            with file:
                yield file
                with told_of(folder.path):
                    file.flush()
                    os.fsync(file.fileno())
            folder.give_name(replace)
        except BaseException:
            folder.remove(folder.part)
            raise
        with told_of(folder.path):
            folder.settle(replace)
    finally:
        os.close(folder.fd)


@contextmanager
def _given(file: Any) -> Iterator[Any]:
    yield file


def opened(to: To, replace: bool) -> Any:
    """A context that gives a file to write to.

    Of a path it is a new file, `PATH.part` in the same folder. When the context ends it is synced and gets its name,
    and the folder is synced; after an exception it is removed. FileExistsError where PATH is there (but not with
    `replace`), or PATH.part. Of an object with `write` it is that object, which isn't closed. TypeError of anything
    else.
    """
    if isinstance(to, str) and "://" in to:
        raise ValueError(f"{to} is a URL: open it for writing, and give the file")
    if isinstance(to, (str, os.PathLike)):
        return _new_file(to, replace)
    if hasattr(to, "write"):
        return _given(to)
    raise TypeError(f"no path or file: {type(to).__name__}")


class Out:
    """Bytes go out one after another."""

    def __init__(self, file: Any, to: To) -> None:
        self._file, self.at = file, 0
        self._path = os.fspath(to) if isinstance(to, (str, os.PathLike)) else None

    def put(self, piece: bytes | np.ndarray) -> None:
        """All these bytes (uint8), in one call of `write` unless the file takes fewer."""
        view = memoryview(piece)
        if view.ndim != 1:
            view = view.cast("B")
        self.at += len(view)
        while len(view):
            try:
                taken = self._file.write(view)
            except OSError as error:
                name_file(error, self._path)
                raise
            # (some objects don't say how many bytes they took: then it is all)
            view = view[len(view) if taken is None else taken :]

    def require(self, place: int) -> None:
        """Raises Misused unless the next byte goes to this place."""
        if self.at != place:
            raise Misused(f"the next byte goes to {self.at}, and the plan has {place}")
