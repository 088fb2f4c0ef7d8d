"""`python -m ncc check FILE...` and `python -m ncc archive ROOT`."""

from __future__ import annotations

import argparse
import os
import sys
from collections.abc import Iterable, Iterator

from ._library import LIMIT
from ._page import page
from ._sources import require_limit
from .archiving import Row, archive, reason, walk
from .checking import check


def _print(line: str) -> None:
    sys.stdout.buffer.write(os.fsencode(line) + b"\n")


def _tell(lines: str) -> None:
    """Lines on standard error, after those that were printed before."""
    sys.stdout.flush()
    sys.stderr.buffer.write(os.fsencode(lines + "\n"))
    sys.stderr.flush()


def _failed(path: str, before: str, error: Exception) -> int:
    words = "error memory" if isinstance(error, MemoryError) else "error device"
    _tell(f"{before}{words}\nncc: {path}: {reason(error)}")
    return 3


def _check(paths: list[str], limit: int) -> int:
    """The lines of each file, as `ncc check` prints them."""
    worst = 0
    for path in paths:
        before = f"{path}: " if len(paths) > 1 else ""
        try:
            verdict = check(path, limit)
        except (OSError, ValueError, MemoryError) as error:
            worst = _failed(path, before, error)
            continue
        worst = max(worst, 0 if verdict.ok else 1)
        for line in str(verdict).splitlines():
            _print(before + line)
    return worst


def _printed(rows: Iterable[Row], verbose: bool) -> Iterator[Row]:
    for row in rows:
        _print(f"{row.status}\t{row.verdict}\t{row.path}")
        if verbose and row.status == 3:
            _tell(f"ncc: {row.path}: {row.words}")
        yield row


def _worst(rows: Iterable[Row], words: argparse.Namespace) -> int:
    """The worst status; of no rows it is 2, and that is said."""
    worst = max((row.status for row in rows), default=None)
    if worst is None:
        _tell(f"ncc: {words.root}: no file has a name that fits {words.match}")
        return 2
    return worst


def _archive(words: argparse.Namespace) -> int:
    paths = walk(words.root, words.match)
    rows = _printed(archive(paths, jobs=words.jobs, max_header=words.max_header), words.verbose)
    if words.html is None:
        return _worst(rows, words)
    # (opened first: a page that can't be written is no reason to check a whole tree)
    with open(words.html, "w", encoding="utf-8") as file:
        kept = list(rows)
        file.write(page(words.root, kept, words.max_header))
    return _worst(kept, words)


def _limit(word: str) -> int:
    """A number of bytes that the library can be given."""
    limit = int(word)
    require_limit(limit)
    return limit


def _parser() -> argparse.ArgumentParser:
    parser = argparse.ArgumentParser("python -m ncc", description="Checks netCDF classic files.")
    commands = parser.add_subparsers(dest="command", required=True)
    one = commands.add_parser("check", help="print the lines of `ncc check` for each file")
    one.add_argument("file", nargs="+")
    tree = commands.add_parser("archive", help="print STATUS, VERDICT and PATH for each file of a tree")
    tree.add_argument("root", help="a folder, or one file")
    tree.add_argument("--html", metavar="PAGE", help="write a page about the files, too")
    tree.add_argument("--match", metavar="PATTERN", default="*.nc", help="the names of the files (%(default)s)")
    tree.add_argument("--verbose", action="store_true", help="say on standard error why a file can't be read")
    tree.add_argument("--jobs", type=int, default=1, help="how many processes check (%(default)s)")
    for command in (one, tree):
        words = "the longest header that is read, in bytes (%(default)s)"
        command.add_argument("--max-header", metavar="N", type=_limit, default=LIMIT, help=words)
    return parser


def main(arguments: list[str] | None = None) -> int:
    """Runs a command; returns its status: the worst of the files, 0, 1 or 3; or 2 if an archive has no file."""
    words = _parser().parse_args(arguments)
    try:
        status = _check(words.file, words.max_header) if words.command == "check" else _archive(words)
        sys.stdout.flush()
        return status
    except BrokenPipeError:
        # (the rest of the lines goes nowhere)
        os.dup2(os.open(os.devnull, os.O_WRONLY), sys.stdout.fileno())
    except OSError as error:
        print(f"ncc: {error}", file=sys.stderr)
    return 3


if __name__ == "__main__":
    sys.exit(main())
