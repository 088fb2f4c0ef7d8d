"""Whether a file is sound."""

from __future__ import annotations

from dataclasses import dataclass

from . import _calls, _library
from ._library import LIMIT
from ._sources import Source, Where, judged_front, source_of


@dataclass(frozen=True)
class Verdict:
    """What `ncc check` says of a file; `str` gives its very lines, and `bool` whether it passes."""

    ok: bool
    version: int | None
    """1, 2 or 5; None if the file doesn't pass."""
    records: int | None
    """The number of records; None if the file doesn't pass."""
    variables: int | None
    """The number of variables; None if the file doesn't pass."""
    notes: tuple[tuple[str, int], ...]
    """The name and the offset of each note, in order of offset."""
    fault: str | None
    """The name of the first fault; None if the file passes."""
    offset: int | None
    """The field that shows the fault, in bytes from 0; None if the file passes."""

    def __bool__(self) -> bool:
        """Whether the file passes: `ok`."""
        return self.ok

    @property
    def first_line(self) -> str:
        """The line without the notes."""
        if self.ok:
            return f"ok CDF-{self.version} records {self.records} variables {self.variables}"
        return f"fault {self.fault} at {self.offset}"

    def __str__(self) -> str:
        return "\n".join([self.first_line, *(f"note {name} at {offset}" for name, offset in self.notes)])


def _verdict(source: Source, limit: int) -> Verdict:
    front, judged = judged_front(source, limit)
    if judged.state == _library.PASSES:
        notes = _calls.notes(front, source.length, limit, judged.notes) if judged.notes else ()
        return Verdict(True, judged.version, judged.records, judged.vars, notes, None, None)
    if judged.state == _library.FAULT:
        return Verdict(False, None, None, None, (), _library.FAULTS[judged.kind], judged.at)
    _calls.fail(judged)


def check(where: Where, max_header: int = LIMIT) -> Verdict:
    """Judges a file: a path, a URL for fsspec, a buffer, or an object with `read` and `seek`.

    Only the header is read, as `ncc.open` says. `max_header` is the greatest length of a header that is read; a longer
    one is the fault HeaderTooLong. A fault isn't raised: the verdict is false then. Raises OSError if the file can't be
    read, MemoryError if memory is refused, and TypeError if `where` is none of these.
    """
    source = source_of(where)
    try:
        return _verdict(source, max_header)
    finally:
        if source is not where:
            source.close()
