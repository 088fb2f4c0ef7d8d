"""What is raised: each fault by its name, with the offset that shows it."""

from __future__ import annotations

from collections.abc import Iterator
from contextlib import contextmanager


class NccError(Exception):
    """Anything that this package raises of its own. `kind` is its name; `offset` is where, or None.

    `path` is the path or URL of the file that was given, or None where it wasn't given by one.
    """

    kind: str = "NccError"
    offset: int | None = None
    path: str | None = None


class OfFile(NccError):
    """What is said of a file: its path, where there is one, comes before the words."""

    @property
    def said(self) -> str:
        """The words without the path."""
        return " ".join(map(str, self.args))

    def __str__(self) -> str:
        return self.said if self.path is None else f"{self.path}: {self.said}"


def name_file(error: OSError, path: str | None) -> None:
    """The error has the name of its file, if it has none yet."""
    if error.filename is None and (error.errno is not None or isinstance(error, OfFile)):
        error.filename = path


@contextmanager
def told_of(path: str | None) -> Iterator[None]:
    """What is raised tells of which file it is: by `path`, and an OSError with a number by `filename`."""
    try:
        yield
    except (OfFile, OSError) as error:
        if isinstance(error, OfFile):
            error.path = error.path or path
        if isinstance(error, OSError):
            name_file(error, path)
        raise


class Closed(NccError, ValueError):
    """The dataset was closed."""

    kind = "Closed"


class Changed(OfFile, OSError):
    """The file isn't what it was: it ends before its length, or has another header than it had."""

    kind = "Changed"


class OutOfMemory(NccError, MemoryError):
    """A request for memory was refused inside the library."""

    kind = "OutOfMemory"


class Misused(NccError):
    """The library was given arguments that can't be. This is a defect of the package, or the file changed."""

    kind = "Misused"


class SelectionError(NccError, IndexError):
    """An index that isn't basic indexing, or isn't inside the shape."""

    kind = "SelectionError"


class Refused(SelectionError):
    """The library refused a selection. `kind` says why; `offset` is the number of the dimension."""

    def __init__(self, kind: str, offset: int) -> None:
        super().__init__(f"{kind} along dimension {offset}")
        self.kind, self.offset = kind, offset

    def __reduce__(self) -> tuple[type[Refused], tuple[str, int | None]]:
        return type(self), (self.kind, self.offset)


class Unwritable(OfFile, ValueError):
    """A file that was to be written, or one more record, is refused. `kind` is the name of the refusal.

    Nothing was written of what is refused. (Of several records those before it stay.)
    """

    words: str = ""
    """What the refusal says, in a sentence."""
    item: str | None
    """The dimension, attribute or variable that is refused, where it is one."""

    def __init__(self, item: str | None = None) -> None:
        super().__init__(": ".join(filter(None, (f"refused {self.kind}", item, self.words))))
        self.item = item

    def __init_subclass__(cls) -> None:
        cls.kind = cls.__name__.removeprefix("Refused")

    def __reduce__(self) -> tuple[type[Unwritable], tuple[str | None], dict[str, str | None]]:
        return type(self), (self.item,), {"path": self.path}


class BadName(Unwritable):
    """A name breaks the rule for names, or has more than 256 bytes."""

    words = "a name breaks the rule for names, or has more than 256 bytes"


class DuplicateName(Unwritable):
    """A name occurs twice in its list."""

    words = "a name occurs twice in its list"


class RefusedTwoRecordDims(Unwritable):
    """There are two record dimensions. (TwoRecordDims is the fault of a file.)"""

    words = "there are two record dimensions"


class RefusedBadDimId(Unwritable):
    """A variable has a dimension that doesn't exist. (BadDimId is the fault of a file.)"""

    words = "a variable has a dimension that doesn't exist"


class RefusedRecordDimNotFirst(Unwritable):
    """A variable has the record dimension in a place other than the first. (RecordDimNotFirst is a file's fault.)"""

    words = "a variable has the record dimension in a place other than the first"


class TypeForVersion(Unwritable):
    """The version doesn't have the type."""

    words = "the version doesn't have the type: only CDF-5 has ubyte, ushort, uint, int64 and uint64"


class CountForVersion(Unwritable):
    """A length, or a number of items, values or records, is more than the version tells."""

    words = "a length, or a number of items, values or records, is more than the version tells"


class OffsetForVersion(Unwritable):
    """A variable begins past what the version tells."""

    words = "a variable begins past what the version tells"


class SizeForVersion(Unwritable):
    """A size is more than the version tells, or the file would be longer than 2^63 - 1 bytes."""

    words = "a size is more than the version tells, or the file would be longer than 2^63 - 1 bytes"


class NoRecordVariable(Unwritable):
    """No variable has the record dimension, so there is nothing to add to."""

    words = "no variable has the record dimension"


class NotPacked(Unwritable):
    """The record variables don't stand one after another, or bytes before the record are missing."""

    words = "the record variables don't stand one after another, or bytes before the record are missing"


class Streaming(Unwritable):
    """The file is still being written: its number of records is indeterminate."""

    words = "the number of records is indeterminate: the file is still being written"


class CountFull(Unwritable):
    """The version can't count one more record, or the file would be longer than 2^63 - 1 bytes."""

    words = "the version can't count one more record, or the file would be longer than 2^63 - 1 bytes"


UNWRITABLE: dict[str, type[Unwritable]] = {cls.kind: cls for cls in Unwritable.__subclasses__()}
"""The class of each refusal by the name that `ncc` prints."""


class Fault(OfFile, ValueError):
    """A file doesn't pass. `kind` is the name of its first fault, `offset` the field that shows it, in bytes from 0.

    Its text is the line of `ncc check`, after the path of the file where there is one.
    """

    words: str = ""
    """What the fault says, in a sentence."""

    def __init__(self, offset: int) -> None:
        super().__init__(f"fault {self.kind} at {offset}")
        self.offset = offset

    def __init_subclass__(cls) -> None:
        cls.kind = cls.__name__

    def __reduce__(self) -> tuple[type[Fault], tuple[int | None], dict[str, str | None]]:
        return type(self), (self.offset,), {"path": self.path}


class BadMagic(Fault):
    """The file doesn't begin with the letters CDF."""

    words = "The file doesn't begin with the letters CDF: it is another kind of file, or its start is damaged."


class BadVersion(Fault):
    """The byte after the letters isn't 1, 2 or 5."""

    words = "The byte after the letters isn't 1, 2 or 5."


class NegativeCount(Fault):
    """A number of items, or in CDF-5 a length, is negative."""

    words = "A number of items, or in CDF-5 a length, has its top bit set, so it is negative."


class BadTag(Fault):
    """A list begins with a number that isn't its own."""

    words = "A list of dimensions, attributes or variables begins with a number that isn't its own."


class BadType(Fault):
    """The version has no type with this code."""

    words = "The version has no type with this code; only CDF-5 has ubyte to uint64."


class TwoRecordDims(Fault):
    """A second dimension has length 0, and so would be unlimited too."""

    words = "A second dimension has length 0, and so would be unlimited too."


class BadDimId(Fault):
    """A variable names a dimension that doesn't exist."""

    words = "A variable names a dimension that doesn't exist."


class RecordDimNotFirst(Fault):
    """A variable has the unlimited dimension in a place other than the first."""

    words = "A variable has the unlimited dimension in a place other than the first."


class NegativeOffset(Fault):
    """The offset at which a variable begins is negative."""

    words = "The offset at which a variable begins has its top bit set, so it is negative."


class HeaderTooLong(Fault):
    """A field ends past the longest header that is read."""

    words = "The field at the offset ends past the longest header that is read."


class EndsEarly(Fault):
    """The file ends inside its header."""

    words = "The file ends inside its header: it was cut short, or is empty."


class TooLarge(Fault):
    """A variable or a record has more than 2^63 - 4 bytes."""

    words = "A variable, or a record up to and including the variable, has more than 2^63 - 4 bytes."


class InHeader(Fault):
    """A variable begins inside the header."""

    words = "A variable begins inside the header."


class Overlap(Fault):
    """Two variables share a byte."""

    words = "Two variables share a byte, so a value of one is also a value of the other."


class RecordWindow(Fault):
    """A record variable doesn't end before the next record begins."""

    words = "A record variable doesn't end before the next record begins, so records share bytes."


class FixedAfterRecords(Fault):
    """A fixed variable ends after the records begin."""

    words = "A fixed variable ends after the records begin, so records would grow into it."


class Truncated(Fault):
    """The file ends before the last value that its header promises."""

    words = "The file ends before the last value that its header promises: it was cut short."


BY_NAME: dict[str, type[Fault]] = {cls.__name__: cls for cls in Fault.__subclasses__()}
"""The class of each fault by the name that `ncc check` prints."""
