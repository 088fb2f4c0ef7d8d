#!/usr/bin/env python3
"""Compares what `check` says of headers with what a plain reader of the grammar says: headers.py NCC.

Eight small files are taken. Each byte of their headers is set to some forty other values, and each file is checked
under each limit up to one past its header. The first fault must be the one that the reader finds, or else the version,
the numbers and, of one file, the notes must be right. The layout isn't judged by the reader. The last line is
`N passed, M failed`.
"""
import os, subprocess, sys, tempfile

LIMIT = 67108864
OF_THE_LAYOUT = ("TooLarge", "InHeader", "Overlap", "RecordWindow", "FixedAfterRecords", "Truncated")
SIZES = [0, 1, 1, 2, 4, 4, 8, 1, 2, 4, 8, 8]
VALUES = [*range(16), 0x1F, 0x20, 0x2F, 0x30, 0x39, 0x3A, 0x40, 0x41, 0x5A, 0x5F, 0x60, 0x61, 0x7A, 0x7E, 0x7F, 0x80,
          0x81, 0xC2, 0xFE, 0xFF]
TITLED = "43444601 0 0 0 c 1 5 7469746c 65000000 2 5 68656c6c 6f000000 0 0"
# In words of four bytes: nothing; a title; v(x) of three shorts in the three versions; v(t) of three records; two record
# variables; and attributes of all kinds of items.
FILES = (
    "43444601 0 0 0 0 0 0 0",
    TITLED,
    "43444601 0 a 1 1 78000000 3 0 0 b 1 1 76000000 1 0 0 0 3 8 50 10002 38001",
    "43444602 0 a 1 1 78000000 3 0 0 b 1 1 76000000 1 0 0 0 3 8 0 54 10002 38001",
    "43444605 0 0 a 0 1 0 1 78000000 0 3 0 0 0 b 0 1 0 1 76000000 0 1 0 0 0 0 0 3 0 8 0 80 10002 38001",
    "43444601 3 a 1 1 74000000 0 0 0 b 1 1 76000000 1 0 0 0 3 4 50 10002 30000",
    "43444601 2 a 1 1 74000000 0 0 0 b 2 1 61000000 1 0 0 0 1 4 74 1 62000000 1 0 0 0 3 4 78 5818181 78001 6818181 88001",
    "43444601 0 a 1 0 2 c 1 1 6e000000 3 0 b 2 1 73000000 0 c 2 1 75000000 4 2 ffffffff 7 1 65000000 2 0 6 8 b8"
    " 1 76000000 1 0 c 1 1 63000000 2 3 615c2000 1 4 c0 0 0 0 0",
)


class Fault(Exception):
    """A fault and the offset of its field."""


class Reader:
    """Reads the fields of a header in their order."""

    def __init__(self, data, limit):
        self.data, self.limit, self.at, self.record = data, limit, 0, None
        if self.field(3) != b"CDF":
            raise Fault("BadMagic", 0)
        self.version = self.field(1)[0]
        if self.version not in (1, 2, 5):
            raise Fault("BadVersion", 3)
        self.word = 8 if self.version == 5 else 4
        self.records = self.number(self.word)
        self.dims = self.items(10)
        for number in range(self.dims):
            self.dimension(number)
        self.attributes()
        self.variables = self.items(11)
        for _ in range(self.variables):
            self.variable()

    def field(self, size):
        at = self.at
        if at + size > self.limit:
            raise Fault("HeaderTooLong", at)
        if at + size > len(self.data):
            raise Fault("EndsEarly", at)
        self.at += size
        return self.data[at : self.at]

    def number(self, size):
        return int.from_bytes(self.field(size), "big")

    def judged(self, size, kind, is_wrong):
        at = self.at
        found = self.number(size)
        if is_wrong(found):
            raise Fault(kind, at)
        return found

    def count(self):
        return self.judged(self.word, "NegativeCount", lambda n: n >> (8 * self.word - 1))

    def padded(self, size):
        self.field(size)
        self.field(-size % 4)

    def items(self, tag):
        at = self.at
        found = self.judged(4, "BadTag", lambda n: n not in (0, tag))
        count = self.count()
        if found == 0 and count:
            raise Fault("BadTag", at)
        return count

    def dimension(self, number):
        self.padded(self.count())
        at = self.at
        length = self.judged(self.word, "NegativeCount", lambda n: self.version == 5 and n >> 63)
        if length == 0:
            if self.record is not None:
                raise Fault("TwoRecordDims", at)
            self.record = number

    def attributes(self):
        for _ in range(self.items(12)):
            self.padded(self.count())
            code = self.type()
            self.padded(SIZES[code] * self.count())

    def type(self):
        return self.judged(4, "BadType", lambda n: not 1 <= n <= (11 if self.version == 5 else 6))

    def variable(self):
        self.padded(self.count())
        for place in range(self.count()):
            at = self.at
            number = self.judged(self.word, "BadDimId", lambda n: n >= self.dims)
            if place > 0 and number == self.record:
                raise Fault("RecordDimNotFirst", at)
        self.attributes()
        self.type()
        self.number(self.word)
        size = 4 if self.version == 1 else 8
        self.judged(size, "NegativeOffset", lambda n: n >> (8 * size - 1))


def title_fits(place, byte):
    """Whether the name `title` still follows the rule for names, with this byte at this place in it."""
    if place == 0:
        return byte < 128 and (chr(byte).isalnum() or byte == 0x5F)
    return 0x20 <= byte <= 0x7E and byte != 0x2F and not (place == 4 and byte == 0x20)


def note_of_titled(at, byte):
    """The note that is due of the titled file with this byte at this offset."""
    if at == 4 and byte >= 0x80:
        return "LargeCount at 4"
    if at == 11 and byte or at == 55 and byte:
        return f"TaggedEmpty at {at - 3}"
    if at == 27 and byte != 5 or 28 <= at <= 32 and not title_fits(at - 28, byte):
        return "NameRule at 24"
    if 33 <= at <= 35 and byte or 49 <= at <= 51 and byte:
        return f"HeaderPadding at {33 if at < 36 else 49}"
    return None


def is_right(lines, data, limit, notes=None):
    """Whether these are the lines that are due; the notes are compared if they are given."""
    try:
        found = Reader(data, limit)
    except Fault as fault:
        return lines == ["fault %s at %d" % fault.args]
    words = lines[0].split()
    if words[0] == "fault":
        return words[1] in OF_THE_LAYOUT and len(lines) == 1
    due = ["ok", f"CDF-{found.version}", "records", str(found.records), "variables", str(found.variables)]
    if found.records == (1 << (8 * found.word)) - 1:
        due[3] = words[3]
    return words == due and (notes is None or lines[1:] == [f"note {note}" for note in notes])


def changes(words):
    """The bytes of a file, each with one byte of its header changed, and the byte's offset and value."""
    data = b"".join(bytes.fromhex(word.zfill(8)) for word in words.split())
    for at in range(Reader(data, LIMIT).at):
        old = data[at]
        for new in sorted({*VALUES, old ^ 1, old ^ 0x80, (old + 1) % 256, (old - 1) % 256} - {old}):
            yield at, new, data[:at] + bytes([new]) + data[at + 1 :]


def changed(ncc, words, folder):
    """Which of the changed files are told right."""
    files = list(changes(words))
    for number, (_, _, data) in enumerate(files):
        with open(os.path.join(folder, str(number)), "wb") as out:
            out.write(data)
    with open(os.path.join(folder, "names"), "wb") as out:
        out.write(b"".join(b"%d\0" % number for number in range(len(files))))
    run = subprocess.run([ncc, "check", "--files-from0", "names"], cwd=folder, capture_output=True, text=True)
    told = [[] for _ in files]
    for line in run.stdout.splitlines():
        number, text = line.split(": ", 1)
        told[int(number)].append(text)
    for lines, (at, new, data) in zip(told, files):
        notes = None
        if words == TITLED:
            notes = list(filter(None, [note_of_titled(at, new)]))
        yield bool(lines) and is_right(lines, data, LIMIT, notes), f"byte {at} is {new} in {words}: {lines}"


def limited(ncc, words, folder):
    """Whether the file is told right under each limit."""
    data = b"".join(bytes.fromhex(word.zfill(8)) for word in words.split())
    path = os.path.join(folder, "whole")
    with open(path, "wb") as out:
        out.write(data)
    for limit in range(Reader(data, LIMIT).at + 2):
        run = subprocess.run([ncc, "check", "--max-header", str(limit), path], capture_output=True, text=True)
        lines = run.stdout.splitlines()
        yield bool(lines) and is_right(lines, data, limit), f"limit {limit} of {words}: {lines}"


def main(ncc):
    ncc = os.path.abspath(ncc)
    passed, failed = 0, 0
    for words in FILES:
        with tempfile.TemporaryDirectory() as folder:
            for compare in (changed, limited):
                for right, text in compare(ncc, words, folder):
                    passed, failed = passed + right, failed + (not right)
                    if not right:
                        print("FAILED", text)
    print(f"{passed} passed, {failed} failed")
    return int(failed > 0 or passed == 0)


if __name__ == "__main__":
    sys.exit(main(*sys.argv[1:]))
