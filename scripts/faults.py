#!/usr/bin/env python3
"""Compares what `check --json` says of faults of headers with a plain walk over their fields: faults.py NCC [COUNT].

COUNT files (2,000 if it is left out) are made of those in examples/: some bytes are changed, some files are cut, and of
some the limit is low. Each fault of a header must have the part and the number that the walk finds at its offset. The
choice is the same in each run. The last line is `N passed, M failed`.
"""
import glob, json, os, random, subprocess, sys, tempfile

SIZES = [0, 1, 1, 2, 4, 4, 8, 1, 2, 4, 8, 8]
LIMIT = 67108864
LETTERS = "the letters and the version"
OF_THE_LAYOUT = ("TooLarge", "InHeader", "Overlap", "RecordWindow", "FixedAfterRecords", "Truncated")


class Walk:
    """The fields of a header, as far as it goes: `parts` has the size of each by its offset, and its part in words."""

    def __init__(self, data):
        self.data, self.at, self.parts = data, 0, {}
        try:
            self.header()
        except EOFError:
            pass

    def take(self, size, part):
        """The bytes of a field; a field without bytes has no place."""
        if size:
            self.parts[self.at] = size, part
        if self.at + size > len(self.data):
            raise EOFError
        self.at += size
        return self.data[self.at - size : self.at]

    def number(self, size, part):
        return int.from_bytes(self.take(size, part), "big")

    def count(self, part):
        """A number of items or bytes. Where its top bit is set nothing follows."""
        found = self.number(self.word, part)
        if found >> (8 * self.word - 1):
            raise EOFError
        return found

    def padded(self, size, part):
        taken = self.take(size, part)
        self.take(-size % 4, part)
        return taken

    def items(self, part):
        """The numbers of the items of a list."""
        self.number(4, part)
        return range(self.count(part))

    def name(self, kind, number, owner=""):
        """An item in words, by its name, whose bytes are the first of it."""
        part = f"the name of {kind} number {number}{owner}"
        own = self.padded(self.count(part), part)
        return f"{kind} {''.join(chr(b) if 32 < b < 127 and b != 92 else f'{chr(92)}x{b:02x}' for b in own)}{owner}"

    def type(self, part):
        code = self.number(4, part)
        if not 1 <= code <= (11 if self.version == 5 else 6):
            raise EOFError
        return SIZES[code]

    def header(self):
        if self.take(3, LETTERS) != b"CDF":
            return
        self.version = self.number(1, LETTERS)
        self.word = 8 if self.version == 5 else 4
        if self.version not in (1, 2, 5):
            return
        self.number(self.word, "the number of records")
        for number in self.items("the list of dimensions"):
            self.number(self.word, self.name("dimension", number))
        self.attributes("the list of global attributes", "global attribute")
        for number in self.items("the list of variables"):
            self.variable(self.name("variable", number))

    def attributes(self, head, kind, owner=""):
        for number in self.items(head):
            part = self.name(kind, number, owner)
            size = self.type(part)
            self.padded(size * self.count(part), part)

    def variable(self, part):
        for _ in range(self.count(part)):
            self.number(self.word, part)
        self.attributes(f"the list of attributes of {part}", "attribute", f" of {part}")
        self.type(part)
        self.number(self.word, part)
        self.number(4 if self.version == 1 else 8, part)


def wanted(data, limit, fault, offset):
    """The members of a fault that the walk finds."""
    size, part = Walk(data).parts.get(offset, (0, None))
    ends = {"file_length": len(data)}
    numbers = {"BadMagic": {}, "EndsEarly": ends, "HeaderTooLong": {"limit": limit, **ends}}
    value = {"value": int.from_bytes(data[offset : offset + size], "big")}
    return {"in": part, **numbers.get(fault, value)}


def make(chance, files):
    """The bytes of a file, and a limit."""
    data = bytearray(chance.choice(files))
    for _ in range(chance.choice([0, 1, 1, 1, 2])):
        new = chance.choice([0, 1, 255, 128, 10, 11, 12, chance.randrange(256)])
        data[chance.randrange(min(len(data), 400))] = new
    if chance.random() < 0.5:
        del data[chance.randrange(min(len(data), 600)) :]
    return bytes(data), chance.randrange(300) if chance.random() < 0.2 else LIMIT


def differs(ncc, path, limit):
    """What is said of a file, where the walk finds something else; nothing of files without a fault of the header."""
    run = subprocess.run([ncc, "check", "--json", "--max-header", str(limit), path], capture_output=True)
    found = json.loads(run.stdout)
    if found["verdict"] == "ok" or found["fault"] in OF_THE_LAYOUT:
        return None
    with open(path, "rb") as file:
        due = wanted(file.read(), limit, found["fault"], found["offset"])
    same = {key: found.get(key) for key in ("in", "value", "file_length", "limit") if key in found} == due
    return (not same, f"{found}, not {due}")


def main(ncc, count=2000):
    examples = os.path.join(os.path.dirname(os.path.abspath(__file__)), "../examples/*.nc")
    files = [data for path in sorted(glob.glob(examples)) if 0 < len(data := open(path, "rb").read()) < 20000]
    chance, passed, failed = random.Random(1), 0, 0
    with tempfile.TemporaryDirectory() as folder:
        for number in range(int(count)):
            data, limit = make(chance, files)
            path = os.path.join(folder, str(number))
            with open(path, "wb") as out:
                out.write(data)
            is_other, words = differs(ncc, path, limit) or (None, "")
            if is_other:
                print(f"FAILED {data.hex()}: {words}")
            passed, failed = passed + (is_other is False), failed + (is_other is True)
    print(f"{passed} passed, {failed} failed")
    return int(failed > 0 or passed == 0)


if __name__ == "__main__":
    sys.exit(main(*sys.argv[1:]))
