#!/usr/bin/env python3
"""Compares what `csv` prints of selections with the elements at their places by hand: selections.py NCC [COUNT].

COUNT files (500 if it is left out) are made: of ranks 0 to 5, of all types, in the three versions, of fixed variables
and of records, alone or beside a variable of bytes. Of each one a selection that fits is printed, and of one variable
of each type runs of 1 to 20 rows, which are laid out together. The choice is the same in each run. The last line is
`N passed, M failed`.
"""
import itertools, math, os, random, subprocess, sys, tempfile

FORMS = {1: ("b", 1), 2: ("B", 1), 3: ("h", 2), 4: ("i", 4), 5: ("f", 4), 6: ("d", 8),
         7: ("B", 1), 8: ("H", 2), 9: ("I", 4), 10: ("q", 8), 11: ("Q", 8)}
SIGNED = "bhiq"


class Plan:
    """A variable v over the dimensions d0, d1 .., of which the first is that of the records if `is_record`."""

    def __init__(self, chance):
        self.version = chance.choice([1, 2, 5])
        self.code = chance.randint(1, 11 if self.version == 5 else 6)
        self.form, self.size = FORMS[self.code]
        self.is_record = chance.random() < 0.5
        self.shape = [chance.randint(1, 5) for _ in range(chance.randint(1 if self.is_record else 0, 5))]
        if self.is_record:
            self.shape[0] -= 1
        if chance.random() < 0.05 and self.shape:
            self.shape[-1] = chance.randint(1000, 30000) // math.prod(max(1, length) for length in self.shape[:-1])
        self.shares = self.is_record and chance.random() < 0.5
        self.slab = self.size * math.prod(self.shape[self.is_record :])
        self.data = chance.randbytes(self.length())

    def length(self):
        """How many bytes come after the header."""
        if not self.is_record:
            return self.slab
        return self.record_size() * self.shape[0]

    def record_size(self):
        """A lone record variable isn't padded; the other one has a byte in four."""
        return self.slab + -self.slab % 4 + 4 if self.shares else self.slab

    def header(self):
        word = lambda n: n.to_bytes(8 if self.version == 5 else 4, "big")
        four = lambda n: n.to_bytes(4, "big")
        name = lambda text: word(len(text)) + text.encode() + bytes(-len(text) % 4)
        records = self.shape[0] if self.is_record else 0
        lengths = [0 if self.is_record and number == 0 else length for number, length in enumerate(self.shape)]
        dims = b"".join(name(f"d{number}") + word(length) for number, length in enumerate(lengths))
        tag = four(10 if lengths else 0)

        def variable(title, ids, code, slab, begin):
            place = begin.to_bytes(4 if self.version == 1 else 8, "big")
            no_attributes = four(0) + word(0)
            size = word(slab + -slab % 4)
            return name(title) + word(len(ids)) + b"".join(map(word, ids)) + no_attributes + four(code) + size + place

        def whole(begin):
            variables = [variable("v", range(len(lengths)), self.code, self.slab, begin)]
            if self.shares:
                variables.append(variable("b", [0], 1, 1, begin + self.slab + -self.slab % 4))
            front = b"CDF" + bytes([self.version]) + word(records) + tag + word(len(lengths)) + dims
            return front + four(0) + word(0) + four(11) + word(len(variables)) + b"".join(variables)

        return whole(len(whole(0)))

    def bytes_of(self, index):
        """The bytes of an element, by its place in the data."""
        inner = 0
        for length, number in list(zip(self.shape, index))[self.is_record :]:
            inner = inner * length + number
        place = inner * self.size + (index[0] * self.record_size() if self.is_record else 0)
        return self.data[place : place + self.size]

    def value(self, index):
        found = self.bytes_of(index)
        if self.form in "fd":
            return "0x" + found.hex()
        return str(int.from_bytes(found, "big", signed=self.form in SIGNED))


def any_axis(chance, length):
    """A start, a count and a stride that fit a length."""
    start = chance.randint(0, length) // 2
    stride = chance.randint(1, 3)
    most = (length - start + stride - 1) // stride
    return start, most - chance.randint(0, most) // 2, stride


def runs(chance):
    """Plans of two rows of each type, and of each the selections of so many columns, by a stride of 1 or 2."""
    for code in FORMS:
        plan = Plan(chance)
        plan.version, plan.code, (plan.form, plan.size) = 5, code, FORMS[code]
        plan.is_record, plan.shares, plan.shape = False, False, [2, 40]
        plan.slab = plan.size * 80
        plan.data = b"".join((chance.getrandbits(64) >> chance.randrange(64)).to_bytes(8, "big")[-plan.size :] for _ in range(80))
        for count in range(1, 21):
            yield plan, [(0, 2, 1), (0, count, count % 2 + 1)]


def any_selection(chance):
    """A plan, and a selection that fits."""
    plan = Plan(chance)
    return plan, [any_axis(chance, length) for length in plan.shape]


def is_right(plan, axes, ncc, path):
    """Whether a selection of a new file is printed right, and the words that it was asked by."""
    with open(path, "wb") as out:
        out.write(plan.header() + plan.data)
    options = []
    for option, numbers in zip(("--start", "--count", "--stride"), zip(*axes)):
        options += [option, ",".join(map(str, numbers))]
    run = subprocess.run([ncc, "csv", path, "v", *options], capture_output=True, text=True)
    names = [f"d{number}" for number in range(len(plan.shape))] + ["v"]
    lines = [",".join(names)]
    for index in itertools.product(*([start + k * stride for k in range(count)] for start, count, stride in axes)):
        lines.append(",".join([*map(str, index), plan.value(index)]))
    words = f"{vars(plan) | {'data': len(plan.data)}} {' '.join(options)}: status {run.returncode} {run.stderr}"
    return run.returncode == 0 and run.stdout == "\n".join(lines) + "\n", words


def main(ncc, count=500):
    chance, passed, failed = random.Random(1), 0, 0
    with tempfile.TemporaryDirectory() as folder:
        for plan, axes in [*runs(chance), *(any_selection(chance) for _ in range(int(count)))]:
            right, words = is_right(plan, axes, os.path.abspath(ncc), os.path.join(folder, "file.nc"))
            passed, failed = passed + right, failed + (not right)
            if not right:
                print("FAILED", words)
    print(f"{passed} passed, {failed} failed")
    return int(failed > 0 or passed == 0)


if __name__ == "__main__":
    sys.exit(main(*sys.argv[1:]))
