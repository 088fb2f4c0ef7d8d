#!/usr/bin/env python3
"""Writes the files that bench/count has read: `counted.py FOLDER`. They are small, and alike each time."""

import math
import os
import struct
import sys

from headers import attribute, header, listed, name, number, shapes
from values import big_endian, of_one_variable


def pattern(index):
    """Numbers of 16 bits with a sign, of all sizes."""
    return index * 7919 % 65536 - 32768


def integers(text, count):
    """An attribute of so many integers of 32 bits."""
    return name(text) + number(4) + number(count) + b"".join(struct.pack(">i", pattern(i)) for i in range(count))


def notes():
    """Headers of global attributes alone."""
    letters = b"".join(b"%d," % (i * 7919) for i in range(300_000))
    yield "text", [attribute(b"text", letters[:1_000_000])]
    lines = b"\n".join(letters[i : i + 63] for i in range(0, 1_000_000, 63))
    yield "lines", [attribute(b"lines", lines)]
    for count, each in ((1, 16_000), (2, 12_000), (9, 5_000), (1_000, 100)):
        yield f"integers_{count}", [integers(b"list_%d" % i, count) for i in range(each)]


def grid(code, size, shape, values):
    """A file of one variable v over dimensions of these lengths, of values of so many bytes."""
    total = size * math.prod(shape)
    dimensions = [(b"dimension_%d" % i, length) for i, length in enumerate(shape)]
    return of_one_variable(0, dimensions, code, total + -total % 4, values + bytes(-total % 4))


def grids():
    """One variable each: few values along the last dimension, many dimensions, texts, and a field."""
    for width in (1, 2, 3, 17):
        count = 60_000 // width * width
        shape = (count // width, width)
        yield f"shorts_{width}", grid(3, 2, shape, big_endian("h", map(pattern, range(count))))
        yield f"floats_{width}", grid(5, 4, shape, big_endian("f", (i * 0.37 - 5e3 for i in range(count))))
    yield "front", grid(3, 2, (1,) * 40 + (20_000,), big_endian("h", map(pattern, range(20_000))))
    texts = b"".join(b"%-8d" % (i * 7919 % 1_000_000) for i in range(20_000))
    yield "texts", grid(2, 1, (20_000, 8), texts)
    lines = b"".join(b"a text of %5d words or so, with a blank between each of them and the next one" % i for i in range(6_000))
    yield "long_texts", grid(2, 1, (6_000, len(lines) // 6_000), lines)
    field = (100, 100, 100)
    yield "field", grid(3, 2, field, big_endian("h", map(pattern, range(1_000_000))))


def records(count, width):
    """31 record variables of so many floats a record, and that many records."""
    size = 4 * width
    dimensions = [name(b"time") + number(0), name(b"x") + number(width)]

    def variable(index, begin):
        start = name(b"variable_%d" % index) + number(2) + number(0) + number(1) + listed(12, [])
        return start + number(5) + number(size) + number(begin)

    length = len(header([], [variable(i, 0) for i in range(31)], dimensions))
    variables = [variable(i, length + size * i) for i in range(31)]
    head = header([], variables, dimensions)
    values = big_endian("f", (i * 0.37 for i in range(31 * count * width)))
    return head[:4] + number(count) + head[8:] + values


def files():
    for title, (head, data) in shapes(10).items():
        yield title, head + data
        if title == "small_file":
            yield from ((f"small/{i}", head + data) for i in range(1_000))
    for title, attributes in notes():
        yield title, header(attributes, [])
    yield from grids()
    yield "records", records(800, 10)
    yield "extended", records(4, 1_500)


def main(folder):
    os.mkdir(f"{folder}/small")
    for title, content in files():
        with open(f"{folder}/{title}.nc", "wb") as out:
            out.write(content)


if __name__ == "__main__":
    main(sys.argv[1])
