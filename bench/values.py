#!/usr/bin/env python3
"""Writes files with many values: `values.py FOLDER` those of bench/csv.sh."""

import struct
import sys
from array import array

from headers import listed, name, number

SHAPE = (400, 100, 100)
RECORDS = 16_000_000


def dimension(text, length):
    return name(text) + number(length)


def of_one_variable(records, dimensions, code, slab, values):
    """A file in CDF-1 of the variable v over these dimensions, of the type with this code, and its values."""
    dims = listed(10, [dimension(text, length) for text, length in dimensions])
    numbers = b"".join(number(i) for i in range(len(dimensions)))
    variable = name(b"v") + number(len(dimensions)) + numbers + listed(12, []) + number(code) + number(slab)
    start = b"CDF\x01" + number(records) + dims + listed(12, [])
    length = len(start) + 8 + len(variable) + 4
    return start + listed(11, [variable + number(length)]) + values


def big_endian(code, values):
    words = array(code, values)
    words.byteswap()
    return words.tobytes()


def grids():
    """Three variables over three dimensions: shorts, floats and doubles."""
    count = SHAPE[0] * SHAPE[1] * SHAPE[2]
    dimensions = list(zip((b"time", b"lat", b"lon"), SHAPE))
    shorts = (i * 7919 % 65536 - 32768 for i in range(count))
    yield "shorts", 3, 2, dimensions, big_endian("h", shorts)
    yield "floats", 5, 4, dimensions, big_endian("f", (i * 0.37 - 5e5 for i in range(count)))
    yield "doubles", 6, 8, dimensions, big_endian("d", (i * 0.37 - 5e5 for i in range(count)))


def main():
    folder = sys.argv[1]
    for title, code, size, dimensions, values in grids():
        slab = size * SHAPE[0] * SHAPE[1] * SHAPE[2]
        with open(f"{folder}/{title}.nc", "wb") as file:
            file.write(of_one_variable(0, dimensions, code, slab, values))
    values = bytes(i * 31 % 256 for i in range(RECORDS))
    with open(f"{folder}/records.nc", "wb") as file:
        file.write(of_one_variable(RECORDS, [(b"time", 0)], 1, 4, values))


if __name__ == "__main__":
    main()
