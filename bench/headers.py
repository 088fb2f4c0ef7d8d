#!/usr/bin/env python3
"""Writes files with large headers: `headers.py listed FOLDER` those of bench/list.sh, `headers.py shapes FOLDER`
those of bench/shapes.py, and `headers.py checked FOLDER` those of bench/check.sh, each with its header less the last
byte as NAME.cut."""

import struct
import sys


def number(value):
    return struct.pack(">I", value)


def padded(data):
    return data + b"\0" * (-len(data) % 4)


def name(text):
    return number(len(text)) + padded(text)


def attribute(text, values):
    """An attribute of type char."""
    return name(text) + number(2) + number(len(values)) + padded(values)


def listed(tag, items):
    return number(tag if items else 0) + number(len(items)) + b"".join(items)


def dimension(index, length):
    return name(b"dimension_%d" % index) + number(length)


def variable(index, attributes, begin, dimensions=()):
    """A variable of type byte over these dimensions, of which it has at most 4 bytes."""
    return (
        name(b"variable_%d" % index)
        + number(len(dimensions))
        + b"".join(number(i) for i in dimensions)
        + listed(12, attributes)
        + number(1)
        + number(4)
        + number(begin)
    )


def header(attributes, variables, dimensions=()):
    return b"CDF\x01" + number(0) + listed(10, dimensions) + listed(12, attributes) + listed(11, variables)


def variables_over(count, attributes, dimensions, ids):
    """The header of so many variables of type byte, one after the other, and their bytes."""
    length = len(header([], [variable(i, attributes, 0, ids) for i in range(count)], dimensions))
    variables = [variable(i, attributes, length + 4 * i, ids) for i in range(count)]
    return header([], variables, dimensions), bytes(4 * count)


def scalars(count, attributes):
    """The same of scalars."""
    return variables_over(count, attributes, [], ())


def of_rank_3(count):
    """The same of variables of four bytes over three dimensions."""
    return variables_over(count, [], [dimension(0, 2), dimension(1, 1), dimension(2, 2)], (0, 1, 2))


def descending(count):
    """The same, each one byte below the one before it."""
    length = len(header([], [variable(i, [], 0) for i in range(count)]))
    variables = [variable(i, [], length + count - 1 - i) for i in range(count)]
    return header([], variables), bytes(count)


def twenty_attributes():
    return [attribute(b"attribute_%d" % i, b"some text about it.") for i in range(20)]


def empty_attributes(count):
    """A header of so many attributes without a value."""
    return header([attribute(b"attribute_%d" % i, b"") for i in range(count)], []), b""


def one_attribute(length):
    """A header of one text of so many bytes."""
    return header([attribute(b"text", b"a" * length)], []), b""


def listed_files():
    twenty = twenty_attributes()
    return {
        "2000_variables_of_20_attributes": scalars(2000, twenty),
        "24000_variables": scalars(24000, []),
        "24000_variables_of_20_attributes": scalars(24000, twenty),
        "one_attribute_of_60_MiB": one_attribute(60 << 20),
    }


def checked_files():
    """Also files that ncdump doesn't take, since it wants the variables in order."""
    files = listed_files()
    for count in (20000, 80000):
        files[f"{count}_variables_in_descending_order"] = descending(count)
    files["100000_attributes"] = empty_attributes(100000)
    return files


def shapes(part=1):
    """One file of each shape of header; each count is divided by `part`."""
    some, many, names = 24000 // part, 80000 // part, 100000 // part
    return {
        f"{some}_variables_of_20_attributes": scalars(some, twenty_attributes()),
        f"{some}_variables": scalars(some, []),
        f"{many}_variables_in_descending_order": descending(many),
        f"{names}_attributes": empty_attributes(names),
        f"one_attribute_of_{60 // part}_MiB": one_attribute((60 << 20) // part),
        f"{some}_variables_of_rank_3": of_rank_3(some),
        f"{some}_dimensions": (header([], [], [dimension(i, 4) for i in range(some)]), b""),
        "small_file": scalars(3, [attribute(b"units", b"meters")]),
    }


def main(which, folder):
    files = {"listed": listed_files, "checked": checked_files, "shapes": shapes}[which]()
    for name, (head, data) in files.items():
        with open(f"{folder}/{name}.nc", "wb") as out:
            out.write(head + data)
        if which == "checked":
            with open(f"{folder}/{name}.cut", "wb") as out:
                out.write(head[:-1])


if __name__ == "__main__":
    main(sys.argv[1], sys.argv[2])
