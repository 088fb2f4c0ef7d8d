"""What a picture of `layout --svg` must show, by the lines of `layout`."""
import re
import xml.etree.ElementTree as tree

SPACE = "{http://www.w3.org/2000/svg}"
LINES, TOP, BAR = 40, 18, 36
VARIABLE = re.compile(r"variable (\d+) (\S*) (fixed|record) begin (\d+) end (\d+) (gap|overlap) (\d+)")


def read(text):
    """The numbers in the lines of `layout`."""
    lines = text.split("\n")
    found = {"file": int(lines[0].split()[1]), "header": int(lines[1].split()[2]), "rest": lines[-1], "records": None}
    parts, past = [], found["header"]
    for line in lines[2:-1]:
        if line.startswith("records "):
            found["records"] = tuple(int(n) for n in line.split()[1::2])
            found["words"] = line
        else:
            number, name, kind, begin, end, between, far = VARIABLE.fullmatch(line).groups()
            name = name if len(name) <= 40 else name[:40] + ".."
            words = f"variable {number} {name} {kind} begin {begin} end {end} {between} {far}"
            parts.append((int(number), kind == "record", int(begin), int(end), past, words))
            past = max(past, int(end))
    word, rest = lines[-1].split()
    found["past"] = found["file"] + int(rest) if word == "missing" else found["file"] - int(rest)
    large = sorted(parts, key=lambda part: (part[2] - part[3], part[0]))[:LINES]
    own = {part[0]: place for place, part in enumerate(part for part in parts if part in large)}
    found["parts"] = [(*part, own.get(part[0])) for part in parts]
    return found


def place(far, n):
    n = min(n, far)
    return n * 1000 // far if far < 2**64 else n // (far // 1000)


def rect(style, x, y, width, height, title=None):
    return ("rect", style, x, y, width, height, title)


def span(far, y, style, begin, end, title):
    x = place(far, begin)
    return rect(style, x, y, max(1, place(far, end) - x), BAR, title)


def color(line):
    return "c9" if line is None else f"c{line % 9}"


def own_bytes(far, y, origin, part):
    """A variable in a bar that begins at an origin."""
    _, _, begin, end, _, words, line = part
    return span(far, y, color(line), begin - origin, end - origin, words)


def shared_bytes(far, y, origin, part):
    """What it shares."""
    _, _, begin, end, past, words, _ = part
    if begin < past:
        yield span(far, y, "bad", begin - origin, min(past, end) - origin, words)


def file_bar(found):
    far, file, past, records = max(found["file"], found["past"]), found["file"], found["past"], found["records"]
    is_there = [part for part in found["parts"] if not part[1] or records[0] > 0]
    yield ("text", 0, 22, f"the file, bytes 0 to {far}")
    yield span(far, 30, "gap", 0, far, f"file {file}")
    yield span(far, 30, "header", 0, found["header"], f"header 0 {found['header']}")
    for _, _, begin, _, before, words, _ in is_there:
        if before < begin:
            yield span(far, 30, "gap", before, begin, words)
    if records and records[0] > 0:
        count, begin, size, end = records
        yield span(far, 30, "records", begin, end, found["words"])
        for number in range(count if count <= 64 else 0):
            yield rect("cut", place(far, begin + number * size), 30, 1, BAR)
    for part in found["parts"]:
        if not part[1]:
            yield own_bytes(far, 30, 0, part)
    for part in is_there:
        yield from shared_bytes(far, 30, 0, part)
    if past > file:
        yield span(far, 30, "bad", file, past, found["rest"])
    elif past < file:
        yield span(far, 30, "after", past, file, found["rest"])


def record_bar(found):
    if found["records"]:
        _, origin, size, _ = found["records"]
        inside = [part for part in found["parts"] if part[1]]
        far = max([size, *(part[3] - origin for part in inside)])
        yield ("text", 0, 92, f"one record, bytes 0 to {far}")
        yield span(far, 100, "gap", 0, far, found["words"])
        for part in inside:
            yield own_bytes(far, 100, origin, part)
        for part in inside:
            yield from shared_bytes(far, 100, origin, part)
        yield rect("cut", place(far, size), 100, 1, BAR)


def rows(found):
    """The lines below the bars: their classes and texts."""
    yield "gap", f"file {found['file']}"
    yield "header", f"header 0 {found['header']}"
    for *_, words, line in found["parts"]:
        if line is not None:
            yield color(line), words
    if len(found["parts"]) > LINES:
        others = [end - begin for _, _, begin, end, _, _, line in found["parts"] if line is None]
        yield "c9", f"others {len(others)} bytes {sum(others)}"
    if found["records"]:
        yield "records", found["words"]
    yield "after" if found["rest"].startswith("after") else "bad", found["rest"]


def due(found):
    """All shapes and texts, and how high the picture is."""
    top = 154 if found["records"] else 84
    shapes = [*file_bar(found), *record_bar(found)]
    for style, text in rows(found):
        shapes += [rect(style, 0, top, 14, 12), ("text", 22, top + 11, text)]
        top += TOP
    return shapes, top


def seen(picture):
    """The shapes and texts of a document, without its legend, and how high it is."""
    root = tree.fromstring(picture)
    group = root.find(SPACE + "g")
    shapes = []
    for it in list(group)[1:]:
        numbers = [int(it.get(key)) for key in ("x", "y", "width", "height") if it.get(key)]
        title = it.find(SPACE + "title")
        if it.tag == SPACE + "rect":
            shapes.append(rect(it.get("class"), *numbers, None if title is None else title.text.strip()))
        else:
            shapes.append(("text", *numbers, it.text.strip()))
    return shapes, int(root.get("height"))


def differs(picture, text):
    """How a picture differs from the one that the lines of `layout` stand for, or nothing."""
    if text.startswith("fault "):
        return "" if picture == text else picture
    if not picture.isascii():
        return "it isn't ASCII"
    (is_, high), (wanted, height) = seen(picture), due(read(text))
    for one, other in zip([*is_, None], [*wanted, None]):
        if one != other:
            return f"it shows {one}, not {other}"
    return "" if high == height else f"it is {high} high, not {height}"
