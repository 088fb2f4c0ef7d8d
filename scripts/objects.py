"""The lines that an object of `check --json`, `layout --json` or `list --json` stands for."""
import json, shutil, subprocess

NUMBERS = {
    "InHeader": "it begins at {begin}, and the header ends at {header_end}",
    "Overlap": "it begins at {begin}, and variable {other} ends at {other_end}",
    "RecordWindow": "it ends at {end}, and record 0 ends at {record_end}",
    "FixedAfterRecords": "it ends at {end}, and the records begin at {records_begin}",
    "Truncated": "it ends at {end}, and the file ends at {file_length}",
}
OF_HEADERS = {"value": "the number there is {value}", "limit": "the limit is {limit}",
              "file_length": "the file ends at {file_length}"}
OF_NOTES = {"vsize": "its vsize is {vsize}, and its size gives {due}", "begin": "it begins at {begin}",
            "numrecs": "it is {numrecs}", "length": "its length is {length}"}


def name(value):
    """A name as lines have it: its bytes as they are or as `\\xNN`."""
    own = value.encode() if isinstance(value, str) else bytes.fromhex(value["hex"])
    return "".join(chr(b) if 32 < b < 127 and b != 92 else f"\\x{b:02x}" for b in own)


def named(found):
    """The same object with its names as lines have them."""
    return {**found, **{key: name(found[key]) for key in ("variable", "other", "name") if key in found}}


def behind(found, words):
    """The lines behind a fault or a note."""
    inside = [f"in {found['in']}"] if "in" in found else [f"in variable {found['variable']}"] if "variable" in found else []
    like = [f"it looks like {found['looks_like']}"] if "looks_like" in found else []
    return [f"    {line}" for line in [*inside, *words, *like, found["rule"]]]


def note(found):
    words = [text.format(**found) for key, text in OF_NOTES.items() if key in found]
    return [f"note {found['note']} at {found['offset']}", *behind(found, words)]


def fault(found):
    return f"fault {found['fault']} at {found['offset']}"


def told(found):
    """What `check --explain` prints."""
    found = named(found)
    if found["verdict"] == "ok":
        first = "ok CDF-{version} records {records} variables {variables}".format(**found)
        return "\n".join([first, *(line for each in found["notes"] for line in note(each))])
    if "begin" in found or "end" in found:
        words = [NUMBERS[found["fault"]]]
    else:
        words = [text for key, text in OF_HEADERS.items() if key in found]
    return "\n".join([fault(found), *behind(found, [text.format(**found) for text in words])])


def variable(found):
    between = "gap" if "gap" in found else "overlap"
    return "variable {number} {name} {kind} begin {begin} end {end} ".format(**named(found)) + f"{between} {found[between]}"


def laid(found):
    """What `layout` prints."""
    if "verdict" in found:
        return fault(found)
    lines = [f"file {found['file_length']}", f"header 0 {found['header_length']}", *map(variable, found["variables"])]
    if "records" in found:
        lines += ["records {count} begin {begin} size {size} end {end}".format(**found["records"])]
    rest = "after" if "after" in found else "missing"
    return "\n".join([*lines, f"{rest} {found[rest]}"])


class Number(str):
    """A number of an object, to the letter."""


def numbered(text):
    """An object with its numbers to the letter."""
    return json.loads(text, parse_int=Number, parse_float=Number)


def value(found, decimal):
    """A value of an attribute: a number, or a text in place of a float that JSON has no number for, or of its bits."""
    if isinstance(found, Number) or (found in ("NaN", "Infinity", "-Infinity") if decimal else found.startswith("0x")):
        return found
    raise ValueError(f"no value: {found}")


def attribute(owner, found, decimal):
    start = f"attribute {owner} {name(found['name'])} {found['type']} "
    if found["type"] != "char":
        return start + " ".join([str(len(found["values"])), *(value(each, decimal) for each in found["values"])])
    own = found["values"]
    count = len(own.encode()) if isinstance(own, str) else len(own["hex"]) // 2
    return start + " ".join([str(count), *([name(own)] if count else [])])


def header_lines(found, decimal):
    """The lines of a header, of an object with its numbers to the letter."""
    yield f"format CDF-{found['version']}"
    yield f"records {found['numrecs']}"
    names = [name(each["name"]) for each in found["dimensions"]]
    records = [each.get("unlimited", False) for each in found["dimensions"]]
    for number, each in enumerate(found["dimensions"]):
        if records[number] != (each["length"] == "0"):
            raise ValueError(f"no dimension: {each}")
        yield f"dimension {number} {names[number]} {'unlimited' if records[number] else each['length']}"
    yield from (attribute("global", each, decimal) for each in found["attributes"])
    for number, each in enumerate(found["variables"]):
        dims = [int(dim) for dim in each["dimensions"]]
        kind = "record" if dims and records[dims[0]] else "fixed"
        place = f"begin {each['begin']} dims {len(dims)}"
        yield " ".join([f"variable {number} {name(each['name'])} {each['type']} {kind} {place}", *(names[dim] for dim in dims)])
        yield from (attribute(number, one, decimal) for one in each["attributes"])


def listed(text, decimal=False):
    """What `list` prints, by the text of an object."""
    found = numbered(text)
    return fault(found) if "verdict" in found else "\n".join(header_lines(found, decimal))


def plain(value):
    """A value with each number as a double, which jq makes of it."""
    if isinstance(value, dict):
        return {key: plain(each) for key, each in value.items()}
    if isinstance(value, list):
        return [plain(each) for each in value]
    return value if isinstance(value, (str, bool)) or value is None else float(value)


def differs_from_jq(lines):
    """A line that jq doesn't read as Python does; none also where there is no jq."""
    if not shutil.which("jq"):
        print("rows.py: there is no jq, so that the objects were read by Python alone")
        return None
    run = subprocess.run(["jq", "-c", "."], input="".join(f"{line}\n" for line in lines), capture_output=True, text=True)
    read = run.stdout.splitlines()
    if run.returncode or len(read) != len(lines):
        return f"jq: {len(read)} of {len(lines)} objects: {run.stderr}"
    return next((line for line, again in zip(lines, read) if plain(json.loads(line)) != plain(json.loads(again))), None)
