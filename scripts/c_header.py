#!/usr/bin/env python3
"""Compares crates/ncc_c/include/ncc.h, which is written by hand, with the crate: the numbers of states and kinds with
specs/Outcomes.antt, the fields of each structure with its struct, and the parameters of each call with its function;
and NCC_LIMIT with the limit of the program. The last line is `N passed, M failed`."""
import pathlib, re

CRATE = pathlib.Path(__file__).resolve().parent.parent / "crates" / "ncc_c"
STRUCTS = {"ncc_verdict": "Verdict", "ncc_note": "NoteRow", "ncc_noted": "Noted", "ncc_dim": "DimRow", "ncc_attr": "AttrRow",
           "ncc_var": "VarRow", "ncc_indexed": "Indexed", "ncc_opened": "Opened", "ncc_stepped": "Stepped",
           "ncc_run": "Stretch", "ncc_stretched": "Stretched", "ncc_recorded": "Recorded", "ncc_place": "PlaceRow",
           "ncc_planned": "Planned"}
TYPES = {"u8": "uint8_t", "u32": "uint32_t", "u64": "uint64_t", "usize": "size_t"}
TYPES.update({rust: c for c, rust in STRUCTS.items()})
passed = failed = 0


def expect(what, is_there, wanted):
    global passed, failed
    if is_there == wanted:
        passed += 1
    else:
        failed += 1
        print(f"failed: {what}\n  the crate has {wanted}\n  ncc.h has {is_there}")


def without_comments(text):
    return re.sub(r"/\*.*?\*/|//[^\n]*", "", text, flags=re.S)


def upper(name):
    """BadMagic as NCC_BAD_MAGIC."""
    return "NCC_" + re.sub(r"(?<!^)(?=[A-Z])", "_", name).upper()


def numbers_of_the_crate():
    """Each kind and state that the table names, with its number."""
    table = (CRATE / "specs" / "Outcomes.antt").read_text()
    found = {upper(name): int(n) for name, n in re.findall(r"^of_\w+ \w+\.(\w+) = (\d+)$", table, re.M)}
    refused = re.findall(r"^of_\w+ \(?\w+\.(\w+)(?: k\))? = refused (\d+) ", table, re.M)
    found.update({upper(name): int(n) for name, n in refused})
    found.update({"NCC_" + name.upper(): int(n) for name, n in re.findall(r"^(\w+)(?: \w+)* = outcome (\d+)", table, re.M)})
    del found["NCC_NO_VARIABLE"]  # never answered: each call is given its variable
    return found


def structs_of_the_crate():
    """The fields of each struct. In the place of a struct that is its first field stand that one's fields."""
    found = {}
    for path in [*CRATE.glob("src/*.rt"), *CRATE.parent.glob("ncc_ranges/src/*.rt")]:
        for name, body in re.findall(r"pub struct (\w+) \{(.*?)\n\}", without_comments(path.read_text()), re.S):
            found[name] = re.findall(r"pub (\w+): (\w+)", body)
    for fields in found.values():
        while fields and fields[0][1] in found:
            fields[:1] = found[fields[0][1]]
    return found


def fields_of(body):
    """uint32_t state, kind; as two pairs."""
    return [(name, c) for c, names in re.findall(r"(\w+) ([\w, ]+);", body) for name in names.split(", ")]


def c_parameters(rust):
    """The parameters of a call, as C has them: a slice is a pointer and a length."""
    for name, kind in re.findall(r"(\w+): ([^,]+?),?\s*(?=\w+: |$)", rust):
        one = re.fullmatch(r"(&(?:mut )?)?(\[)?(\w+)\]?", kind)
        pointer = f"{'' if 'mut' in (one[1] or '') else 'const '}{TYPES.get(one[3])} *" if one[1] else TYPES.get(one[3])
        if name != "alloc":
            yield from [pointer, "size_t"] if one[2] else [pointer]


def calls_of_the_crate():
    text = without_comments((CRATE / "src" / "lib.rt").read_text())
    calls = re.findall(r'pub extern "C" fn (\w+)\((.*?)\)(?: -> (\w+))?\s*ensures', text, re.S)
    return {name: [TYPES.get(result, "void"), *c_parameters(" ".join(body.split()))] for name, body, result in calls}


def main():
    text = without_comments((CRATE / "include" / "ncc.h").read_text())
    numbers = {name: int(n) for name, n in re.findall(r"(NCC_\w+) = (\d+)", text)}
    expect("numbers", dict(sorted(numbers.items())), dict(sorted(numbers_of_the_crate().items())))
    limit = re.search(r"const LIMIT: u64 = ([\d_]+);", (CRATE.parent / "ncc_tasks" / "src" / "given.rt").read_text())[1]
    expect("NCC_LIMIT", re.search(r"NCC_LIMIT (\d+)u", text)[1], limit.replace("_", ""))
    structs = structs_of_the_crate()
    declared = {name: body for body, name in re.findall(r"typedef struct \{(.*?)\} (\w+);", text, re.S)}
    expect("structures", sorted(declared), sorted(STRUCTS))
    for name, body in declared.items():
        expect(name, fields_of(body), [(field, TYPES[kind]) for field, kind in structs[STRUCTS[name]]])
    calls = {name: [result, *(re.sub(r"\w+$", "", each.strip()).strip() for each in body.split(","))]
             for result, name, body in re.findall(r"^(\w+) (ncc_\w+)\((.*?)\);", text, re.S | re.M)}
    wanted = calls_of_the_crate()
    expect("calls", sorted(calls), sorted(wanted))
    for name in calls:
        expect(name, calls[name], wanted[name])
    print(f"{passed} passed, {failed} failed")
    raise SystemExit(failed > 0)


main()
