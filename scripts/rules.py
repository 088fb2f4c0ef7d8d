#!/usr/bin/env python3
"""Looks up all that the tables of docs/RULES.md name. The forms of an item, of which some may have several names:

    CRATE/specs/FILE.antt: NAME, NAME      definitions
    CRATE/proofs/FILE.antt: NAME, NAME     lemmas
    CRATE/src/FILE.rt: NAME, NAME          functions, or a constant or a variant such as a fault's
    CRATE/src/FILE.rt: NAME: CLAUSE, ..    clauses of a function; of one without a name, a word that stands in it
    CRATE: NAME, NAME                      tests
    CRATE/NAME                             an edit that the prover must refuse
    PATH                                   a file, from the top of the repository

Each edit of a crate must stand in a row. If it stands in rows of faults, notes or refusals, it has the name of one of
them in its own (`truncated_at_the_headers_length`, of Truncated). A line tells what is missing. The last line is
`N passed, M failed`: of rows, and of edits without one, or without a name of theirs."""
import functools
import re
import sys
from pathlib import Path

TOP = Path(__file__).resolve().parent.parent
PAGE = TOP / "docs" / "RULES.md"
COLUMNS = 8
WORDS = 2  # the columns before those that have items


@functools.cache
def text_of(path):
    return path.read_text() if path.is_file() else None


def is_declared(text, name, suffix):
    name = re.escape(name)
    if suffix == ".antt":
        return re.search(rf"^ *(?:abbrev |unfoldable )?(?:pub )?(?:record |data )?{name} *[:({{]", text, re.M)
    return re.search(rf"\b(?:fn|const|static|struct|enum|trait) {name}\b|\bghost {name}:|^ +{name}[,(]", text, re.M)


def has_clause(text, function, clause):
    """Whether a function of this name has the clause; a line that begins with a brace begins the body."""
    contracts = re.findall(rf"\bfn {function}\b(.*?)(?=^ *\{{|\bfn )", text + "\nfn ", re.M | re.S)
    wanted = rf"(?:ensures|requires) {re.escape(clause)} \{{|\bensures \{{.*(?<!\w){re.escape(clause)}(?!\w)"
    return any(re.search(wanted, contract, re.S) for contract in contracts)


def in_file(path, names, clauses):
    """What isn't there of the names, and of the clauses of the one function that is named."""
    text = text_of(TOP / "crates" / path)
    if text is None:
        return [f"no file crates/{path}"]
    missing = [f"no {name} in {path}" for name in names if not is_declared(text, name, Path(path).suffix)]
    return missing + [f"no clause {clause} of {names[0]} in {path}" for clause in clauses
                      if not has_clause(text, names[0], clause)]


def in_tests(crate, names):
    texts = "\n".join(text_of(path) for path in (TOP / "crates" / crate / "src").rglob("*.rt"))
    return [f"no test {name} in {crate}" for name in names if not re.search(rf"#\[test\]\s+fn {name}\b", texts)]


def edit_path(item):
    """The file of an edit, by its crate and its name."""
    found = re.fullmatch(r"(\w+)/(\w+)", item)
    return TOP / "crates" / found[1] / "must-fail" / f"{found[2]}.edit" if found else None


def look_up(item):
    """How many names an item has, and what of it is missing."""
    path, *lists = item.split(": ")
    lists = [names.split(", ") for names in lists]
    if re.match(r"\w+/(?:specs|proofs|src)/", path):
        names, clauses = (lists + [[], []])[:2]
        return max(1, len(clauses or names)), in_file(path, names, clauses)
    if lists:
        return len(lists[0]), in_tests(path, lists[0])
    there = edit_path(item) or TOP / item
    return 1, [] if there.is_file() else [f"no file {there.relative_to(TOP)}"]


def rows_of(page):
    """The cells of each row below the head of a table, with its line."""
    for number, line in enumerate(page.splitlines(), 1):
        cells = [cell.strip() for cell in line.strip().strip("|").split("|")]
        if line.startswith("|") and cells[0] != "Rule" and set(cells[0]) != {"-"}:
            yield number, cells


def look_up_row(cells):
    """The items of a row, how many names they have, and what is missing."""
    items = [item for cell in cells[WORDS:] for item in re.findall(r"`([^`]*)`", cell)]
    wrong = [] if len(cells) == COLUMNS else [f"{len(cells)} cells"]
    wrong += [f"no item: {cell}" for cell in cells[WORDS:] if re.sub(r"`[^`]*`", "", cell).strip(", ")]
    found = [look_up(item) for item in items]
    return items, sum(count for count, _ in found), wrong + [each for _, missing in found for each in missing]


def names_of_rule(items):
    """The faults, notes and refusals that a row has, as words: Truncated as truncated, InHeader as in_header."""
    found = [re.fullmatch(r"\w+/src/(?:fault|plan_fault|note|append_error)\.rt: ([\w, ]+)", item) for item in items]
    return {re.sub(r"(?<!^)([A-Z])", r"_\1", name).lower() for each in found if each for name in each[1].split(", ")}


def strangers(rows):
    """The edits in rows of faults, notes or refusals that have the name of none of these."""
    rules = {}
    for items in rows:
        for path in filter(None, map(edit_path, items)):
            rules.setdefault(path, set()).update(names_of_rule(items))
    return sorted(path for path, names in rules.items() if names and not any(re.search(rf"(?:^|_){name}(?:_|$)", path.stem) for name in names))


def main():
    rows = [(number, *look_up_row(cells)) for number, cells in rows_of(PAGE.read_text())]
    named = {edit_path(item) for _, items, _, _ in rows for item in items}
    edits = sorted(set(TOP.glob("crates/*/must-fail/*.edit")) - named)
    strange = strangers(items for _, items, _, _ in rows)
    wrong = [f"docs/RULES.md:{number}: {each}" for number, _, _, missing in rows for each in missing]
    wrong += [f"docs/RULES.md: no row for {path.relative_to(TOP)}" for path in edits]
    wrong += [f"{path.relative_to(TOP)} isn't named for its rule" for path in strange]
    failed = sum(bool(missing) for *_, missing in rows) + len(edits) + len(strange)
    print(*wrong, sep="\n", end="\n" if wrong else "")
    print(f"{sum(count for _, _, count, _ in rows)} items, {len(wrong)} missing")
    print(f"{len(rows) + len(edits) + len(strange) - failed} passed, {failed} failed")
    return 1 if failed or not rows else 0


if __name__ == "__main__":
    sys.exit(main())
