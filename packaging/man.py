#!/usr/bin/env python3
"""Writes the man pages of `ncc` and of each command: `packaging/man.py NCC OUT [DATE]`.

They are made of docs/MANUAL.md, and of the options that the built program NCC lists in its help: nothing in them stands
anywhere else. `packaging/man.py --compare NCC` writes nothing: it says which options, commands, faults, notes and
refusals of NCC the manual lacks, or has without NCC having them. Its last line is `N passed, M failed`.
"""

from __future__ import annotations

import re
import sys
from collections.abc import Iterator
from pathlib import Path

from helps import Command, Help, Option, help_of

MANUAL = Path(__file__).resolve().parents[1] / "docs" / "MANUAL.md"
STANDARD = [Option("help", None, "Print help"), Option("version", None, "Print version")]

# ---- the manual


def sections(text: str) -> dict[str, str]:
    """The text below each heading, up to the next one of any level; those of equal names are told apart by number."""
    found: dict[str, str] = {}
    name, lines, is_code = "", [], False
    for line in [*text.split("\n"), "# "]:
        is_code ^= line.startswith("```")
        if re.match(r"#+ ", line) and not is_code:
            found[name], name, lines = "\n".join(lines).strip("\n"), line, []
        else:
            lines.append(line)
    return found


def below(text: str, heading: str) -> str:
    """The text of a section, which is there."""
    return sections(text)[heading]


# ---- roff


def escaped(words: str) -> str:
    """Words as they stand in a line of roff."""
    text = words.replace("\\", "\\e").replace("-", "\\-").replace("'", "\\(aq").replace("`", "\\(ga")
    return "\\&" + text if text.startswith(".") else text


def inline(words: str) -> str:
    """Words with code and stress in bold, and links by their texts."""
    words = re.sub(r"\[([^\]]+)\]\([^)]*\)", r"\1", words)
    parts = re.split(r"(`[^`]+`|\*\*[^*]+\*\*|\*[^*]+\*)", words)
    text = "".join(styled(part) for part in parts)
    return "\\&" + text if text.startswith(("'", ".")) else text


def styled(part: str) -> str:
    """Code and what is stressed in bold, what is between single stars in italics."""
    if part.startswith(("`", "**")):
        return f"\\fB{escaped(part.strip('`*'))}\\fR"
    if part.startswith("*") and len(part) > 1:
        return f"\\fI{escaped(part.strip('*'))}\\fR"
    return escaped(part)


def code(lines: list[str]) -> list[str]:
    return [".PP", ".RS 4", ".nf", *(escaped(line) for line in lines), ".fi", ".RE"]


def rows_of(lines: list[str]) -> list[list[str]]:
    """The cells of a table, with its head."""
    return [[cell.strip() for cell in re.split(r"(?<!\\)\|", line.strip("|"))] for line in lines]


def table(lines: list[str]) -> list[str]:
    """A table as a list of what stands in the first column, with the others behind it."""
    out: list[str] = []
    for row in rows_of(lines)[2:]:
        out += [".TP", inline(row[0]), inline(" ".join(cell if cell.endswith(".") else f"{cell}." for cell in row[1:] if cell))]
    return out


def blocks(text: str) -> Iterator[tuple[str, list[str]]]:
    """The blocks of a page: code, tables, items of lists and paragraphs, each with its lines."""
    lines, at = text.split("\n"), 0
    while at < len(lines):
        first, kind = at, ""
        if lines[at].startswith("```"):
            at = lines.index("```", at + 1) + 1
            yield "code", lines[first + 1 : at - 1]
            continue
        kind = "table" if lines[at].startswith("|") else "item" if lines[at].startswith("- ") else "words"
        if lines[at].startswith("    "):
            kind = "code"
        at += 1
        if kind == "item" or not lines[first]:
            if lines[first]:
                yield kind, [lines[first][2:]]
            continue
        while at < len(lines) and lines[at] and not lines[at].startswith(("```", "- ")):
            at += 1
        yield kind, [line[4:] if kind == "code" else line for line in lines[first:at]]


def is_of_options(lines: list[str]) -> bool:
    """Whether a table tells of options."""
    return rows_of(lines)[0][0] == "Option"


def roff(text: str) -> list[str]:
    """A part of the manual in roff, without tables of options, which have a section of their own."""
    out: list[str] = []
    for kind, lines in blocks(text):
        if kind == "table" and is_of_options(lines):
            continue
        if kind == "code":
            out += code(lines)
        elif kind == "table":
            out += table(lines)
        elif kind == "item":
            out += [".IP \\(bu 3", inline(" ".join(lines))]
        else:
            out += [".PP", inline(" ".join(lines))]
    return out[1:] if out[:1] == [".PP"] else out


def told_options(text: str) -> dict[str, str]:
    """What the tables of options in a part of the manual say of each."""
    tables = [lines for kind, lines in blocks(text) if kind == "table" and is_of_options(lines)]
    return {row[0].strip("`").split()[0].removeprefix("--"): row[1] for lines in tables for row in rows_of(lines)[2:]}


def options(found: list[Option], told: dict[str, str]) -> list[str]:
    out = [".SH OPTIONS"]
    for each in found:
        value = f" \\fI{escaped(each.value)}\\fR" if each.value else ""
        out += [".TP", f"\\fB\\-\\-{escaped(each.name)}\\fR{value}", inline(told.get(each.name, each.about) + ".")]
    return out


def head(name: str, about: str, version: str, date: str) -> list[str]:
    title = f'.TH {name.upper()} 1 "{date}" "ncc {version}" "User Commands"'
    return [title, ".SH NAME", f"{escaped(name)} \\- {inline(about[0].lower() + about[1:])}"]


# ---- the pages


def usage(text: str, command: str) -> list[str]:
    """The lines of the manual's first block that are of this command; all of them for `ncc`."""
    first = next(lines for kind, lines in blocks(below(text, "## Commands")) if kind == "code")
    return [line for line in first if line.startswith(f"{command} ")]


def see_also(others: list[str]) -> list[str]:
    return [".SH SEE ALSO", ", ".join(f"\\fB{escaped(name)}\\fR(1)" for name in others)]


def with_code_left_out(text: str) -> str:
    """A section without its first block of code, which stands elsewhere in the page."""
    return re.sub(r"```\n.*?\n```\n?", "", text, count=1, flags=re.S)


def more_of(text: str, command: str) -> list[str]:
    """What the manual says in sections of their own of what a command may answer."""
    if command == "check":
        parts = [("FAULTS OF THE HEADER", "### Of the header"), ("FAULTS OF THE LAYOUT", "### Of the layout"), ("NOTES", "## Notes")]
    elif command in ("csv", "extend", "convert"):
        parts = [("REFUSALS", f"### Of `{command}`")]
    else:
        parts = []
    return [line for title, heading in parts for line in [f".SH {title}", *roff(below(text, heading))]]


def page_of(text: str, helps: Help, command: Command, date: str) -> str:
    name = f"ncc-{command.name}"
    lines = head(name, command.about, helps.version, date)
    lines += [".SH SYNOPSIS", ".nf", *(escaped(line) for line in usage(text, f"ncc {command.name}")), ".fi"]
    lines += [".SH DESCRIPTION", *roff(below(text, f"### {command.name}"))]
    lines += options(list(command.options), told_options(below(text, f"### {command.name}")))
    lines += more_of(text, command.name)
    lines += [".SH EXIT STATUS", *table_of_statuses(text)]
    lines += see_also(["ncc", *(f"ncc-{each.name}" for each in helps.commands if each.name != command.name)])
    return "\n".join(lines) + "\n"


def table_of_statuses(text: str) -> list[str]:
    return next(table(lines) for kind, lines in blocks(below(text, "## Statuses, outputs and progress")) if kind == "table")


def main_page(text: str, helps: Help, date: str) -> str:
    lines = head("ncc", helps.about, helps.version, date)
    lines += [".SH SYNOPSIS", ".nf", *(escaped(line) for line in usage(text, "ncc")), ".fi"]
    lines += [".SH DESCRIPTION", *roff(with_code_left_out(below(text, "## Commands"))), ".SH COMMANDS"]
    for each in helps.commands:
        lines += [".TP", f"\\fBncc\\-{each.name}\\fR(1)", inline(each.about + ".")]
    for title, heading in [("MANY FILES", "### Many files"), ("JSON", "### JSON"), ("ERRORS", "## Errors")]:
        lines += [f".SH {title}", *roff(below(text, heading))]
    lines += options(STANDARD, {})
    lines += [".SH EXIT STATUS", *roff(below(text, "## Statuses, outputs and progress"))]
    lines += see_also([f"ncc-{each.name}" for each in helps.commands])
    return "\n".join(lines) + "\n"


def pages(text: str, helps: Help, date: str) -> dict[str, str]:
    """The page of each name."""
    return {"ncc": main_page(text, helps, date)} | {
        f"ncc-{each.name}": page_of(text, helps, each, date) for each in helps.commands
    }


# ---- the comparison


def named(text: str) -> dict[str, set[str]]:
    """The options that the usage lines of the manual have, by command."""
    found: dict[str, set[str]] = {}
    for line in usage(text, "ncc"):
        found.setdefault(line.split()[1], set()).update(re.findall(r"--([a-z0-9-]+)", line))
    return found


def first_cells(text: str, headings: list[str]) -> set[str]:
    """The words in the first columns of the tables below these headings, each without a letter behind it."""
    rows = [line for heading in headings for line in below(text, heading).split("\n")]
    return {found[1] for line in rows if (found := re.match(r"\| `([A-Za-z]+)(?: [A-Z])?` \|", line))}


def differences(what: str, own: set[str], manual: set[str]) -> tuple[int, int]:
    """How many of the words of NCC the manual has, and how many words only one of them has, which are printed."""
    for word in sorted(own - manual):
        print(f"the manual has no {what} {word}")
    for word in sorted(manual - own):
        print(f"there is no {what} {word}")
    return len(own & manual), len(own ^ manual)


def compare(text: str, helps: Help) -> int:
    usages = named(text)
    found = [differences("command", {each.name for each in helps.commands}, set(usages))]
    for each in helps.commands:
        own = {option.name for option in each.options} - {"help", "verbose"}
        found.append(differences(f"option of {each.name}:", own, usages.get(each.name, set())))
    tables = {
        "fault": ["### Of the header", "### Of the layout"],
        "note": ["## Notes"],
        "refusal": ["### Of `csv`", "### Of `extend`", "### Of `convert`"],
    }
    for what, headings in tables.items():
        of_kind = [names for title, names in helps.words.items() if title.lower().startswith(what)]
        found.append(differences(what, {name for names in of_kind for name in names}, first_cells(text, headings)))
    passed, failed = (sum(each[k] for each in found) for k in (0, 1))
    print(f"{passed} passed, {failed} failed")
    return 1 if failed or not passed else 0


def main() -> int:
    text = MANUAL.read_text()
    if sys.argv[1] == "--compare":
        return compare(text, help_of(sys.argv[2]))
    out, date = Path(sys.argv[2]), sys.argv[3] if len(sys.argv) > 3 else ""
    out.mkdir(parents=True, exist_ok=True)
    for name, page in pages(text, help_of(sys.argv[1]), date).items():
        (out / f"{name}.1").write_text(page)
    return 0


if __name__ == "__main__":
    sys.exit(main())
