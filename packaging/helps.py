"""What the help of a built `ncc` says: its commands, their options, and the faults."""

from __future__ import annotations

import re
import subprocess
from dataclasses import dataclass


@dataclass(frozen=True)
class Option:
    """An option of a command."""

    name: str
    """Without the two hyphens."""
    value: str | None
    """The word for its value, if it takes one."""
    about: str


@dataclass(frozen=True)
class Command:
    """A command, as its `--help` describes it."""

    name: str
    about: str
    usage: str
    arguments: tuple[tuple[str, str], ...]
    options: tuple[Option, ...]


@dataclass(frozen=True)
class Help:
    """What all the helps say."""

    about: str
    version: str
    """The first word behind the name."""
    commands: tuple[Command, ...]
    words: dict[str, list[str]]
    """The faults, notes and refusals, by the heading that `ncc help faults` has them under."""


def printed(ncc: str, *words: str) -> str:
    """What `ncc` prints on these words, with status 0."""
    return subprocess.run([ncc, *words], check=True, capture_output=True, text=True).stdout


def block(text: str, heading: str) -> list[str]:
    """The lines below a heading, up to the first line that is empty."""
    lines = text.split("\n")
    if f"{heading}:" not in lines:
        return []
    first = lines.index(f"{heading}:") + 1
    return lines[first : lines.index("", first)]


def entries(lines: list[str]) -> list[tuple[str, str]]:
    """The entries of a block: what stands in front of two spaces or more, and the words behind them."""
    found: list[tuple[str, str]] = []
    for line in lines:
        entry = re.fullmatch(r" {2,6}(\S.*?)(?: {2,}(\S.*))?", line)
        if entry:
            found.append((entry[1], entry[2] or ""))
        elif found:
            found[-1] = (found[-1][0], f"{found[-1][1]} {line.strip()}".strip())
    return found


def option(words: str, about: str) -> Option:
    """An option of an entry like `--start <A>` or `-h, --help`."""
    found = re.search(r"--([a-z0-9-]+)(?: <(.+)>)?", words)
    if not found:
        raise ValueError(f"no option: {words}")
    return Option(found[1], found[2], about)


def command_of(ncc: str, name: str) -> Command:
    text = printed(ncc, name, "--help")
    usage = next(line for line in text.split("\n") if line.startswith("Usage: "))
    options = tuple(option(*entry) for entry in entries(block(text, "Options")))
    return Command(name, text.split("\n")[0], usage.removeprefix("Usage: "), tuple(entries(block(text, "Arguments"))), options)


def faults_of(ncc: str) -> dict[str, list[str]]:
    """The names in `ncc help faults`, by their headings."""
    found: dict[str, list[str]] = {}
    for line in printed(ncc, "help", "faults").split("\n"):
        name = re.match(r"  ([A-Z][A-Za-z]+)\b", line)
        if line.endswith(":") and not line.startswith(" "):
            found[line.removesuffix(":")] = []
        elif name and found:
            found[list(found)[-1]].append(name[1])
    return found


def help_of(ncc: str) -> Help:
    text = printed(ncc, "--help")
    names = [name for name, _ in entries(block(text, "Commands")) if name != "help"]
    version = printed(ncc, "--version").split()[1]
    return Help(text.split("\n")[0], version, tuple(command_of(ncc, name) for name in names), faults_of(ncc))
