#!/usr/bin/env python3
"""Writes the completions of `ncc` for bash, zsh and fish: `packaging/completions.py NCC OUT`.

They are made of what the help of the built program NCC lists: OUT/ncc.bash, OUT/_ncc and OUT/ncc.fish. An option's
value and a word that is no option are files, but the versions of `convert --to` and what is a number.
"""

from __future__ import annotations

import sys
from pathlib import Path

from helps import Command, Help, Option, help_of

VALUES = {"to": "1 2 5"}
"""The values of an option that has few."""
FILES = {"LIST"}
"""The words for values that are files."""


def flags(command: Command) -> str:
    return " ".join(f"--{each.name}" for each in command.options)


# ---- bash

BASH = """# bash completion for ncc

_ncc() {{
    local current=${{COMP_WORDS[COMP_CWORD]}} before=${{COMP_WORDS[COMP_CWORD - 1]}} options=
    COMPREPLY=()
    if ((COMP_CWORD == 1)); then
        mapfile -t COMPREPLY < <(compgen -W '{commands} help --help --version' -- "$current")
        return
    fi
    case $before in
{values}
    esac
    case ${{COMP_WORDS[1]}} in
{cases}
        help) options='{commands} faults' ;;
    esac
    if [[ $current == -* || ${{COMP_WORDS[1]}} == help ]]; then
        mapfile -t COMPREPLY < <(compgen -W "$options" -- "$current")
    else
        compopt -o filenames
        mapfile -t COMPREPLY < <(compgen -f -- "$current")
    fi
}}

complete -F _ncc ncc
"""


def bash(helps: Help) -> str:
    names = " ".join(each.name for each in helps.commands)
    values = [
        f"        --{name}) mapfile -t COMPREPLY < <(compgen -W '{words}' -- \"$current\"); return ;;"
        for name, words in VALUES.items()
    ]
    cases = [f"        {each.name}) options='{flags(each)}' ;;" for each in helps.commands]
    return BASH.format(commands=names, values="\n".join(values), cases="\n".join(cases))


# ---- zsh


def quoted(words: str) -> str:
    return words.replace("'", "'\\''").replace("[", "\\[").replace("]", "\\]").replace(":", "\\:")


def zsh_option(option: Option) -> str:
    about = f"--{option.name}[{quoted(option.about)}]"
    if option.name in VALUES:
        return f"'{about}:{option.value}:({VALUES[option.name]})'"
    if option.value:
        return f"'{about}:{option.value}:{'_files' if option.value in FILES else ' '}'"
    return f"'{about}'"


def zsh(helps: Help) -> str:
    lines = ["#compdef ncc", "", "_ncc() {", "  local -a commands=("]
    lines += [f"    '{each.name}:{quoted(each.about)}'" for each in helps.commands]
    lines += ["    'help:Says more of a command, or of all faults'", "  )"]
    lines += ["  if ((CURRENT == 2)); then", "    _describe command commands", "    return", "  fi", "  case $words[2] in"]
    for each in helps.commands:
        lines += [f"    {each.name}) _arguments {' '.join(map(zsh_option, each.options))} '*:file:_files' ;;"]
    names = " ".join([*(each.name for each in helps.commands), "faults"])
    lines += [f"    help) compadd {names} ;;", "  esac", "}", "", '_ncc "$@"']
    return "\n".join(lines) + "\n"


# ---- fish


def fish_text(words: str) -> str:
    return "'" + words.replace("\\", "\\\\").replace("'", "\\'") + "'"


def fish_option(command: Command, option: Option) -> str:
    line = f"complete -c ncc -n '__fish_seen_subcommand_from {command.name}' -l {option.name} -d {fish_text(option.about)}"
    if option.name in VALUES:
        return f"{line} -x -a '{VALUES[option.name]}'"
    if option.value:
        return f"{line} {'-r' if option.value in FILES else '-x'}"
    return line


def fish(helps: Help) -> str:
    lines = ["complete -c ncc -n __fish_use_subcommand -f"]
    for each in helps.commands:
        lines.append(f"complete -c ncc -n __fish_use_subcommand -a {each.name} -d {fish_text(each.about)}")
        lines += [fish_option(each, option) for option in each.options]
    names = " ".join([*(each.name for each in helps.commands), "faults"])
    lines.append(f"complete -c ncc -n __fish_use_subcommand -a help -d 'Says more of a command, or of all faults'")
    lines.append(f"complete -c ncc -n '__fish_seen_subcommand_from help' -f -a '{names}'")
    return "\n".join(lines) + "\n"


def main() -> None:
    helps, out = help_of(sys.argv[1]), Path(sys.argv[2])
    out.mkdir(parents=True, exist_ok=True)
    (out / "ncc.bash").write_text(bash(helps))
    (out / "_ncc").write_text(zsh(helps))
    (out / "ncc.fish").write_text(fish(helps))


if __name__ == "__main__":
    main()
