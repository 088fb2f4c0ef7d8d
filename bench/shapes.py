#!/usr/bin/env python3
"""Times `ncc check` and `ncc list` on headers of each shape beside their peers: `shapes.py [NCC [ROUNDS]]`.

A row tells the user and system time of `ncc` and of its peer, the least of 11 rounds in which they take turns, and
their peak memory. The peers are `ncvalidator -q` (pnetcdf-bin) and `ncdump -h` (netcdf-bin); the last row of the
checks is 10,000 small files, in one call of `ncc` and in as many of `ncvalidator`. What is printed is a table of
Markdown, that of docs/SPEED.md."""

import os
import shutil
import subprocess
import sys
import tempfile

HERE = os.path.dirname(os.path.abspath(__file__))


def taken(command):
    """The user and system time of a command, in seconds."""
    with open(os.devnull, "w") as nowhere:
        child = subprocess.Popen(command, stdout=nowhere, stderr=nowhere)
        usage = os.wait4(child.pid, 0)[2]
        child.returncode = 0
    return usage.ru_utime + usage.ru_stime


def peak(command):
    """The most memory of a command, in KiB."""
    timed = subprocess.run(["/usr/bin/time", "-f", "%M"] + command, stdout=subprocess.DEVNULL, stderr=subprocess.PIPE)
    return int(timed.stderr.split()[-1])


def row(title, own, peer, rounds):
    least = [None, None]
    for _ in range(rounds):
        for i, command in enumerate((own, peer)):
            time = taken(command)
            least[i] = time if least[i] is None else min(least[i], time)
    memory = [peak(own), peak(peer)]
    print(
        f"| {title} | {1000 * least[0]:.1f} | {1000 * least[1]:.1f} | {least[0] / least[1]:.2f}"
        f" | {memory[0]:,} | {memory[1]:,} | {memory[0] / memory[1]:.2f} |",
        flush=True,
    )


def head(own, peer):
    print(f"| | `{own}`, ms | `{peer}`, ms | ratio | KiB | KiB | ratio |")
    print("|---|---|---|---|---|---|---|")


def check_all(ncc, folder, names, rounds):
    head("ncc check", "ncvalidator -q")
    for name in names:
        path = f"{folder}/{name}.nc"
        row(name.replace("_", " "), [ncc, "check", path], ["ncvalidator", "-q", path], rounds)
    many = []
    for i in range(10000):
        many.append(f"{folder}/many_{i}.nc")
        shutil.copyfile(f"{folder}/small_file.nc", many[-1])
    loop = ["sh", "-c", 'for f in "$1"/many_*.nc; do ncvalidator -q "$f"; done', "sh", folder]
    row("10,000 small files", [ncc, "check"] + many, loop, 3)


def list_all(ncc, folder, rounds):
    head("ncc list", "ncdump -h")
    for name in ("24000_variables_of_20_attributes", "24000_variables", "24000_variables_of_rank_3", "small_file"):
        path = f"{folder}/{name}.nc"
        row(name.replace("_", " "), [ncc, "list", path], ["ncdump", "-h", path], rounds)


def main(ncc="ncc", rounds="11"):
    with tempfile.TemporaryDirectory() as folder:
        subprocess.run([sys.executable, f"{HERE}/headers.py", "shapes", folder], check=True)
        names = sorted(name[:-3] for name in os.listdir(folder))
        check_all(ncc, folder, names, int(rounds))
        print()
        list_all(ncc, folder, int(rounds))


if __name__ == "__main__":
    main(*sys.argv[1:])
