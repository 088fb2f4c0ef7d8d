"""Many files: rows, the two commands, and the page."""

from __future__ import annotations

import os
import pickle
import shutil
import subprocess
import sys
import xml.etree.ElementTree as tree
from pathlib import Path

import pytest
from classic import make
from conftest import ALL, EXAMPLES, expected

import ncc
from ncc import _page, archiving
from ncc.archiving import walk


def brief(path: Path) -> str:
    """The line of `ncc check --brief`, by the text beside the example."""
    first = expected(path).split("\n")[0]
    return f"{0 if first.startswith('ok') else 1}\t{first}\t{path}"


def run(*words: str, folder: Path | None = None) -> subprocess.CompletedProcess[str]:
    return subprocess.run([sys.executable, "-m", "ncc", *words], capture_output=True, text=True, timeout=60, cwd=folder)


@pytest.fixture
def room(tmp_path: Path) -> Path:
    """A tree with all examples, a broken link, and files of other names."""
    for k, path in enumerate(ALL):
        folder = tmp_path / "files" / f"part{k % 3}"
        folder.mkdir(parents=True, exist_ok=True)
        shutil.copy(path, folder)
    (tmp_path / "files" / "part0" / "gone.nc").symlink_to("nowhere")
    (tmp_path / "files" / "part1" / "note.txt").write_text("no netCDF")
    return tmp_path / "files"


def wanted_rows(room: Path) -> list[str]:
    lines = []
    for path in sorted(room.rglob("*.nc")):
        if path.exists():
            lines.append(brief(EXAMPLES / path.name).rsplit("\t", 1)[0] + f"\t{path}")
        else:
            lines.append(f"3\terror device\t{path}")
    return lines


def test_rows():
    paths = [*map(str, ALL), "not_there.nc", EXAMPLES]
    rows = list(ncc.archive(paths))
    assert [row.path for row in rows] == list(map(str, paths))
    assert [f"{row.status}\t{row.verdict}\t{row.path}" for row in rows[: len(ALL)]] == [brief(path) for path in ALL]
    for row, path in zip(rows, ALL):
        words = expected(path).split()
        assert (row.fault, row.offset) == ((words[1], int(words[3])) if row.status else (None, None))
    assert rows[-2] == ("not_there.nc", 3, None, None, os.strerror(2)) and rows[-2].verdict == "error device"
    assert rows[-1].words == os.strerror(21)


def test_rows_are_made_as_they_are_asked_for():
    rows = ncc.archive(path for path in ("not_there.nc", None))
    assert next(rows).status == 3
    with pytest.raises(TypeError):
        next(rows)


def test_processes_give_the_same_rows():
    paths = [str(path) for path in ALL] + ["not_there.nc"]
    assert list(ncc.archive(paths, jobs=2, batch=9)) == list(ncc.archive(paths))
    with pytest.raises(ValueError):
        list(ncc.archive(paths, jobs=2, batch=0))
    with pytest.raises(ValueError):
        ncc.archive(paths, max_header=-1)


class LocalClient:
    """What `archive` asks of a Dask client, done here."""

    def __init__(self, workers: dict[str, int]) -> None:
        self.workers = workers
        self.arguments: list[tuple[object, ...]] = []
        self.gathered: list[int] = []

    def nthreads(self) -> dict[str, int]:
        return self.workers

    def map(self, call, *arguments, pure):
        self.arguments = list(zip(*arguments))
        return [lambda words=words: call(*words) for words in self.arguments]

    def gather(self, futures):
        self.gathered.append(len(futures))
        return [future() for future in futures]


def test_client_is_asked_for_few_batches_at_a_time():
    paths = [str(path) for path in ALL] * 2 + ["", "not\0a path", "no\udcffname.nc", EXAMPLES]
    for workers, at_once in (({}, 1), ({"one": 1, "two": 1}, 2), ({"one": 9}, archiving.AT_ONCE)):
        client = LocalClient(workers)
        rows = ncc.archive(paths, client, batch=7)
        assert client.gathered == []
        first = next(rows)
        assert client.gathered == [at_once]
        assert [first, *rows] == list(ncc.archive(paths))
        assert sum(client.gathered) == len(client.arguments) == -(-len(paths) // 7)
        assert max(client.gathered) == at_once


def test_what_a_client_is_handed_is_packed():
    # (Dask serializes each item of a list by itself, and looks for keys of other tasks in it)
    client = LocalClient({"one": 1})
    assert len(list(ncc.archive(ALL, client))) == len(ALL)
    assert {tuple(map(type, words)) for words in client.arguments} == {(bytes, int)}


@pytest.mark.parametrize(
    "files, workers, batches, longest",
    [
        (10_000, {"one": 1, "two": 1}, 4, 2500),
        (10_001, {"one": 1, "two": 1}, 5, 2500),
        (100, {"one": 2, "two": 3}, 10, 10),
        (3, {"one": 4}, 3, 1),
    ],
)
def test_batches_of_a_client(files: int, workers: dict[str, int], batches: int, longest: int):
    client = LocalClient(workers)
    next(ncc.archive(["not_there.nc"] * files, client))
    lengths = [len(pickle.loads(names)) for names, _ in client.arguments]
    assert (len(lengths), max(lengths), sum(lengths)) == (batches, longest, files)


def test_client_without_workers_yet():
    client = LocalClient({})
    assert list(ncc.archive(ALL, client)) == list(ncc.archive(ALL)) and len(client.arguments) > 1
    with pytest.raises(ValueError):
        ncc.archive(ALL, client, batch=0)


def test_worker_in_another_folder_has_the_same_files(tmp_path: Path, monkeypatch: pytest.MonkeyPatch):
    (tmp_path / "there" / "deep").mkdir(parents=True)
    (tmp_path / "link").symlink_to("there/deep")
    shutil.copy(EXAMPLES / "ocean.nc", tmp_path / "there" / "ocean.nc")
    monkeypatch.chdir(tmp_path)
    # (what `..` means after a link isn't what the words say)
    paths, client = ["there/ocean.nc", "link/../ocean.nc", "ocean.nc"], LocalClient({"one": 1})
    wanted = list(ncc.archive(paths))
    assert [row.status for row in wanted] == [0, 0, 3]
    assert list(ncc.archive(paths, client)) == wanted
    named = [name for names, _ in client.arguments for name in pickle.loads(names)]
    assert named == [f"{tmp_path}/{path}" for path in paths]


def test_error_of_memory_has_its_words(monkeypatch: pytest.MonkeyPatch):
    def refused(*words):
        raise ncc.errors.OutOfMemory

    monkeypatch.setattr("ncc.archiving.check", refused)
    (row,) = ncc.archive(["x.nc"])
    assert (row.status, row.verdict) == (3, "error memory")


def test_walk(room: Path):
    assert list(walk(room)) == [str(path) for path in sorted(room.rglob("*.nc"))]
    assert list(walk(room / "part1", "*.txt")) == [str(room / "part1" / "note.txt")]
    assert list(walk(room / "part1" / "note.txt")) == [str(room / "part1" / "note.txt")]
    assert list(walk(room / "nowhere")) == [str(room / "nowhere")]


def test_folder_that_cannot_be_read(room: Path, monkeypatch: pytest.MonkeyPatch):
    scandir = os.scandir

    def refused(path):
        if str(path).endswith("part1"):
            raise PermissionError(13, "Permission denied", str(path))
        return scandir(path)

    monkeypatch.setattr(os, "scandir", refused)
    assert str(room / "part1") in list(walk(room))


def test_command_archive(room: Path):
    done = run("archive", str(room))
    assert done.stdout.splitlines() == wanted_rows(room)
    assert (done.returncode, done.stderr) == (3, "")
    assert run("archive", str(room), "--jobs", "2").stdout == done.stdout


def test_command_archive_says_why(room: Path):
    plain, told = run("archive", str(room)), run("archive", "--verbose", str(room))
    assert told.stdout == plain.stdout and told.returncode == 3
    assert told.stderr == f"ncc: {room / 'part0' / 'gone.nc'}: {os.strerror(2)}\n"


def test_command_archive_without_a_file(room: Path, tmp_path: Path):
    for more in ([], ["--html", str(tmp_path / "page.html")]):
        done = run("archive", str(room / "part1"), "--match", "*.none", *more)
        assert (done.returncode, done.stdout) == (2, "")
        assert done.stderr == f"ncc: {room / 'part1'}: no file has a name that fits *.none\n"
    assert run("archive", str(room / "nowhere"), "--match", "*.none").returncode == 3


def test_command_check():
    done = run("check", "ocean.nc", folder=EXAMPLES)
    assert (done.stdout, done.returncode) == (expected(EXAMPLES / "ocean.nc") + "\n", 0)
    names = ["noted.nc", "bad_tag_1.nc"]
    done = run("check", *names, folder=EXAMPLES)
    wanted = [f"{name}: {line}" for name in names for line in expected(EXAMPLES / name).split("\n")]
    assert done.stdout.splitlines() == wanted
    assert done.returncode == 1
    done = run("check", "not_there.nc", "ocean.nc", folder=EXAMPLES)
    assert done.stderr.splitlines()[0] == "not_there.nc: error device" and done.returncode == 3
    assert run("nothing").returncode == run("check", "--max-header", "-1", "ocean.nc").returncode == 2


def test_page_that_cannot_be_written(room: Path, tmp_path: Path):
    done = run("archive", str(room), "--html", str(tmp_path / "none" / "page.html"))
    assert (done.returncode, done.stdout) == (3, "") and "No such file" in done.stderr


def test_reader_that_goes_away(room: Path):
    words = f"{sys.executable} -m ncc archive {room}; echo status $? >&2"
    done = subprocess.run(["bash", "-c", f"{{ {words}; }} | true"], capture_output=True, text=True, timeout=60)
    assert done.stderr in ("status 3\n", "status 1\n")


def test_long_header_with_a_fault(tmp_path: Path):
    made = make(1, [(b"x", 2)], [(b"long", 2, bytes(100_000))], [(b"v", [0], [], 4)])
    path = tmp_path / "long.nc"
    path.write_bytes(made.header)
    words = _page.page("r", list(ncc.archive([path])), ncc.LIMIT)
    assert f"header: bytes 0 to {len(made.header)}" in words


def test_page(room: Path, tmp_path: Path):
    done = run("archive", str(room), "--html", str(tmp_path / "page.html"))
    assert done.stdout.splitlines() == wanted_rows(room) and done.returncode == 3
    words = (tmp_path / "page.html").read_text(encoding="utf-8")
    assert words.startswith("<!DOCTYPE html>\n")
    page = tree.fromstring(words)
    drawn = list(page.iter("{http://www.w3.org/2000/svg}svg"))
    of_layout = ["too_large", "in_header", "overlap", "record_window", "fixed_after", "truncated"]
    assert len(drawn) == len(of_layout) == sum(any(it in path.name for it in of_layout) for path in ALL)
    told = " ".join(page.itertext())
    for path in ALL:
        assert (f"{path.name}" in told) == (path.name.startswith("bad_"))
    assert os.strerror(2) in told and "have a fault" in told
    for forbidden in ("<script", "<link", "src=", "href=", "url(", "@import", "<img", "<iframe"):
        assert forbidden not in words


def test_page_shows_any_name(tmp_path: Path):
    made = make(1, [(b"x", 2)], [], [(b"<b>&\"'\x01\xff", [0], [], 4)])
    path = tmp_path / "a<script>&\x02\udcfe.nc"
    path.write_bytes(made.header)
    (row,) = ncc.archive([path])
    assert row.fault == "Truncated"
    page = tree.fromstring(_page.page("<root>", [row], ncc.LIMIT))
    told = "".join(page.itertext())
    assert "a<script>&\\x02\\xfe.nc" in told and "<b>&\"'\\x01\\xff" in told and "<root>" in told


def test_picture_shows_the_places(tmp_path: Path):
    made = make(2, [(b"t", 0), (b"x", 10)], [], [(b"one", [1], [], 4), (b"two", [0, 1], [], 6)], 5)
    path = tmp_path / "cut.nc"
    path.write_bytes(made.header + bytes(made.length - len(made.header) - 8))
    (row,) = ncc.archive([path])
    assert (row.fault, row.words) == ("Truncated", f"fault Truncated at {len(made.header) - 8}")
    words = _page.page("r", [row], ncc.LIMIT)
    assert f"one: bytes {made.begins[0]} to {made.begins[0] + 40}" in words
    assert f"two: bytes {made.begins[1]} to {made.length}" in words
    assert f"the file ends at {made.length - 8}" in words
    assert words.count('class="fault"') == 1


def test_page_of_many_variables(tmp_path: Path):
    made = make(1, [(b"x", 2)], [], [(b"v%d" % k, [0], [], 4) for k in range(100)])
    path = tmp_path / "many.nc"
    path.write_bytes(made.header + bytes(made.length - len(made.header) - 400))
    words = _page.page("r", list(ncc.archive([path])), ncc.LIMIT)
    assert f"{100 - _page.MOST_BARS} more variables" in words and words.count('class="fault"') == 1
    tree.fromstring(words)
