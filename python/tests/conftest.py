"""What the tests share: the examples, the program, random selections, and a server of ranges on this machine."""

from __future__ import annotations

import os
import random
import subprocess
import threading
import urllib.request
from collections.abc import Iterator
from http.server import BaseHTTPRequestHandler, ThreadingHTTPServer
from pathlib import Path
from typing import Any

import pytest

EXAMPLES = Path(os.environ.get("NCC_EXAMPLES", Path(__file__).parents[2] / "examples"))
PROGRAM = Path(os.environ.get("NCC_PROGRAM", EXAMPLES.parent / "crates" / "ncc_cli" / "out" / "ncc_cli"))
ALL = sorted(EXAMPLES.glob("*.nc"))
SOUND = [path for path in ALL if not path.name.startswith("bad_")]
FAULTY = [path for path in ALL if path.name.startswith("bad_")]


def named(path: Path) -> str:
    return path.stem


def expected(path: Path) -> str:
    """What `ncc check` prints of an example: the text beside it."""
    return path.with_suffix(".checked").read_text(encoding="utf-8").rstrip("\n")


def by_program(*words: str | Path) -> str:
    """What the program `ncc` prints, where it was built."""
    if not PROGRAM.exists():
        pytest.skip(f"there is no program at {PROGRAM}")
    return subprocess.run([PROGRAM, *words], capture_output=True, text=True, timeout=60).stdout.rstrip("\n")


def random_key(draw: random.Random, shape: tuple[int, ...]) -> Any:
    """A random basic index, sometimes one that isn't inside the shape."""
    parts: list[Any] = []
    for length in shape[: draw.randint(0, len(shape))]:
        if draw.random() < 0.35:
            parts.append(draw.randint(-length - (draw.random() < 0.05), max(length - 1, 0)))
        else:
            ends = [None, *range(-length - 2, length + 3)]
            parts.append(slice(draw.choice(ends), draw.choice(ends), draw.choice([None, 1, 2, 3, -1, -2, -5])))
    if draw.random() < 0.4:
        parts.insert(draw.randint(0, len(parts)), Ellipsis)
    if draw.random() < 0.2:
        parts.insert(draw.randint(0, len(parts)), None)
    return parts[0] if len(parts) == 1 and draw.random() < 0.5 else tuple(parts)


class RangeServer:
    """Serves bytes by name, and keeps the (first, size) of each request for a range."""

    def __init__(self) -> None:
        self.files: dict[str, bytes] = {}
        self.requests: list[tuple[int, int]] = []
        outer = self

        class Handler(BaseHTTPRequestHandler):
            wbufsize = -1

            def log_message(self, *words: Any) -> None:
                pass

            def do_HEAD(self) -> None:
                self.send_response(200)
                self.send_header("Content-Length", str(len(outer.files[self.path])))
                self.end_headers()

            def do_GET(self) -> None:
                data = outer.files[self.path]
                first, last = (int(word) for word in self.headers["Range"].removeprefix("bytes=").split("-"))
                part = data[first : last + 1]
                outer.requests.append((first, len(part)))
                self.send_response(206)
                self.send_header("Content-Length", str(len(part)))
                self.end_headers()
                self.wfile.write(part)

        self.server = ThreadingHTTPServer(("127.0.0.1", 0), Handler)
        threading.Thread(target=self.server.serve_forever, args=(0.01,), daemon=True).start()

    def url(self, name: str) -> str:
        return f"http://127.0.0.1:{self.server.server_port}{name}"

    @property
    def bytes_read(self) -> int:
        return sum(size for _, size in self.requests)


class HttpFile:
    """A file on a server, with `read` and `seek`: each read is one request of a range."""

    def __init__(self, url: str) -> None:
        self.url, self.at = url, 0
        with urllib.request.urlopen(urllib.request.Request(url, method="HEAD")) as answer:
            self.length = int(answer.headers["Content-Length"])

    def seek(self, at: int, whence: int = 0) -> int:
        self.at = at + (self.length if whence == 2 else 0)
        return self.at

    def read(self, size: int) -> bytes:
        if size == 0 or self.at >= self.length:
            return b""
        wanted = {"Range": f"bytes={self.at}-{self.at + size - 1}"}
        with urllib.request.urlopen(urllib.request.Request(self.url, headers=wanted)) as answer:
            read = answer.read()
        self.at += len(read)
        return read


@pytest.fixture
def server() -> Iterator[RangeServer]:
    it = RangeServer()
    yield it
    it.server.shutdown()
    it.server.server_close()
