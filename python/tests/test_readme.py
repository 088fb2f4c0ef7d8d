"""The examples of the package's README."""

import doctest
from pathlib import Path

import pytest
from conftest import EXAMPLES

README = EXAMPLES.parent / "python" / "README.md"


@pytest.mark.skipif(not README.exists(), reason="the README isn't beside the examples")
def test_examples(monkeypatch: pytest.MonkeyPatch, tmp_path: Path):
    (tmp_path / "examples").symlink_to(EXAMPLES)
    monkeypatch.chdir(tmp_path)
    blocks = [part.split("```")[0] for part in README.read_text(encoding="utf-8").split("```python\n")[1:]]
    (tmp_path / "example.txt").write_text("\n".join(blocks))
    failed, tried = doctest.testfile(str(tmp_path / "example.txt"), module_relative=False)
    assert (failed, tried) == (0, 14)
