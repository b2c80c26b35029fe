# Not proved (../README.md).
"""The samples as their Makefile builds them: three run in parallel and write what those of g++ write, and one is g++'s."""

import os
import subprocess
import sys
from pathlib import Path

import pytest

CXX = Path(__file__).resolve().parent.parent
SAMPLES = CXX.parent / "samples" / "cxx"


@pytest.mark.parametrize("name", ["fluid", "galaxy", "shops", "machine"])
def test_sample(tmp_path: Path, name: str) -> None:
    source = str(SAMPLES / f"{name}.cc")
    lines = Path(source).read_text(encoding="utf-8").count("\n")
    assert 200 <= lines <= 400 or name == "machine"
    subprocess.run(["g++", "-O2", "-Wall", "-Wextra", "-Werror", source, "-o", "own"], cwd=tmp_path, check=True)
    words = [sys.executable, str(CXX / "commute++"), "-O2", source, "-o", "out", "--any-speed"]
    done = subprocess.run(words, capture_output=True, text=True, cwd=tmp_path, check=False)
    assert done.returncode == 0
    due = "nothing is shown to run in any order" if name == "machine" else "built to run in parallel"
    assert due in done.stderr, done.stderr
    wanted = subprocess.run([str(tmp_path / "own")], capture_output=True, check=True).stdout
    for threads in ("1", "2", "4"):
        environment = {**os.environ, "COMMUTE_THREADS": threads}
        assert (
            subprocess.run([str(tmp_path / "out")], capture_output=True, env=environment, check=True).stdout == wanted
        )
    assert sorted(one.name for one in tmp_path.iterdir()) == ["out", "own"]
