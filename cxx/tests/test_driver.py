# Not proved (../README.md).
"""`commute++` as a user calls it: g++ where it has to be, a checked program where that pays, and one line that says
why not."""

import re
import subprocess
from pathlib import Path

import pytest

from calling import HEAVY, SERIAL, call, ran, written

HERE = Path(__file__).resolve().parent
UNKNOWN = """#include <cstdio>
#include <cmath>
int main() {
  double x = 2.5;
  printf("%f\\n", x * 3);
}
"""


def test_errors_are_those_of_gxx(tmp_path: Path) -> None:
    name = written(tmp_path, "wrong.cc", "int main() { return nothing; }\n")
    done = call(tmp_path, name, "-o", "out")
    alone = subprocess.run(["g++", name, "-o", "out"], capture_output=True, text=True, cwd=tmp_path, check=False)
    assert (done.returncode, done.stderr) == (alone.returncode, alone.stderr)


def test_objects_are_left_to_gxx(tmp_path: Path) -> None:
    name = written(tmp_path, "heavy.cc", HEAVY)
    done = call(tmp_path, "-c", "-O2", name, "-o", "heavy.o")
    assert (done.returncode, done.stderr) == (0, "")
    done = call(tmp_path, "heavy.o", "-o", "out")
    assert (done.returncode, done.stderr) == (0, "")
    assert ran(tmp_path)[1] == 3


def test_what_is_not_understood_is_compiled_as_it_is(tmp_path: Path) -> None:
    done = call(tmp_path, written(tmp_path, "unknown.cc", UNKNOWN), "-o", "out")
    assert done.returncode == 0
    assert len(done.stderr.splitlines()) == 1
    assert re.match(r"unknown\.cc:\d+:\d+: remark: compiled as it is: not understood: ", done.stderr)
    assert ran(tmp_path) == ("7.500000\n", 0)


def test_what_has_nothing_to_share_is_compiled_as_it_is(tmp_path: Path) -> None:
    done = call(tmp_path, written(tmp_path, "serial.cc", SERIAL), "-o", "out", "--must-parallel")
    assert done.returncode == 1
    assert done.stderr == "serial.cc: remark: compiled as it is: nothing is shown to run in any order\n"
    assert ran(tmp_path)[1] == 0


def test_why_and_text_report(tmp_path: Path) -> None:
    words = (
        "-O2",
        written(tmp_path, "heavy.cc", HEAVY),
        "-o",
        "out",
        "--no-check",
        "--why",
        "14",
        "--report",
        "heavy.txt",
    )
    done = call(tmp_path, *words)
    assert done.returncode == 0
    assert done.stdout.startswith("heavy.cc:14:3: loop: serial")
    assert "make objects (heavy.cc:14)" in done.stdout
    report = (tmp_path / "heavy.txt").read_text(encoding="utf-8")
    assert re.search(r"^heavy\.cc:15:3: loop: may run in parallel, \d+\.\d % of the run, begun once$", report, re.M)


def test_built_program_writes_what_that_of_gxx_writes(tmp_path: Path) -> None:
    name = written(tmp_path, "heavy.cc", HEAVY)
    subprocess.run(["g++", "-O2", name, "-o", "own"], cwd=tmp_path, check=True)
    done = call(tmp_path, "-O2", name, "-o", "out", "--no-check")
    assert done.returncode == 0
    assert done.stderr.startswith("heavy.cc: remark: built to run in parallel: ")
    for threads in ("1", "2", "4"):
        assert ran(tmp_path, threads=threads) == ran(tmp_path, "own")


def test_page_is_whole(tmp_path: Path) -> None:
    call(tmp_path, "-O2", written(tmp_path, "heavy.cc", HEAVY), "-o", "out", "--no-check", "--report", "heavy.html")
    text = (tmp_path / "heavy.html").read_text(encoding="utf-8")
    assert text.startswith("<!doctype html>")
    names = set(re.findall(r' id="([^"]+)"', text))
    links = set(re.findall(r'href="#([^"]+)"', text))
    assert links <= names
    assert "http" not in text and "<script" not in text


@pytest.mark.parametrize("name", ["bank_of_queues", "shapes", "classic_treeadd"])
def test_checked_programs(tmp_path: Path, name: str) -> None:
    source = str(HERE / "programs" / f"{name}.cc")
    subprocess.run(["g++", "-O2", source, "-o", "own"], cwd=tmp_path, check=True)
    done = call(tmp_path, "-O2", source, "-o", "out")
    assert done.returncode == 0
    assert "fault" not in done.stderr
    for threads in ("1", "4"):
        assert ran(tmp_path, threads=threads) == ran(tmp_path, "own")
