# Not proved (../README.md).
"""`commute++` where people call compilers: from any folder, in a Makefile, by CMake, on a terminal, ended on the way;
it keeps nothing behind."""

import os
import re
import shutil
import signal
import subprocess
import time
from pathlib import Path

import pytest

from calling import DRIVER, HEAVY, SERIAL, call, ran, written

CMAKE = """cmake_minimum_required(VERSION 3.10)
project(heavy CXX)
add_executable(out heavy.cc)
"""
MAKE = """out: heavy.cc
	$(CXX) $(CXXFLAGS) $< -o $@
"""


def environment(folder: Path) -> dict[str, str]:
    """With a folder of its own for temporary files, so that what is left there is seen."""
    (folder / "temporary").mkdir(exist_ok=True)
    return {**os.environ, "TMPDIR": str(folder / "temporary")}


def left(folder: Path) -> list[str]:
    return sorted(one.name for one in (folder / "temporary").iterdir())


def test_from_another_folder(tmp_path: Path) -> None:
    """Places are as the file was named, and the page shows each file once."""
    (tmp_path / "src").mkdir()
    (tmp_path / "build").mkdir()
    written(tmp_path / "src", "heavy.cc", HEAVY)
    for folder, name in ((tmp_path / "src", "./heavy.cc"), (tmp_path / "build", "../src/heavy.cc")):
        words = ["-O2", name, "-o", "out", "--no-check", "--remarks", "--report", "page.html"]
        done = subprocess.run(
            [str(DRIVER), *words],
            cwd=folder,
            env=environment(tmp_path),
            capture_output=True,
            text=True,
            check=False,
        )
        assert done.returncode == 0, done.stderr
        shown = name.removeprefix("./")
        assert f"{shown}:15:3: remark: loop may run in parallel" in done.stderr
        page = (folder / "page.html").read_text(encoding="utf-8")
        assert page.count("int main()") == 1
        assert ran(folder)[1] == 3
        assert sorted(one.name for one in folder.iterdir() if one.name != "heavy.cc") == ["out", "page.html"]
    assert left(tmp_path) == []


def test_in_a_makefile(tmp_path: Path) -> None:
    written(tmp_path, "heavy.cc", HEAVY)
    (tmp_path / "Makefile").write_text(MAKE, encoding="utf-8")
    words = ["make", f"CXX={DRIVER}", "CXXFLAGS=-O2 --any-speed"]
    done = subprocess.run(words, cwd=tmp_path, capture_output=True, text=True, env=environment(tmp_path), check=False)
    assert done.returncode == 0, done.stderr
    assert "heavy.cc: remark: built to run in parallel" in done.stderr
    assert ran(tmp_path)[1] == 3
    assert left(tmp_path) == []


@pytest.mark.skipif(shutil.which("cmake") is None, reason="cmake isn't installed (Debian: cmake)")
def test_cmake_takes_it_for_gxx(tmp_path: Path) -> None:
    written(tmp_path, "heavy.cc", HEAVY)
    (tmp_path / "CMakeLists.txt").write_text(CMAKE, encoding="utf-8")
    words = ["cmake", "-S", ".", "-B", "build", f"-DCMAKE_CXX_COMPILER={DRIVER}", "-DCMAKE_BUILD_TYPE=Release"]
    done = subprocess.run(words, cwd=tmp_path, capture_output=True, text=True, env=environment(tmp_path), check=False)
    assert done.returncode == 0, done.stderr
    assert re.search(r"The CXX compiler identification is GNU", done.stdout)
    done = subprocess.run(["cmake", "--build", "build"], cwd=tmp_path, capture_output=True, text=True, check=False)
    assert done.returncode == 0, done.stdout + done.stderr
    assert ran(tmp_path / "build")[1] == 3
    assert left(tmp_path) == []


def test_objects_are_those_of_gxx(tmp_path: Path) -> None:
    """Byte for byte, and what it says, too."""
    written(tmp_path, "heavy.cc", HEAVY)
    for program, out in ((str(DRIVER), "one.o"), ("g++", "other.o")):
        subprocess.run([program, "-O2", "-Wall", "-c", "heavy.cc", "-o", out], cwd=tmp_path, check=True)
    assert (tmp_path / "one.o").read_bytes() == (tmp_path / "other.o").read_bytes()
    for words in (
        ["--version"],
        ["-dumpversion"],
        ["-dM", "-E", "heavy.cc"],
        ["-nothing"],
        ["missing.cc"],
        ["one.o", "missing.o"],
    ):
        one, other = (
            subprocess.run([program, *words], cwd=tmp_path, capture_output=True, text=True, check=False)
            for program in (str(DRIVER), "g++")
        )
        assert (one.returncode, one.stderr) == (other.returncode, other.stderr)
        assert one.stdout == other.stdout


def test_statuses(tmp_path: Path) -> None:
    name = written(tmp_path, "serial.cc", SERIAL)
    assert call(tmp_path, name, "-o", "out").returncode == 0
    assert call(tmp_path, name, "-o", "out", "--must-parallel").returncode == 1
    for wrong in (["--check-seconds", "soon"], ["--why", "here"], ["--check", "'"], ["--report"]):
        done = call(tmp_path, name, "-o", "out", *wrong)
        assert done.returncode == 2, wrong
        assert "Traceback" not in done.stderr and "commute++: error: " in done.stderr
    done = call(tmp_path, "--help")
    assert done.returncode == 0 and done.stdout.startswith("usage: commute++ ")
    # A report that can't be written: OUT is there, and a line says what is the matter.
    done = call(tmp_path, name, "-o", "out", "--report", "nowhere/page.html")
    assert done.returncode == 0 and "nowhere/page.html: No such file or directory" in done.stderr
    assert ran(tmp_path)[1] == 0


def test_progress_on_a_terminal_alone(tmp_path: Path) -> None:
    name = written(tmp_path, "heavy.cc", HEAVY)
    ours, its = os.openpty()
    words = [str(DRIVER), "-O2", name, "-o", "out", "--any-speed"]
    with subprocess.Popen(words, cwd=tmp_path, stderr=its, env=environment(tmp_path)) as started:
        os.close(its)
        begun, seen, first = time.monotonic(), b"", 0.0
        while True:
            try:
                more = os.read(ours, 4096)
            except OSError:
                break
            first = first or time.monotonic() - begun
            seen += more
        assert started.wait() == 0
    os.close(ours)
    took = time.monotonic() - begun
    assert first >= 1.9 or first >= 0.9 * took
    if took > 3:
        assert b"\r\x1b[Kcommute++: " in seen
    # What is left on the last line is what came of it alone.
    assert seen.replace(b"\r\n", b"\n").split(b"\x1b[K")[-1].startswith(b"heavy.cc: remark: built to run in parallel")
    assert "\x1b" not in call(tmp_path, *words[1:]).stderr
    assert left(tmp_path) == []


def test_ended_on_the_way(tmp_path: Path) -> None:
    """The program of g++ is there, and nothing else."""
    name = written(tmp_path, "heavy.cc", HEAVY)
    words = [str(DRIVER), "-O2", name, "-o", "out", "--any-speed"]
    with subprocess.Popen(words, cwd=tmp_path, env=environment(tmp_path), stderr=subprocess.PIPE) as started:
        while not (tmp_path / "out").exists():
            time.sleep(0.05)
        time.sleep(1.5)
        started.send_signal(signal.SIGTERM)
        assert started.stderr is not None
        told = started.stderr.read().decode()
        status = started.wait(20)
    if status == 0:
        pytest.skip("it was over before it was ended")
    assert status == 130 and "Traceback" not in told
    assert ran(tmp_path)[1] == 3
    assert left(tmp_path) == []
    assert sorted(one.name for one in tmp_path.iterdir()) == ["heavy.cc", "out", "temporary"]


def test_a_folder_that_cannot_be_written(tmp_path: Path) -> None:
    """Errors of g++ are g++'s."""
    name = written(tmp_path, "serial.cc", SERIAL)
    done = call(tmp_path, name, "-o", "nowhere/out")
    alone = subprocess.run(
        ["g++", name, "-o", "nowhere/out"], capture_output=True, text=True, cwd=tmp_path, check=False
    )
    assert done.returncode == alone.returncode != 0
    assert re.sub(r"/tmp/\w+\.o", "", done.stderr) == re.sub(r"/tmp/\w+\.o", "", alone.stderr)
