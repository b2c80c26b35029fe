# Not proved (../README.md).
"""Wrong words of the commands and odd files: a status and a line, never a traceback, and no file is lost."""

import os
import subprocess
import sys
from pathlib import Path

import pytest

CXX = Path(__file__).resolve().parent.parent
SUM = '#include <cstdio>\nint main() {\n  int s = 0;\n  for (int i = 0; i < 5; i++) s += i;\n  printf("%d\\n", s);\n}\n'
# The words, the status, and what the last line on standard error ends with.
WRONG: list[tuple[str, list[str], int, str]] = [
    ("port", [], 2, "the following arguments are required: FILE"),
    ("told", [], 2, "the following arguments are required: FILE"),
    ("port", ["--wrong", "sum.cc"], 2, "unrecognized arguments: --wrong"),
    ("port", ["--pairs", "sum.cc"], 2, "unrecognized arguments: --pairs"),
    ("told", ["-o", "out.cc", "sum.cc"], 2, "unrecognized arguments: -o"),
    ("port", ["sum.cc", "-I"], 2, "argument -I: expected one argument"),
    ("port", ["sum.cc", "-o"], 2, "argument -o: expected one argument"),
    ("port", ["-D", "3x=1", "sum.cc"], 2, "'3x=1' doesn't begin with the name of a macro"),
    ("port", ["sum.cc", "./sum.cc"], 2, "error: sum.cc is named twice"),
    ("port", ["sum.cc", "-o", "sum.cc"], 2, "-o sum.cc would be written over a file of the program"),
    ("told", ["none.cc"], 5, "none.cc: no such file"),
    ("told", ["folder"], 5, "folder: is a folder, and no file of C++"),
    ("port", ["sum.cc", "-o", "none/out.cc"], 5, "none/out.cc: No such file or directory"),
    ("port", ["sum.cc", "-o", "folder"], 5, "folder: Is a directory"),
    ("port", ['quo"te.cc'], 5, "a name with a quotation mark can't be included; give the file another"),
    ("told", ["empty.cc"], 1, "the program has no main; name the file that has it, too"),
    ("told", ["binary.cc"], 1, "error: expected unqualified-id"),
]


def call(name: str, words: list[str], folder: Path, program: str | None = None) -> subprocess.CompletedProcess[str]:
    environment = dict(os.environ, **({"COMMUTE": program} if program else {}))
    command = [sys.executable, str(CXX / name), *words]
    done = subprocess.run(command, capture_output=True, text=True, cwd=folder, check=False, env=environment)
    assert "Traceback" not in done.stderr
    return done


@pytest.fixture
def folder(tmp_path: Path) -> Path:
    (tmp_path / "sum.cc").write_text(SUM, encoding="utf-8")
    (tmp_path / 'quo"te.cc').write_text(SUM, encoding="utf-8")
    (tmp_path / "my sum").write_text(SUM, encoding="utf-8")
    (tmp_path / "empty.cc").write_text("", encoding="utf-8")
    (tmp_path / "binary.cc").write_bytes(bytes(range(256)) * 8)
    (tmp_path / "folder").mkdir()
    return tmp_path


@pytest.mark.parametrize(
    "name, words, status, ending", WRONG, ids=lambda it: " ".join(it) if isinstance(it, list) else ""
)
def test_a_wrong_use_is_told_in_a_line(name: str, words: list[str], status: int, ending: str, folder: Path) -> None:
    done = call(name, words, folder)
    assert (done.returncode, done.stdout) == (status, "")
    assert done.stderr.splitlines()[-1].endswith(ending)
    assert (folder / "sum.cc").read_text(encoding="utf-8") == SUM


def test_a_program_that_is_not_there(folder: Path) -> None:
    for program, said in (("/nowhere/commute", "No such file or directory"), (str(folder), "Permission denied")):
        done = call("port", ["sum.cc"], folder, program)
        assert done.returncode == 5
        assert done.stderr == f"{program}: {said}; build the project, or name a program by COMMUTE\n"


def test_any_name_of_a_file_will_do(folder: Path) -> None:
    done = call("port", ["--plain", "my sum"], folder)
    assert (done.returncode, done.stderr) == (0, "")
    assert (folder / "my sum.ported.cc").exists()


def test_who_reads_may_stop(folder: Path) -> None:
    command = f"'{sys.executable}' '{CXX / 'told'}' --plain sum.cc | true"
    done = subprocess.run(["bash", "-c", command], capture_output=True, text=True, cwd=folder, check=False)
    assert done.stderr == ""
