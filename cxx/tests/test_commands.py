# Not proved (../README.md).
"""The two commands as a user calls them: files, options, statuses, what is told."""

import json
import subprocess
import sys
from pathlib import Path

HERE = Path(__file__).resolve().parent
CXX = HERE.parent


def call(name: str, *words: str, folder: Path) -> subprocess.CompletedProcess[str]:
    command = [sys.executable, str(CXX / name), *words]
    return subprocess.run(command, capture_output=True, text=True, cwd=folder, check=False)


def written(folder: Path, name: str, text: str) -> str:
    (folder / name).write_text(text, encoding="utf-8")
    return name


SUM = """#include <cstdio>
#include <vector>
struct Cell {
  long n = 0;
  void add(long v) { n += v; }
};
int main() {
  std::vector<Cell *> all;
  for (int i = 0; i < 9; i++) all.push_back(new Cell);
  for (Cell *c : all) c->add(3);
  printf("%ld\\n", all[8]->n);
}
"""


def test_port_writes_text_and_map(tmp_path: Path) -> None:
    done = call("port", written(tmp_path, "sum.cc", SUM), folder=tmp_path)
    assert (done.returncode, done.stdout, done.stderr) == (0, "", "")
    lines = (tmp_path / "sum.ported.cc").read_text(encoding="utf-8").splitlines()
    told = json.loads((tmp_path / "sum.ported.cc.map").read_text(encoding="utf-8"))
    assert len(told["lines"]) == len(lines)
    at = next(number for number, line in enumerate(lines) if "n += v" in line)
    assert told["lines"][at].startswith("sum.cc:5:")
    assert told["classes"]["Cell"]["operations"]["add"]["is"] == "Cell::add"


def test_told_in_the_users_lines(tmp_path: Path) -> None:
    done = call("told", written(tmp_path, "sum.cc", SUM), folder=tmp_path)
    assert done.returncode == 0
    assert done.stdout.splitlines() == [
        "sum.cc:9: loop is serial: its iterations make objects (sum.cc:9); make them in a loop of its own before",
        "sum.cc:10: loop runs in parallel",
        "1 of 2 loops and recursions run in parallel",
    ]


def test_several_files_headers_and_macros(tmp_path: Path) -> None:
    (tmp_path / "inc").mkdir()
    written(tmp_path, "inc/shape.h", "#pragma once\nstruct Shape { int side; int area() const; };\n")
    written(tmp_path, "shape.cc", '#include "shape.h"\nint Shape::area() const { return side * side * SCALE; }\n')
    text = '#include <cstdio>\n#include "shape.h"\nint main() { Shape s{3}; printf("%d\\n", s.area()); return 4; }\n'
    written(tmp_path, "main.cc", text)
    done = call("port", "main.cc", "shape.cc", "-I", "inc", "-D", "SCALE=5", "-o", "out.cc", folder=tmp_path)
    assert (done.returncode, done.stderr) == (0, "")
    assert (tmp_path / "out.cc").exists() and (tmp_path / "out.cc.map").exists()


def test_all_refusals_at_once_by_their_places(tmp_path: Path) -> None:
    text = "#include <cstdio>\nint main() {\n  double x = 1;\n  goto end;\nend:\n  int (*f)() = nullptr;\n  return f();\n}\n"
    done = call("port", written(tmp_path, "bad.cc", text), folder=tmp_path)
    assert done.returncode == 1
    places = [line.split(": ")[0] for line in done.stderr.splitlines()]
    assert "bad.cc:3:3" in places and "bad.cc:4:3" in places and "bad.cc:6:3" in places
    assert "Traceback" not in done.stderr


def test_what_clang_refuses(tmp_path: Path) -> None:
    done = call("port", written(tmp_path, "bad.cc", "#include <regex>\nint main() { return x; }\n"), folder=tmp_path)
    assert done.returncode == 1
    assert done.stderr.startswith("bad.cc:1:10: ") and "these headers are known" in done.stderr


def test_a_program_that_goes_otherwise_is_not_ported(tmp_path: Path) -> None:
    text = '#include <cstdio>\nstruct Guard {\n  ~Guard() { printf("bye\\n"); }\n};\n'
    text += 'int main() {\n  Guard g;\n  printf("hi\\n");\n}\n'
    done = call("port", written(tmp_path, "guard.cc", text), folder=tmp_path)
    assert done.returncode == 3
    assert done.stderr.startswith("not ported: line 2 of the output differs: the program writes 'bye'")


def test_an_order_that_is_left_open_is_told(tmp_path: Path) -> None:
    text = "#include <cstdio>\nstatic int n;\nstatic int next() { return ++n; }\n"
    text += 'int main() { printf("%d %d\\n", next(), next()); }\n'
    done = call("port", written(tmp_path, "open.cc", text), folder=tmp_path)
    told = "open.cc:4: C++ leaves open which argument is evaluated first; ported as g++ does it\n"
    assert (done.returncode, done.stderr) == (0, told)


def test_traps_are_told_in_the_users_lines(tmp_path: Path) -> None:
    text = "struct Node { Node *next; int v; };\nint main() {\n  Node *n = new Node();\n  return n->next->v;\n}\n"
    done = call("port", written(tmp_path, "trap.cc", text), folder=tmp_path)
    assert (done.returncode, done.stderr) == (
        3,
        "not ported: trap.cc:4:10: a null pointer is followed: the run of the port ends here\n",
    )


def test_without_check_that_is_said(tmp_path: Path) -> None:
    done = call("port", "--no-check", written(tmp_path, "sum.cc", SUM), folder=tmp_path)
    assert (done.returncode, done.stderr) == (0, "not checked: whether the port writes what the program writes\n")


def test_usage_and_files(tmp_path: Path) -> None:
    assert call("port", folder=tmp_path).returncode == 2
    assert call("told", "--wrong", folder=tmp_path).returncode == 2
    done = call("told", "none.cc", folder=tmp_path)
    assert (done.returncode, done.stderr) == (5, "none.cc: no such file\n")
    for name in ("port", "told"):
        shown = call(name, "--help", folder=tmp_path)
        assert shown.returncode == 0 and "statuses:" in shown.stdout


def test_the_guide_shows_what_is_told() -> None:
    """Each line of `told` that the guide shows is one that it writes."""
    page = (CXX.parent / "docs" / "guide" / "cxx.md").read_text(encoding="utf-8")
    shown = [line for line in page.splitlines() if line.startswith("springs.cc:")]
    plain = call("told", "--plain", "springs.cc", folder=CXX / "samples")
    done = call("told", "springs.cc", folder=CXX / "samples")
    assert shown and set(shown) <= set(plain.stdout.splitlines() + done.stdout.splitlines())
