# Not proved (../README.md).
"""Parts of the driver: its words, the prints of built programs, the ends of loops, and what the check finds."""

import os
import subprocess
import sys
from pathlib import Path

import pytest

HERE = Path(__file__).resolve().parent
sys.path.insert(0, str(HERE.parent.parent / "native"))

from driving import building, judging, prints, ranges, words  # noqa: E402
from driving.runs import Endless, Run, run  # noqa: E402
from porting.port import Porter  # noqa: E402
from porting.sites import Sites, decoded  # noqa: E402
from translator import Options  # noqa: E402


@pytest.mark.parametrize(
    "given",
    [
        ["-c", "a.cc"],
        ["a.o", "-o", "a"],
        ["a.cc", "b.o"],
        ["-fsanitize=address", "a.cc"],
        ["-x", "c++", "a"],
        ["-E", "a.cc"],
    ],
)
def test_left_to_gxx(given: list[str]) -> None:
    assert words.read(given).is_left_to_gxx()


def test_words_are_told_apart() -> None:
    said = words.read(
        [
            "-O3",
            "-I",
            "inc",
            "-DN=3",
            "a.cc",
            "b.cpp",
            "-o",
            "out",
            "-march=native",
            "-lm",
            "--report",
            "r.html",
            "--why",
            "12",
        ]
    )
    assert not said.is_left_to_gxx()
    assert (said.sources, said.out, said.report, said.why) == (["a.cc", "b.cpp"], "out", "r.html", 12)
    assert said.gxx == ["-O3", "-I", "inc", "-DN=3", "a.cc", "b.cpp", "-o", "out", "-march=native", "-lm"]
    assert said.reading == ["-I", "inc", "-DN=3"]
    assert said.code == ["-O3", "-march=native"]


def test_ends_of_statements() -> None:
    text = "void f() {\n  for (int i = 0; i < 3; i++)\n    g(')', \"}\"); // {\n  for (;;) {\n    h();\n  }\n}\n"
    lines = ranges.bare(text)
    assert [ranges.end_of(lines, line, 1) for line in (1, 2, 4)] == [7, 3, 6]


WAYS: list[tuple[str, list[int]]] = [
    ("%d32", [0, -1, 5000000000]), ("%5d32", [7, -7, 123456]), ("%-6d64", [5]), ("%05d32", [42, -42]), ("%x32", [255, -1]), ("%#x64", [255, 0]), ("%u32", [-1]),
    ("%c", [65]), ("%3c", [66]), ("%s", [1, 2, 0]), ("%8s", [1]), ("%.2s", [2]), ("c", [97]), ("s", [1, 0]), ("b", [0, 1]), ("d32", [5, -5, 1 << 31]), ("u8", [300]), ("d64", [-9]),
    ("%+d64", [5, -5]), ("%.3d32", [5, -5]), ("%o32", [8]),
]  # fmt: skip
STREAM: list[tuple[str, int]] = [
    ("!setw", 6),
    ("!setfill", 42),
    ("d32", -12),
    ("d32", 5),
    ("!left", 0),
    ("!setw", 4),
    ("s", 1),
    ("!hex", 0),
    ("d32", -1),
    ("!boolalpha", 0),
    ("b", 1),
    ("!setw", 3),
    ("c", 90),
]


def test_prints_are_those_of_the_decoder(tmp_path: Path) -> None:
    """Each way of printing in C++ as the check of ports has it, which g++'s own bytes are compared with."""
    sites, values = Sites(), list[int]()
    sites.know({'say "\\? hello%', "wörld"})
    for way, each in [*WAYS, *((way, [value]) for way, value in STREAM)]:
        for value in each:
            values += [sites.add(["<\\", (way,), ">\n"] if not way.startswith("!") else [(way,)]), value]
    values += [0, 7]
    calls = "".join(f"  print({value}L);\n" for value in values)
    text = "\n".join([*prints.before(sites), "static void show_at_end() {}", "const unsigned COPIES = 0;", "const std::size_t SIZES[] = {sizeof(Object)};",
                      "void write_fields(Out &, const Object &) {}", "void program() {", calls, "}", *prints.AFTER, ""])  # fmt: skip
    out = str(tmp_path / "prints")
    building.made(text, out, ["-O0"])
    seen = run(out, 20, 1)
    wanted = decoded([str(value) for value in values], sites)
    assert seen.output.decode("latin-1") == wanted.text
    assert seen.code == wanted.code == 7


def test_a_wrong_translation_and_another_exit_are_found() -> None:
    wanted = Run(b"1\n2\n", "", 0, 0.1)
    judging.compare(wanted, wanted, "")
    with pytest.raises(judging.Differs, match="line 2"):
        judging.compare(wanted, Run(b"1\n3\n", "", 0, 0.1), "by 4 threads")
    with pytest.raises(judging.Differs, match="ends with 1"):
        judging.compare(wanted, Run(b"1\n2\n", "", 1, 0.1), "by 4 threads")


def test_runs_end_in_time(tmp_path: Path) -> None:
    (tmp_path / "endless").write_text("#!/bin/sh\nwhile :; do :; done\n", encoding="utf-8")
    os.chmod(tmp_path / "endless", 0o755)
    with pytest.raises(Endless):
        run(str(tmp_path / "endless"), 0.3)


def test_an_assertion_ends_the_program_as_in_cxx(tmp_path: Path) -> None:
    source = tmp_path / "stops.cc"
    source.write_text(
        '#include <cassert>\n#include <cstdio>\nint main() {\n  printf("a\\n");\n  int n = 3;\n  assert(n < 3);\n}\n',
        encoding="utf-8",
    )
    it = building.marked(Porter([str(source)], []).ported({}))
    building.made(building.unit(it, it.program(), Options(is_plain=True)), str(tmp_path / "out"), [])
    done = subprocess.run([str(tmp_path / "out")], capture_output=True, check=False)
    assert (done.stdout, done.returncode) == (b"a\n", -6)
    assert b"n < 3" in done.stderr
