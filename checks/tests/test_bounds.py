"""How functions are counted, by small files of Rattle and Python."""

from __future__ import annotations

import pathlib
import subprocess

BOUNDS = pathlib.Path(__file__).resolve().parent.parent / "bounds"
NINE = "a: u8, b: (u8, u8), c: &[Vec<u8, Global>], d: impl Fn(u8, u8) -> u8, e: u8, f: u8, g: u8, h: u8"


def told(path: pathlib.Path, text: str) -> list[str]:
    path.write_text(text)
    done = subprocess.run([BOUNDS, path], stdout=subprocess.PIPE, text=True)
    lines = [line.removeprefix(f"{path}: ") for line in done.stdout.splitlines()[:-1]]
    assert done.returncode == int(lines != [])
    return lines


def test_nine_arguments_of_rattle_are_too_many(tmp_path: pathlib.Path) -> None:
    path = tmp_path / "lib.rt"
    assert told(path, f"fn eight({NINE}) {{\n}}\n") == []
    assert told(path, f"fn nine({NINE}, i: u8) {{\n}}\n") == ["nine has 9 arguments"]
    generic = f"impl A {{\n    pub fn of_self<A: Ord<u8>, const N: usize>(\n        &mut self,\n        {NINE},\n    ) -> u8\n        ensures {{ a < b, c }}\n    {{\n    }}\n}}\n"
    assert told(path, generic) == []
    assert told(path, generic.replace("&mut self", "i: u8")) == ["of_self has 9 arguments"]


def test_the_body_counts_and_not_the_contract(tmp_path: pathlib.Path) -> None:
    path = tmp_path / "lib.rt"
    contract = "fn long(a: u8) -> u8\n" + "    ensures { a }\n" * 60 + "{\n"
    assert told(path, contract + "    a;\n" * 40 + "}\n") == []
    assert told(path, contract + "    a;\n" * 41 + "}\n") == ["long has 41 lines"]
    assert (
        told(path, "trait A {\n    fn none(&self) -> u8;\n\n    fn one(&self) -> u8 { 1 }\n}\n" + "// more\n" * 50)
        == []
    )


def test_what_is_quoted_counts_for_nothing(tmp_path: pathlib.Path) -> None:
    path = tmp_path / "lib.rt"
    assert (
        told(path, "fn quoted(a: u8, // not, these, at, all, and, no, (more\n    b: u8) {\n    let c = '(';\n}\n") == []
    )


def test_python(tmp_path: pathlib.Path) -> None:
    path = tmp_path / "tool.py"
    assert told(path, "class A:\n    def eight(self, a, b, c, d, e, f, *, g, h):\n        pass\n") == []
    assert told(path, "def nine(a, b, c, d, e, f, /, g, *, h, i):\n    pass\n") == ["nine has 9 arguments"]
    assert told(path, 'def long():\n    """It says\n    what it does."""\n' + "    pass\n" * 40) == []
    assert told(path, "def long():\n" + "    pass\n" * 41) == ["long has 41 lines"]
