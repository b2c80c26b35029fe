"""What `./commute --prove` spares of the kit's work, on crates that stand in for the kit's."""

from __future__ import annotations

import pathlib
import subprocess
import sys

import pytest
from proving import in_one_go, remembered

PROVING = pathlib.Path(__file__).resolve().parent.parent / "proving.py"
# A command like the kit's: it says whether its parts are its own, and what the proof of a program gives.
KIT = """#!/usr/bin/env python3
import sys, types
KIT = "/kit"
class Library:
    is_program, name = True, "small"
    def below(self): return []
    def words(self, flags, keeps): return []
    def prove(self, words): return 0
    def link(self, made, to): return 0
rtlib = types.SimpleNamespace(Crate=Library)
class Crate(Library):
    def ci(self, flags, tests): return 7
def main(words):
    is_whole = Crate.ci.__name__ == "ci"
    print("whole" if is_whole else "spared", words, 7 if is_whole else Crate().ci([], False))
    return 1
if __name__ == "__main__":
    sys.exit(main(sys.argv[1:]))
"""


def asked(folder: pathlib.Path, text: str) -> tuple[str, int]:
    """What `proving.py` writes with such a command, and its status."""
    rt = folder / "rt"
    rt.write_text(text)
    rt.chmod(0o755)
    done = subprocess.run([sys.executable, PROVING, rt], stdout=subprocess.PIPE, text=True)
    return done.stdout, done.returncode


class Crate:
    """A crate that walks all paths below it, as the kit's do."""

    walks = 0

    def __init__(self, *deps: Crate) -> None:
        self.deps = [*deps]

    def below(self) -> list[Crate]:
        Crate.walks += 1
        found: list[Crate] = []
        for dep in self.deps:
            found += [it for it in [*dep.below(), dep] if it not in found]
        return found


def test_the_list_below_is_the_same_and_walked_once(monkeypatch: pytest.MonkeyPatch) -> None:
    chain = [Crate()]
    for _ in range(11):
        chain.append(Crate(*chain))
    due = [chain[-1].below(), chain[5].below()]
    whole, Crate.walks = Crate.walks, 0
    monkeypatch.setattr(Crate, "below", remembered(Crate.below))
    assert [chain[-1].below(), chain[5].below()] == due == [chain[:11], chain[:5]]
    assert Crate.walks == len(chain) < whole
    chain[-1].below().clear()
    assert chain[-1].below() == due[0]
    chain[0].deps.append(Crate())
    assert len(chain[0].below()) == 1


class Program:
    """A program of the kit, which notes what is asked of it."""

    name = "small"

    def __init__(self, is_program: bool, status: int = 0) -> None:
        self.is_program, self.status = is_program, status
        self.asked: list[object] = []

    def words(self, flags: list[str], keeps: bool) -> list[str]:
        return ["--crate-name", self.name, *flags]

    def prove(self, words: list[str]) -> int:
        self.asked.append(words)
        return self.status

    def link(self, made: str, to: str) -> int:
        self.asked.append((made, to))
        return 0


def test_a_program_is_proved_and_built_in_one_call() -> None:
    ci = in_one_go(lambda crate, flags, tests: 9, "tools")
    program = Program(True)
    assert ci(program, ["--jobs", "2"], False) == 0
    words = "build --crate-name small --jobs 2 --toolchain tools --backend llvm -o out/small.o"
    assert program.asked == [words.split(), ("out/small.o", "out/small")]


def test_what_is_not_proved_is_not_linked() -> None:
    program = Program(True, status=1)
    assert in_one_go(lambda crate, flags, tests: 9, "tools")(program, [], False) == 1
    assert len(program.asked) == 1


def test_libraries_and_tests_are_proved_as_ever() -> None:
    ci = in_one_go(lambda crate, flags, tests: 9, "tools")
    library, program = Program(False), Program(True)
    assert (ci(library, [], False), ci(program, [], True), library.asked, program.asked) == (9, 9, [], [])


@pytest.mark.parametrize("parameters", ["self", "self, flags, tests, more"])
def test_another_kit_proves_without(tmp_path: pathlib.Path, parameters: str) -> None:
    text = KIT.replace("self, flags, tests", parameters)
    assert asked(tmp_path, text) == ("whole ['ci'] 7\n", 1)


def test_a_kit_that_cannot_be_read_proves_without(tmp_path: pathlib.Path) -> None:
    assert asked(tmp_path, '#!/bin/sh\necho "ran $*"\nexit 3\n') == ("ran ci\n", 3)


def test_a_kit_of_that_form_is_asked_for_all(tmp_path: pathlib.Path) -> None:
    assert asked(tmp_path, KIT) == ("spared ['ci'] 0\n", 1)
