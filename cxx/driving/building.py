"""Not proved (../README.md). C++ of a ported text, by native/translator, with the user's own prints and ends; and
programs of it."""

import os
import re
import shutil
import subprocess
import sys
import tempfile
from dataclasses import dataclass

from porting import form
from porting.clang import INCLUDE
from porting.limits import LIMITS
from porting.places import NOWHERE
from porting.port import Ported

from translator import Compiler, Options, pairs_of, read, tree, written
from translator.apart import apart
from translator.building import asked

from . import prints

LIMIT = re.compile(r"limit (?P<line>\d+):\d+ (?P<code>E\d+)")
RUNTIME = os.path.join(os.path.dirname(os.path.abspath(__file__)), "runtime")
# How long a worker waits for others to ask, where sharing is forced, in pauses and microseconds.
FORCED = "-DFORCED=300"
# What is linked beside a built program, so that it has the program of g++ within it.
OWN = """asm(R"(
  .section .rodata
  .balign 16
  .globl commute_own, commute_own_end
commute_own:
  .incbin "%s"
commute_own_end:
  .byte 0
  .previous
)");
extern "C" const int commute_least_threads;
const int commute_least_threads = %d;
"""


class Unbuilt(Exception):
    """No program is made of the ported text: why."""


@dataclass
class Marked:
    """A ported text with its marks, as a text and as what is said of its pairs."""

    ported: Ported
    text: str
    pairs: str

    def program(self) -> tree.Program:
        """Its tree, a new one each time, since translating changes it."""
        made = read(self.text)
        prints.with_ends(made, prints.ends_of(self.ported))
        return made


def marked(ported: Ported) -> Marked:
    status, text = asked("emit", str(ported.text).encode())
    if status != 0:
        raise Unbuilt(_not_accepted(ported, text.strip() or f"status {status}"))
    return Marked(ported, text, pairs_of(text))


def _not_accepted(ported: Ported, told: str) -> str:
    """A limit of the language in the user's words, at his place where it has one; else what was told."""
    found = LIMIT.match(told)
    if found is None or found["code"] not in LIMITS:
        return f"the ported text isn't accepted ({told})"
    at = int(found["line"]) - 1
    place = ported.text.places[at] if at < len(ported.text.places) else NOWHERE
    return (
        f"{place}: {LIMITS[found['code']]}"
        if place.line and not place.file.startswith(INCLUDE)
        else LIMITS[found["code"]]
    )


def unit(it: Marked, program: tree.Program, options: Options, heads: list[str] | None = None) -> str:
    """The C++ of a tree of the text. `heads` go behind the prints."""
    body = written(program, options, it.pairs if options.shares_apart else "")
    lines = heads or ["static void show_at_end() {}"]
    return "\n".join([*prints.before(it.ported.sites), *lines, body, *prints.AFTER]) + "\n"


def counted_lines(ported: Ported) -> list[int]:
    """The lines of the ported text that begin a `for`, in their order, which is that of the loops in a tree of it."""
    return _begun(ported, "for (", form.Count)


def uncounted_lines(ported: Ported) -> list[int]:
    """The same of each `while`."""
    return _begun(ported, "while (", form.Loop)


def _begun(ported: Ported, word: str, kind: type[form.Count] | type[form.Loop]) -> list[int]:
    """Lines that begin with the word; 0 for those of the text's own functions, which stand for no statement."""
    text = ported.text
    return [
        line if isinstance(one, kind) else 0
        for line, (words, one) in enumerate(zip(text.lines, text.statements), 1)
        if words.lstrip().startswith(word)
    ]


def apart_lines(it: Marked) -> set[int]:
    """The lines of loops that are shared where the objects on which they work are all different."""
    program = read(it.text)
    loops = [
        one
        for method in [*program.methods(), program.main]
        for one in tree.within(method.body)
        if isinstance(one, tree.For)
    ]
    shared = {one.line for one in apart(program, it.pairs)}
    return {line for one, line in zip(loops, counted_lines(it.ported)) if one.line in shared}


def shares(text: str) -> bool:
    """Whether anything of a unit may run in parallel."""
    return "region(site" in text


def made(text: str, out: str, words: list[str], is_forced: bool = False) -> None:
    """Compiles a unit, and links it."""
    # What the translator itself makes of a construct is ours to look at, and no warning for a user.
    compiler = Compiler("g++", ((FORCED,) if is_forced else ()) + ("-w", *words), (RUNTIME,))
    with tempfile.TemporaryDirectory(prefix="commute++.") as folder:
        source = os.path.join(folder, "program.cc")
        _write(source, text)
        _call([*compiler.command(), source, "-o", out, "-Wl,--as-needed"])


@dataclass
class Within:
    """A unit that is compiled, to be linked with the program of g++."""

    folder: str
    own: str
    words: list[str]

    def compile(self, text: str) -> None:
        source = os.path.join(self.folder, "built.cc")
        _write(source, text.replace('#include "prints.h"', '#include "own.h"', 1))
        compiler = Compiler("g++", ("-w", *self.words), (RUNTIME,))
        _call([*compiler.command(), "-c", source, "-o", self._file("built.o")])

    def link(self, out: str, least_threads: int) -> None:
        """A program that is g++'s where fewer threads may run than these."""
        # Its own name may have letters that a text of C++ can't have as they are.
        shutil.copyfile(self.own, self._file("own"))
        _write(self._file("own.cc"), OWN % (self._file("own"), least_threads))
        compiler = Compiler("g++", ("-w", *self.words))
        _call([*compiler.command(), self._file("own.cc"), self._file("built.o"), "-o", out, "-Wl,--as-needed"])

    def _file(self, name: str) -> str:
        return os.path.join(self.folder, name)


def _write(file: str, text: str) -> None:
    with open(file, "w", encoding="utf-8") as out:
        out.write(text)


def _call(words: list[str]) -> None:
    status = subprocess.run(words, check=False).returncode
    if status != 0:
        raise Unbuilt(f"{words[0]} ended with status {status}")


def deep() -> None:
    """Brackets and branches of a text nest some thousand calls."""
    sys.setrecursionlimit(100000)
