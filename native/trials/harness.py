"""Not proved: what the tests of native/ share: programs, builds with a precompiled runtime, runs."""

from __future__ import annotations

import functools
import importlib
import os
import pathlib
import random
import re
import shutil
import subprocess
import sys
from dataclasses import dataclass
from typing import Any, Iterator

NATIVE = pathlib.Path(__file__).resolve().parent.parent
ROOT = NATIVE.parent
RUNTIME = NATIVE / "runtime"
sys.path.append(str(ROOT / "checks"))
sys.setrecursionlimit(100000)

from translator import Compiler, Options, compiled, pairs_of, read, written

# Tests ask the program that this names, and leave themselves out where it isn't set.
COMMUTE = os.environ.get("COMMUTE", "")
THREADS = (1, 2, 4, 16)
BUDGET = 1_000_000_000
# Random programs that end do so within fewer steps.
FEW_STEPS = 100_000
SECONDS = 600
FORCED = ("-DFORCED=100", "-O1")
SANITIZED = (*FORCED, "-fsanitize=thread", "-g")


@dataclass(frozen=True)
class Answer:
    status: int
    written: bytes
    told: bytes

    def tasks(self) -> int:
        """How many tasks were given, where that was asked for."""
        found = re.search(rb"tasks (\d+)", self.told)
        return int(found.group(1)) if found else 0


def asked(words: list[str], text: str = "", **variables: str) -> Answer:
    done = subprocess.run(
        words, input=text.encode(), capture_output=True, timeout=SECONDS, env={**os.environ, **variables}, check=False
    )
    return Answer(done.returncode, done.stdout, done.stderr)


def emitted(text: str) -> str:
    return asked([COMMUTE, "emit"], text).written.decode()


def due(text: str) -> bytes:
    """What `run 1` writes."""
    answer = asked([COMMUTE, "run", "1", str(BUDGET)], text)
    assert answer.status == 0, answer
    return answer.written


class Builds:
    """Makes programs in a folder, in which each set of words has its runtime precompiled."""

    def __init__(self, folder: pathlib.Path):
        self.folder = folder
        self.count = 0

    @functools.lru_cache(maxsize=None)
    def compiler(self, words: tuple[str, ...]) -> Compiler:
        first = self.folder / f"runtime{abs(hash(words))}"
        first.mkdir()
        shutil.copy(RUNTIME / "program.h", first / "program.h")
        compiler = Compiler(words=words, first=(str(first),))
        command = [
            *compiler.command(),
            "-w",
            "-x",
            "c++-header",
            str(RUNTIME / "program.h"),
            "-o",
            str(first / "program.h.gch"),
        ]
        subprocess.run(command, check=True)
        return compiler

    def built(self, text: str, options: Options = Options(), words: tuple[str, ...] = ()) -> str:
        """The program of a text of C++ or of the language."""
        self.count += 1
        out = str(self.folder / f"program{self.count}")
        marked = emitted(text)
        compiled(written(read(marked), options, pairs_of(marked)), out, self.compiler(words))
        return out

    def forced(self, text: str, words: tuple[str, ...] = FORCED, shares_apart: bool = True) -> str:
        return self.built(text, Options(is_forced=True, shares_apart=shares_apart), words)


def ran(program: str, threads: int) -> Answer:
    before = ["setarch", "-R"] if shutil.which("setarch") else []
    return asked([*before, program], COMMUTE_THREADS=str(threads), COMMUTE_TIMES="1")


def samples() -> Iterator[tuple[str, str]]:
    for path in sorted([*(ROOT / "samples").glob("*.cc"), *(ROOT / "samples" / "applications").glob("*.cc")]):
        yield path.stem, path.read_text()


def benchmarks() -> Iterator[tuple[str, str]]:
    """All but the one that has no number of its own."""
    for path in sorted([*(ROOT / "bench").glob("*.cc"), *(ROOT / "bench" / "marks").glob("*.cc")]):
        if path.stem != "sections":
            yield path.stem, path.read_text()


def with_more_turns(programs: Any) -> Any:
    """Random programs whose loops in `main` have hundreds of turns, so that some can be given away."""

    class Larger(programs):  # type: ignore[misc]
        def call_loop(self, names: Any) -> Any:
            kind, first, bound, step, body = super().call_loop(names)
            if self.within is None:
                first = (*first[:3], ("number", 0))
                bound = (*bound[:3], ("number", self.rng.randint(100, 600)))
            return (kind, first, bound, step, body)

    return Larger


def random_programs(count: int, first: int = 0) -> Iterator[tuple[str, str]]:
    """So many programs in which something that is marked is called, and which end."""
    linked = importlib.import_module("reference.linked")
    larger = with_more_turns(linked.Linked)
    found, seed = 0, first
    while found < count:
        rng = random.Random(seed)
        text = linked.LinkedWriter(rng).program((larger if seed % 2 == 0 else linked.Linked)(rng))
        if "/*@parallel*/" in emitted(text) and asked([COMMUTE, "run", "1", str(FEW_STEPS)], text).status == 0:
            found += 1
            yield f"seed {seed}", text
        seed += 1
