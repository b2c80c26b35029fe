# Not proved: a part of the fuzzer of cxx/, which compares the rewrites with g++ by tests alone.
"""Random programs through the whole search: g++'s run with its sanitizer against runs of the rewritten port by several workers."""

from __future__ import annotations

import argparse
import subprocess
import sys
import tempfile
import threading
from collections import Counter
from pathlib import Path
from random import Random

from porting import check, finishing
from porting.capacities import fitted
from porting.engine import BUDGET, ask
from porting.port import Ported, Porter
from porting.refusals import Unported
from porting.shaping import owned, roles, search, structs
from porting.shaping.building import Shape
from porting.shaping.duplicates import duplicate
from porting.sites import Sites

from comparing import FLAGS, SECONDS, Verdict
from kernels import Kernels

WORKERS = (1, 4)
# How many programs g++ compiles at once, each in a namespace: their headers take the most of its time.
AT_ONCE = 25
# How often rewrites are done that the search doesn't ask for, and how many upon each other.
PASSES, MOST_TRIALS = 3, 3
Written = tuple[bytes, int] | None


def by_compiler(folder: Path, texts: dict[int, str]) -> dict[int, Written]:
    """What each program writes and its exit code; nothing where it isn't defined or doesn't end."""
    source, program = folder / "all.cc", folder / "all"
    lines: list[str] = []
    for seed, text in texts.items():
        own = text.split("\n")
        heads = [line for line in own if line.startswith("#include")]
        lines += [line for line in heads if line not in lines]
        lines += [f"namespace k{seed} {{", *(line for line in own if line not in heads), "}"]
    cases = [f"    case {seed}: return k{seed}::main();" for seed in texts]
    lines += [
        "#include <cstdlib>",
        "int main(int, char **words) {",
        "  switch (std::atoi(words[1])) {",
        *cases,
        "  }",
        "}",
    ]
    source.write_text("\n".join(lines), encoding="utf-8")
    built = subprocess.run(["g++", *FLAGS, str(source), "-o", str(program)], capture_output=True, check=False)
    if built.returncode:
        raise SystemExit(f"g++ refuses what the fuzzer wrote\n{built.stderr.decode(errors='replace')[:2000]}")
    return {seed: _run(program, seed) for seed in texts}


def _run(program: Path, seed: int) -> Written:
    try:
        done = subprocess.run([str(program), str(seed)], capture_output=True, timeout=SECONDS, check=False)
    except subprocess.TimeoutExpired:
        return None
    return None if b"runtime error" in done.stderr or done.returncode < 0 else (done.stdout, done.returncode)


def compared(source: Path, wanted: Written, done: Counter[str], tried: Counter[str]) -> tuple[Verdict, str]:
    """The verdict about one program, and what is said of it; adds which rewrites were done by the search, and which anyhow."""
    if wanted is None:
        return Verdict.UNDEFINED, ""
    try:
        porter = Porter([str(source)], [])
        plain, answer = fitted(porter)
        check.compare(check.written(plain, answer), *wanted)
        program, sites = porter.lowered(porter.capacities)
        shape = search.searched(program)
        done.update(shape.done)
        ended, text, stops = search.finished(shape)
        made = Ported(porter.files, ended.program, text, sites, stops, ended.told, ended.loops)
        for count in WORKERS:
            check.compare(check.written(made, ask(str(text), "run", str(count), str(BUDGET))), *wanted)
        anyhow(porter, sites, wanted, Random(source.name), tried)
    except Unported as unported:
        return Verdict.REFUSED, unported.lines[0]
    except check.Differs as differs:
        return Verdict.OTHERWISE, differs.said
    except Exception as fault:  # pylint: disable=broad-except
        return Verdict.FAULT, f"{type(fault).__name__}: {fault}"
    return Verdict.SAME, "rewritten" if shape.done else ""


def anyhow(porter: Porter, sites: Sites, wanted: tuple[bytes, int], random: Random, tried: Counter[str]) -> None:
    """Some of what the search may try, one upon the other, whatever is marked then: the runs have to be the same too."""
    program, _ = porter.lowered(porter.capacities)
    shape = Shape(program)
    if random.random() < 0.5:
        shape = structs.flattened(shape) or shape
        shape = roles.split(shape) or shape
    finishing.begin(shape.program)
    for one in shape.program.methods():
        owned.all_of(shape, one)
    for _ in range(PASSES):
        trial = duplicate(shape)
        for _ in range(random.randint(1, MOST_TRIALS)):
            able = search.trials(trial)
            if able:
                able[random.choice(sorted(able))](trial)
        ended, text, stops = search.finished(trial)
        answer = ask(str(text), "run", "1", str(BUDGET))
        # (what isn't accepted as a text of the language is tried in vain)
        if answer.status != 1 or answer.lines:
            made = Ported(porter.files, ended.program, text, sites, stops, ended.told, ended.loops)
            check.compare(check.written(made, answer), *wanted)
            tried.update(trial.done)


class Tried:
    """The programs that were compared as yet."""

    def __init__(self, keep: Path | None) -> None:
        self.keep = keep
        self.verdicts: Counter[Verdict] = Counter()
        self.done: Counter[str] = Counter()
        self.programs: Counter[str] = Counter()
        self.anyhow: Counter[str] = Counter()

    def some(self, folder: Path, first: int, count: int) -> None:
        """Compares programs whose outputs are found at once."""
        texts = {seed: Kernels(seed).text() for seed in range(first, first + count)}
        for seed, wanted in by_compiler(folder, texts).items():
            source = folder / f"kernels_{seed}.cc"
            source.write_text(texts[seed], encoding="utf-8")
            here: Counter[str] = Counter()
            tried: Counter[str] = Counter()
            verdict, said = compared(source, wanted, here, tried)
            self.verdicts[verdict] += 1
            self.done.update(here)
            self.programs.update(here.keys())
            self.anyhow.update(tried.keys())
            if verdict not in (Verdict.SAME, Verdict.UNDEFINED):
                print(f"seed {seed}: {verdict.value}: {said}", flush=True)
                if self.keep is not None:
                    self.keep.mkdir(parents=True, exist_ok=True)
                    (self.keep / source.name).write_bytes(source.read_bytes())

    def lines(self) -> list[str]:
        """How often each rewrite was done."""
        return [
            f"  {name}: {self.done[name]} times in {self.programs[name]} programs, anyhow in {self.anyhow[name]}"
            for name in sorted({*self.done, *self.anyhow})
        ]


def tried(first: int, count: int, keep: Path | None) -> int:
    """Compares as many programs as are wanted from a seed on; the number that went otherwise."""
    all_ = Tried(keep)
    with tempfile.TemporaryDirectory() as folder:
        for at in range(first, first + count, AT_ONCE):
            all_.some(Path(folder), at, min(AT_ONCE, first + count - at))
            print(
                f"seeds {first} to {min(at + AT_ONCE, first + count) - 1}: {shown(all_.verdicts)}",
                file=sys.stderr,
                flush=True,
            )
    print(f"seeds {first} to {first + count - 1}: {shown(all_.verdicts)}")
    print("\n".join(all_.lines()))
    return sum(all_.verdicts[one] for one in (Verdict.OTHERWISE, Verdict.FAULT, Verdict.REFUSED))


def shown(verdicts: Counter[Verdict]) -> str:
    return ", ".join(f"{verdicts[one]} {one.value}" for one in Verdict)


def main(words: list[str]) -> int:
    """The command; its status is 1 where a defined program was refused or went otherwise."""
    parser = argparse.ArgumentParser(
        prog="cxx/fuzz/search", description="compares the rewrites with g++ on random programs"
    )
    parser.add_argument("--from", type=int, default=0, dest="first", metavar="SEED")
    parser.add_argument("--count", type=int, default=100, metavar="N")
    parser.add_argument("--keep", type=Path, metavar="FOLDER", help="where programs that go otherwise are kept")
    parser.add_argument("--show", type=int, metavar="SEED", help="writes the program of a seed, and ends")
    given = parser.parse_args(words)
    if given.show is not None:
        print(Kernels(given.show).text(), end="")
        return 0
    failed = [0]

    def action() -> None:
        failed[0] = tried(given.first, given.count, given.keep)

    # (trees of programs nest deeply)
    sys.setrecursionlimit(100000)
    threading.stack_size(512 * 1024 * 1024)
    thread = threading.Thread(target=action)
    thread.start()
    thread.join()
    return int(failed[0] > 0)
