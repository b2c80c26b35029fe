# Not proved: a part of the fuzzer of cxx/, which compares the front with g++ by tests alone.
"""Random programs one after the other: g++'s run with its sanitizer against the run of the port."""

from __future__ import annotations

import argparse
import gc
import subprocess
import sys
import tempfile
from enum import Enum
from pathlib import Path

from porting import check
from porting.capacities import fitted
from porting.port import Porter
from porting.refusals import Unported

from program import HEAD, Program

FLAGS = ("-std=c++17", "-O0", "-w", "-fsanitize=undefined", "-fsanitize-undefined-trap-on-error")
SECONDS = 10
# So many programs are built as one, each in a namespace of its own, and the headers of all only once: else g++ takes
# more time than all else together.
BATCH = 10
HEADERS = "headers.hh"


class Verdict(Enum):
    """What came of a program."""

    SAME = "same"
    UNDEFINED = "undefined"
    REFUSED = "refused"
    OTHERWISE = "otherwise"
    FAULT = "fault"


def headers_built(folder: Path) -> None:
    """Puts the headers of every program into the folder, compiled."""
    (folder / HEADERS).write_text("\n".join(HEAD), encoding="utf-8")
    words = [*FLAGS, "-x", "c++-header", str(folder / HEADERS), "-o", str(folder / HEADERS) + ".gch"]
    subprocess.run(["g++", *words], check=True)


def built(folder: Path, texts: dict[int, str]) -> Path:
    """One program of several, which runs the one whose seed it is given."""
    heads = "\n".join(HEAD)
    parts = [f"namespace seed{seed} {{\n{text.replace(heads, '')}}}\n" for seed, text in texts.items()]
    cases = "".join(f"case {seed}: return seed{seed}::main();\n" for seed in texts)
    source, program = folder / "all.cc", folder / "all"
    source.write_text("".join(parts) + f"int main(int, char **v) {{ switch (std::atoi(v[1])) {{\n{cases}}} }}\n")
    words = ["g++", *FLAGS, "-include", str(folder / HEADERS), str(source), "-o", str(program)]
    done = subprocess.run(words, capture_output=True, check=False)
    if done.returncode:
        raise SystemExit(f"g++ refuses what the fuzzer wrote\n{done.stderr.decode(errors='replace')[:2000]}")
    return program


def by_compiler(program: Path, seed: int) -> tuple[bytes, int] | None:
    """What the program writes and its exit code; nothing where it isn't defined or doesn't end."""
    try:
        done = subprocess.run([str(program), str(seed)], capture_output=True, timeout=SECONDS, check=False)
    except subprocess.TimeoutExpired:
        return None
    return None if done.returncode < 0 else (done.stdout, done.returncode)


def compared(source: Path, wanted: tuple[bytes, int] | None) -> tuple[Verdict, str]:
    """The verdict about the port of one program, and what is said of it."""
    if wanted is None:
        return Verdict.UNDEFINED, ""
    try:
        made, answer = fitted(Porter([str(source)], []))
        check.compare(check.written(made, answer), *wanted)
    except Unported as unported:
        return Verdict.REFUSED, unported.lines[0]
    except check.Differs as differs:
        return Verdict.OTHERWISE, differs.said
    except Exception as fault:  # pylint: disable=broad-except
        return Verdict.FAULT, f"{type(fault).__name__}: {fault}"
    return Verdict.SAME, ""


def main(words: list[str]) -> int:
    """The command; its status is 1 where a defined program was refused or went otherwise."""
    parser = argparse.ArgumentParser(prog="cxx/fuzz/run", description="compares the front with g++ on random programs")
    parser.add_argument("--from", type=int, default=0, dest="first", metavar="SEED")
    parser.add_argument("--count", type=int, default=100, metavar="N")
    parser.add_argument("--keep", type=Path, metavar="FOLDER", help="where programs that go otherwise are kept")
    parser.add_argument("--show", type=int, metavar="SEED", help="writes the program of a seed, and nothing else")
    given = parser.parse_args(words)
    if given.show is not None:
        sys.stdout.write(Program(given.show).text())
        return 0
    sys.setrecursionlimit(100_000)
    gc.disable()
    return run(given.first, given.count, given.keep)


def run(first: int, count: int, keep: Path | None) -> int:
    """All programs of some seeds, with a line for each that isn't the same, and the counts at the end."""
    counts = {it: 0 for it in Verdict}
    with tempfile.TemporaryDirectory(prefix="fuzz-") as name:
        folder = Path(name)
        headers_built(folder)
        for begin in range(first, first + count, BATCH):
            seeds = range(begin, min(begin + BATCH, first + count))
            texts = {seed: Program(seed).text() for seed in seeds}
            program = built(folder, texts)
            # Looking for what is in a circle takes a third of the time otherwise.
            gc.collect()
            for seed, text in texts.items():
                source = folder / f"seed{seed}.cc"
                source.write_text(text, encoding="utf-8")
                verdict, said = compared(source, by_compiler(program, seed))
                counts[verdict] += 1
                if verdict not in (Verdict.SAME, Verdict.UNDEFINED):
                    print(f"seed {seed}: {verdict.value}: {said}", flush=True)
                    if keep:
                        keep.mkdir(parents=True, exist_ok=True)
                        (keep / source.name).write_text(text, encoding="utf-8")
                source.unlink()
    print(", ".join(f"{number} {it.value}" for it, number in counts.items()))
    return 0 if counts[Verdict.SAME] + counts[Verdict.UNDEFINED] == count else 1
