"""Not proved (README.md). The check of a port, each time: g++ builds the user's program, and both are run.

The bytes that the program writes and its exit code have to be those that the run of the port stands for.
"""

import os
import shutil
import subprocess
import tempfile
from dataclasses import dataclass

from .engine import Answer
from .clang import INCLUDE
from .limits import LIMITS, TRAPS
from .places import Place
from .port import Ported
from .sites import Written, decoded

SECONDS = 120
NO_PLACES: list[Place] = []
# So that what a program has written is there also where it ends by a failed assertion.
UNBUFFERED = """#include <cstdio>
namespace {
struct Unbuffered_ {
  Unbuffered_() { std::setvbuf(stdout, nullptr, _IONBF, 0); }
} unbuffered_;
}  // namespace
"""
FLAGS = ["-std=c++17", "-O1", "-w"]


@dataclass
class Differs(Exception):
    """The port doesn't write what the program writes, or that can't be told: what is said of it."""

    said: str
    checked: bool = True


def compiled(files: list[str], words: list[str], out: str) -> None:
    """Builds the user's program by g++."""
    if shutil.which("g++") is None:
        raise Differs("g++ isn't there: install it, or say --no-check", False)
    beside = out + ".unbuffered.cc"
    with open(beside, "w", encoding="utf-8") as text:
        text.write(UNBUFFERED)
    done = subprocess.run(
        ["g++", *FLAGS, *words, "-x", "c++", *files, beside, "-o", out], capture_output=True, check=False
    )
    if done.returncode:
        first = done.stderr.decode(errors="replace").strip().splitlines()
        raise Differs("g++ refuses the program:\n" + "\n".join(first[:20]), False)


def run_of(program: str) -> tuple[bytes, int]:
    """What the user's program writes, and its exit code as a shell has it."""
    try:
        done = subprocess.run(
            [program],
            stdin=subprocess.DEVNULL,
            stdout=subprocess.PIPE,
            stderr=subprocess.DEVNULL,
            timeout=SECONDS,
            check=False,
        )
    except subprocess.TimeoutExpired:
        raise Differs(f"the program doesn't end within {SECONDS} seconds", False) from None
    code = done.returncode
    return done.stdout, 128 - code if code < 0 else code


def expected(files: list[str], words: list[str]) -> tuple[bytes, int]:
    with tempfile.TemporaryDirectory() as folder:
        program = os.path.join(folder, "program")
        compiled(files, words, program)
        return run_of(program)


def written(ported: Ported, answer: Answer) -> Written:
    """What the run of the port stands for; where it didn't end, what is said of that."""
    accepted(ported, answer)
    if answer.status not in (0, 3, 4):
        raise Differs(f"the run of the port ended with status {answer.status}", False)
    told = decoded(answer.lines, ported.sites)
    if told.end is not None:
        _ended(ported, told)
    return told


def accepted(ported: Ported, answer: Answer) -> None:
    """Ends with `Differs` where the ported text is refused."""
    if answer.status in (1, 8) and answer.lines:
        raise Differs(_refused(ported, answer.lines[0]), False)


def _refused(ported: Ported, line: str) -> str:
    """A refusal of the ported text in the user's words."""
    word, where, code = (line.split() + ["", ""])[:3]
    at = int(where.split(":")[0]) if where else 0
    place = ported.text.places[at - 1] if 0 < at <= len(ported.text.places) else ported.program.main.place
    shown = f"{place}: " if place.line else ""
    return f"{shown}{LIMITS[code]}" if code in LIMITS else f"{shown}the port isn't accepted ({line}): please report it"


def _ended(ported: Ported, told: Written) -> None:
    """The end of a run that main didn't reach: an exit, a failed assertion, or a trap."""
    words = (told.end or "").split()
    if words[:1] == ["spent"]:
        raise Differs(f"the run of the port takes more than {words[1]} steps: let the program do less", False)
    stop = stop_at(ported, int(words[1])) if words[:1] == ["trap"] else None
    if stop is None:
        at = ported.text.places[int(words[1]) - 1]
        said = f"{at}: {TRAPS.get(words[2], words[2])}: the run of the port ends here"
        raise Differs(said, words[2] != "HeapFull")
    told.end = None
    if ported.sites.stops[stop].assertion:
        told.code = 134


def stop_at(ported: Ported, line: int) -> int | None:
    """The stop whose method has the line of the text."""
    for method in ported.program.methods():
        if method.origin.startswith("stop "):
            statement = ported.text.statements[line - 1]
            if method.body and method.body[0] is statement:
                return int(method.origin.split()[1])
    return None


def compare(told: Written, output: bytes, code: int, orders: list[Place] = NO_PLACES) -> None:
    """Ends with `Differs` where the run of the port stands for other bytes or another exit code; `orders` are the
    places where C++ leaves open which argument comes first."""
    ours = told.text.encode("latin-1")
    if ours != output:
        raise Differs(_difference(ours, output) + _open(orders))
    if told.code != code:
        raise Differs(f"the port ends with {told.code}, the program with {code}" + _open(orders))


def _open(orders: list[Place]) -> str:
    """What is said of calls whose arguments g++ may evaluate in another order."""
    shown = open_places(orders)
    if not shown:
        return ""
    return (
        f"; C++ leaves open which argument is evaluated first, at {shown}: "
        "evaluate them one after the other, into locals"
    )


def open_places(orders: list[Place]) -> str:
    """The user's lines among the places, the first of them."""
    places = {(one.file, one.line) for one in orders if one.line and not one.file.startswith(INCLUDE)}
    shown = [f"{file}:{line}" for file, line in sorted(places)]
    return ", ".join(shown[:4]) + (", .." if len(shown) > 4 else "")


def _difference(ours: bytes, theirs: bytes) -> str:
    """The first difference, by its line."""
    left, right = ours.split(b"\n"), theirs.split(b"\n")
    for at in range(max(len(left), len(right))):
        one = left[at] if at < len(left) else None
        other = right[at] if at < len(right) else None
        if one != other:
            return f"line {at + 1} of the output differs: the program writes {_quoted(other)}, the port {_quoted(one)}"
    return "the outputs differ"


def _quoted(line: bytes | None) -> str:
    return "nothing" if line is None else repr(line.decode(errors="replace"))[:120]
