"""Not proved (../README.md). The same report of a text of the language itself, of which nothing is ported: its marks
and pairs are those that `commute` answers."""

import os
import re
import sys
import tempfile
from dataclasses import dataclass, field

from porting.places import NOWHERE, Place
from porting.reasons import CAUSES, PAIR, Reason

from translator import Fault, Options, pairs_of, read, tree, written
from translator.building import asked

from . import remarks, reports, shares
from .findings import AT, MIXED, PARALLEL, SERIAL, UNKNOWN, Finding, Findings, Pair
from .lines import About
from .words import Words

REFUSED = 1
TOKEN = re.compile(r"//[^\n]*|/\*.*?\*/|[A-Za-z_]\w*|[^\s\w]", re.S)
PARTS = Reason("its body does more than call operations", "make the body an operation of the object that it works on")
COUNTS = Reason(
    "its iterations aren't counted, so that one has to end before it is known whether there is another",
    "write for (long i = 0; i < n; i++) over an array of objects",
)
# What a program of the language has in place of the prints and ends of C++.
HEADS = """#include "program.h"
static inline void said(long value) { print(value); }
static inline void said(bool value) { print(value); }
static void show_at_end();
static const Time begun = now();
#define print said
#define program ported
"""
ENDS = """#undef program
void program() {
  ported();
  show_at_end();
}
"""


@dataclass
class Source:
    """A text of the language: where its loops and operations stand."""

    file: str
    text: str
    # Of each `for` and `while`, in their order.
    loops: list[tuple[str, Place]] = field(default_factory=list)
    operations: dict[str, Place] = field(default_factory=dict)

    def __post_init__(self) -> None:
        depth, owner, before, last = 0, "", ["", ""], NOWHERE
        for found in TOKEN.finditer(self.text):
            token = found[0]
            if token.startswith(("//", "/*")):
                continue
            at = self._place(found.start())
            if token in ("for", "while"):
                self.loops.append((token, at))
            elif before[1] == "class":
                owner = token
            elif token == "(" and depth == 1 and owner:
                self.operations.setdefault(f"{owner}::{before[1]}", last)
            depth += {"{": 1, "}": -1}.get(token, 0)
            if depth == 0 and token == "}":
                owner = ""
            before, last = [before[1], token], at

    def _place(self, at: int) -> Place:
        line = self.text.count("\n", 0, at) + 1
        return Place(self.file, line, at - self.text.rfind("\n", 0, at))


def told(said: Words) -> int:
    """The command: its status."""
    try:
        with open(said.language, encoding="utf-8", errors="replace") as text:
            source = Source(said.language, text.read())
        about = about_of(said, source)
    except OSError as error:
        print(f"{remarks.NAME}: {error.filename}: {error.strerror}", file=sys.stderr)
        return REFUSED
    except Fault as fault:
        print(f"{remarks.NAME}: {fault}", file=sys.stderr)
        return REFUSED
    if not (said.report or said.json or said.why or said.remarks):
        print(reports.text(about, False), end="")
    reports.give(said, about)
    return 0


def about_of(said: Words, source: Source) -> About:
    status, emitted = asked("emit", source.text.encode())
    if status != 0:
        raise Fault(f"{source.file}: {emitted.strip() or f'emit ended with status {status}'}")
    found = Finder(source, read(emitted), source.text).found()
    if said.check:
        with tempfile.TemporaryDirectory(prefix="commute++.") as folder:
            measured(said, source, emitted, found, folder)
    made = About([source.file], False, "", found, None, len(os.sched_getaffinity(0)))
    made.is_language = True
    return made


def measured(said: Words, source: Source, emitted: str, found: Findings, folder: str) -> None:
    program = read(emitted)
    lines = {kind: [place.line for one, place in source.loops if one == kind] for kind in ("for", "while")}
    clocks = shares.Clocks(program, lines["for"], lines["while"], shares.heads_of(found))
    body = written(program, Options(is_plain=True))
    shares.take("\n".join([HEADS, *shares.clocked(clocks), body, ENDS]), clocks, found, folder, said.runner())


class Finder:
    """What `plan` and `pairs` say of a text, with its places."""

    def __init__(self, source: Source, program: tree.Program, text: str) -> None:
        self.source, self.program = source, program
        self.marks = {head: verdict == "parallel" for head, verdict in map(_verdict, _answered("plan", text))}
        self.pairs: dict[str, list[str]] = {}
        head = ""
        for line in pairs_of(text).splitlines():
            if line.startswith(("extent ", "loop ")):
                head = line.replace("extent ", "op ", 1)
            self.pairs.setdefault(head, [])
            if not line.startswith(("extent ", "loop ")):
                self.pairs[head].append(line)

    def found(self) -> Findings:
        return Findings(sorted([*self.loops(), *self.recursions()], key=lambda one: (one.place.line, one.place.column)))

    def loops(self) -> list[Finding]:
        made, places = [], iter(self.source.loops)
        for method in [*self.program.methods(), self.program.main]:
            for one in tree.within(method.body):
                if not isinstance(one, (tree.For, tree.While)):
                    continue
                kind, place = next(places)
                head = f"loop {place.line}"
                if self.marks.get(head) and kind == "for" and tree.calls(one):
                    made.append(Finding(place, "loop", PARALLEL, [], self.paired(head), [head]))
                    continue
                state = MIXED if self.has_marked(one.body, method.owner) else SERIAL
                known = self.reasons(head) if head in self.marks else [COUNTS if kind == "while" else PARTS]
                made.append(Finding(place, "loop", state, known, self.paired(head), [head]))
        return made

    def recursions(self) -> list[Finding]:
        made = []
        for method in self.program.methods():
            name = f"{method.owner}::{method.name}"
            place = self.source.operations.get(name)
            if place is None or method.result != "void" or not self.calls_itself(method):
                continue
            head, what = f"op {name}", f"recursion {name}"
            if self.marks.get(head):
                made.append(Finding(place, what, PARALLEL, [], self.paired(head), [head]))
                continue
            state = MIXED if self.has_marked(method.body, method.owner) else SERIAL
            made.append(Finding(place, what, state, self.reasons(head), self.paired(head), [head]))
        return made

    def called(self, body: tree.Statement, owner: str) -> list[tree.Method]:
        return [self.program.called(one, owner) for one in tree.calls(body)]

    def calls_itself(self, method: tree.Method) -> bool:
        return any(one is method for one in self.reached(method.body, method.owner))

    def reached(self, body: tree.Statement, owner: str) -> list[tree.Method]:
        """All operations that a body leads to."""
        found: list[tree.Method] = []
        waiting = self.called(body, owner)
        while waiting:
            one = waiting.pop()
            if not any(one is other for other in found):
                found.append(one)
                waiting += self.called(one.body, one.owner)
        return found

    def has_marked(self, body: tree.Statement, owner: str) -> bool:
        bodies = [body, *(one.body for one in self.reached(body, owner))]
        marked = (one for each in bodies for one in tree.within(each))
        return any(one.is_parallel for one in marked if isinstance(one, (tree.For, tree.Call)))

    def reasons(self, head: str) -> list[Reason]:
        found = [reason for reason in map(self.reason, self.pairs.get(head, [])) if reason is not None]
        placed = sorted(found, key=lambda one: AT.search(one.said) is None)
        return list({str(one): one for one in placed}.values()) or [UNKNOWN]

    def reason(self, line: str) -> Reason | None:
        found = PAIR.match(line)
        if found is None or found[3] == "commutes":
            return None
        one, other, words = found[1], found[2], found[4].split()
        both = f"two calls of {one}" if one == other else f"a call of {one} and one of {other}"
        match words:
            case ["NotSeparable", op, at, why]:
                said, mended = CAUSES[why]
                return Reason(f"{said.format(op=op, own='its own')} ({self.source.file}:{at})", mended)
            case ["LoopForm", at]:
                return Reason(f"of the loop at {self.source.file}:{at}: {PARTS.said}", PARTS.mended)
            case ["Large"]:
                return Reason(
                    f"what {one} computes is too large to be compared", "compute parts of it in value methods"
                )
            case ["FieldDiffers", name]:
                said = f"{both} write {name}, and the order decides what it has at last"
                return Reason(said, "add to it, or keep the greatest or least, in place of the last")
            case ["DemandsDiffer"]:
                return Reason(
                    f"{both} call or check other things in another order", "pass values that these calls don't change"
                )
        return Reason(line, "")

    def paired(self, head: str) -> list[Pair]:
        lines = [found for line in self.pairs.get(head, []) if (found := PAIR.match(line))]
        return [Pair(found[1], found[2], self.reason(found[0])) for found in lines]


def _verdict(line: str) -> tuple[str, str]:
    head, _, verdict = line.rpartition(" ")
    return head, verdict


def _answered(command: str, text: str) -> list[str]:
    status, told = asked(command, text.encode())
    return told.splitlines() if status == 0 else []
