"""Not proved (../README.md). Phases found and share of steps that run marked, program by program; runs by several workers."""

import time
from dataclasses import dataclass

from porting.capacities import fitted
from porting.check import Differs, compare, expected, written
from porting.engine import BUDGET, ask
from porting.port import Ported, Porter
from porting.shaping import search

from .known import Known
from .steps import Steps, counted


@dataclass
class Row:
    """What the search makes of a program."""

    known: Known
    found: tuple[int, ...]
    plain: Steps
    shaped: Steps
    rewritten: Ported
    seconds: float

    @property
    def lost(self) -> list[int]:
        return [one for one in self.known.phases if one not in self.found]

    @property
    def share(self) -> float:
        """1 less the rewritten kernel's steps that don't run marked, over the plain kernel's steps."""
        return 1 - self.shaped.unmarked / self.plain.all

    def __str__(self) -> str:
        told = f"{len(self.found):2} of {len(self.known.phases):2}  {100 * self.share:6.1f} %"
        steps = f"{self.plain.all:9} steps, unmarked {self.shaped.unmarked:8}, marked {self.shaped.marked:8}"
        lost = f"  not found: {', '.join(map(str, self.lost))}" if self.lost else ""
        return f"{self.known.name:18} {told}  {steps}  {self.seconds:5.1f} s{lost}"


def row(known: Known) -> Row:
    """The program plainly ported, and as the search leaves it."""
    porter = Porter([str(known.source)], [])
    plain, _ = fitted(porter)
    begun = time.process_time()
    program, sites = porter.lowered(porter.capacities)
    shape = search.searched(program)
    seconds = time.process_time() - begun
    done, text, stops = search.finished(shape)
    made = Ported(porter.files, done.program, text, sites, stops, done.told, done.loops)
    marks = search.marked(done, text)
    if marks is None:
        raise ValueError(f"{known.name}: the rewritten text isn't accepted")
    lines = {place.line for _, place in marks.sites}
    found = tuple(one for one in known.phases if one in lines)
    return Row(
        known,
        found,
        counted(plain.program, set(), set(), known.setup),
        counted(done.program, marks.loops, marks.methods, known.setup),
        made,
        seconds,
    )


def differing(known: Known, made: Ported, workers: tuple[int, ...]) -> list[int]:
    """The numbers of workers by which the rewritten text writes other than the program that g++ builds."""
    output, code = expected([str(known.source)], [])
    wrong = []
    for count in workers:
        try:
            compare(written(made, ask(str(made.text), "run", str(count), str(BUDGET))), output, code)
        except Differs:
            wrong.append(count)
    return wrong


def summary(rows: list[Row]) -> str:
    found, all_ = sum(len(one.found) for one in rows), sum(len(one.known.phases) for one in rows)
    mean = 100 * sum(one.share for one in rows) / len(rows)
    return f"{found} of {all_} phases, {mean:.1f} % of the steps by the mean of {len(rows)}"
