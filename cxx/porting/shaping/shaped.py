"""Not proved (README.md). A port in the shape that commutes, checked against the plain one: both runs write the same."""

import sys

from ..check import Differs, written
from ..engine import BUDGET, Answer, ask
from ..port import Ported, Porter
from .search import finished, searched


def shaped(porter: Porter, plain: Ported, answer: Answer) -> Ported:
    """The rewritten port; the plain one where nothing was rewritten, or where the runs differ, which is told."""
    program, sites = porter.lowered(porter.capacities)
    shape = searched(program)
    if not shape.told:
        return plain
    done, text, stops = finished(shape)
    made = Ported(porter.files, done.program, text, sites, stops, done.told, done.loops)
    if not same(plain, answer, made):
        print("the rewritten port writes other than the plain one, and is left out: please report it", file=sys.stderr)
        return plain
    return made


def same(plain: Ported, answer: Answer, made: Ported) -> bool:
    """Whether the run of the rewritten port stands for the same bytes and exit code."""
    try:
        return written(made, ask(str(made.text), "run", "1", str(BUDGET))) == written(plain, answer)
    except Differs:
        return False
