"""Not proved (README.md). How long the arrays behind vectors and `new T[n]` have to be: found by running.

The language has arrays of a length that the text tells. Each starts short; where a run leaves its range there, it
grows.
"""

from . import form
from .engine import BUDGET, Answer, ask
from .lowering.shapes import GREATEST_CAPACITY
from .port import Ported, Porter

GROWTH = 8


def fitted(porter: Porter, workers: int = 1) -> tuple[Ported, Answer]:
    """The port with arrays that are long enough, and its run."""
    capacities: dict[str, int] = {}
    ported = porter.ported(capacities)
    while True:
        answer = ask(str(ported.text), "run", str(workers), str(BUDGET))
        grown = _grown(ported, answer, capacities)
        if not grown:
            porter.capacities = capacities
            return ported, answer


def _grown(ported: Ported, answer: Answer, capacities: dict[str, int]) -> bool:
    """Lets grow what the run left the range of; whether anything grew."""
    words = answer.lines[-1].split() if answer.status == 3 and answer.lines else []
    if len(words) != 3 or words[2] != "OutOfRange":
        return False
    statement = ported.text.statements[int(words[1]) - 1]
    if statement is None:
        return False
    grown = False
    for name, slot in growing(ported.program, statement):
        if slot.length is not None and slot.length < GREATEST_CAPACITY:
            capacities[name] = slot.length = min(slot.length * GROWTH, GREATEST_CAPACITY)
            ported.text.lengthened(name, slot)
            grown = True
    return grown


def growing(program: form.Program, statement: form.Statement) -> list[tuple[str, form.Slot]]:
    """The arrays in the statement whose length isn't C++'s."""
    exprs = form.own_expressions(statement)
    if isinstance(statement, form.Count):
        exprs = exprs + form.own_expressions(statement.step)
    found: dict[str, form.Slot] = {}
    for expr in exprs:
        for one in form.within(expr):
            if isinstance(one, form.Item) and isinstance(one.object.type, form.Pointer):
                cls = program.classes[one.object.type.cls]
                slot = cls.slot(one.name)
                if slot.grows:
                    found[f"{cls.name}.{slot.name}"] = slot
    return list(found.items())
