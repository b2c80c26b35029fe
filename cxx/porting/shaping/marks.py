"""Not proved (README.md). What the program that is asked marks of a rewritten program: of the user's loops and recursions."""

from dataclasses import dataclass

from .. import finishing, form
from ..engine import ask
from ..places import Place
from ..text import Text
from .building import Shape
from .duplicates import duplicate
from .facts import recursions

Site = tuple[str, Place]
# What was answered on a text, for the length of a search.
Plans = dict[str, dict[str, bool] | None]


@dataclass
class Marks:
    """The user's loops and recursions that are marked."""

    sites: set[Site]
    # The loops (by id) and methods of the finished program that are marked and stand for one of these.
    loops: set[int]
    methods: set[form.Method]


def finished(shape: Shape) -> tuple[Shape, Text, list[int]]:
    """A copy of the program as a text."""
    again = duplicate(shape)
    return again, *ended(again)


def ended(shape: Shape) -> tuple[Text, list[int]]:
    """The program as a text, after which no rewrite can work on it."""
    stops = finishing.end(shape.program)
    return Text(shape.program), stops


def marks(shape: Shape, plans: Plans | None = None) -> Marks | None:
    """None where the text isn't accepted."""
    done, text, _ = finished(shape)
    return marked(done, text, plans)


def marked(done: Shape, text: Text, plans: Plans | None = None) -> Marks | None:
    """What is marked of a finished program; None where its text isn't accepted."""
    told = _plan(str(text), plans if plans is not None else {})
    if told is None:
        return None
    found: dict[Site, bool] = {}
    loops: set[int] = set()
    methods: set[form.Method] = set()
    for at, one in enumerate(text.statements):
        if isinstance(one, (form.Loop, form.Count)) and one.user:
            key = ("loop", one.place)
            verdict = told.get(f"loop {at + 1}", False)
            found[key] = found.get(key, True) and verdict
            loops |= {id(one)} if verdict else set()
    calling = recursions(done.program)
    for method in done.program.methods():
        if method in done.loops:
            key = ("loop", done.loops[method])
        elif method in calling and not method.origin.startswith("a "):
            key = ("recursion", method.place)
        else:
            continue
        verdict = told.get(f"op {method!r}", False)
        found[key] = found.get(key, True) and verdict
        methods |= {method} if verdict else set()
    return Marks({key for key, verdict in found.items() if verdict}, loops, methods)


def _plan(text: str, plans: Plans) -> dict[str, bool] | None:
    """The heads of `plan`, and whether they are parallel."""
    if text not in plans:
        answer = ask(text, "plan")
        told = {line.rpartition(" ")[0]: line.endswith(" parallel") for line in answer.lines}
        plans[text] = told if answer.status == 0 else None
    return plans[text]
