"""Not proved (README.md). Which marks are better: what runs within each loop and recursion of the user, by the plain program."""

from typing import Iterable

from .. import form
from .building import Shape
from .facts import Calls, reached, recursions
from .marks import Site

FEW = 16


class Cover:
    """The loops and recursions within each."""

    def __init__(self, shape: Shape) -> None:
        self.within: dict[Site, set[Site]] = {}
        self.few: set[Site] = set()
        calls: Calls = {}
        calling = recursions(shape.program, calls)
        for method in shape.program.methods():
            if method in calling:
                self.within[("recursion", method.place)] = _of(method.body, calls, calling) | {
                    ("recursion", method.place)
                }
            for one in _loops(method.body):
                site = ("loop", one.place)
                self.within.setdefault(site, set()).update(_of([one], calls, calling))
                if isinstance(one, form.Count) and _few(one):
                    self.few.add(site)

    def size(self, site: Site) -> int:
        """How many loops and recursions of the user run within."""
        return len(self.within.get(site, ()))

    def better(self, got: set[Site], best: set[Site]) -> bool:
        """Whether more of the user's runs in parallel; what has few turns takes the place of nothing within it."""
        lost, won = best - got, got - best
        if not lost:
            return bool(won)
        covered = {site for one in got for site in self.within.get(one, set())} | got
        taken = {site for one in won - self.few for site in self.within.get(one, set())}
        return bool(won) and lost <= taken and best <= covered


def _of(body: list[form.Statement], calls: Calls, calling: set[form.Method]) -> set[Site]:
    """The loops and recursions that a run of the statements may come to."""
    within = reached(body, calls)
    found: set[Site] = {
        ("loop", one.place) for block in [body, *(method.body for method in within)] for one in _loops(block)
    }
    return found | {("recursion", method.place) for method in within if method in calling}


def _loops(body: list[form.Statement]) -> Iterable[form.Loop | form.Count]:
    return [one for one in form.statements(body) if isinstance(one, (form.Loop, form.Count)) and one.user]


def _few(loop: form.Count) -> bool:
    match loop.condition:
        case form.Binary(_, _, form.Number(value), _):
            return value < FEW
    return False
