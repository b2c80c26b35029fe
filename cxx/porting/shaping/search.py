"""Not proved (README.md). The rewrites, driven by the verdicts: tried loop by loop, kept where more of the user's runs in parallel.

Outer loops are tried first, and rewrites in one order, so that the same text gives the same result. What was tried in vain is tried again only
where the operation or what it reaches has become another one.
"""

from contextlib import closing
from dataclasses import dataclass
from typing import Callable, Iterable, Iterator, Sequence, TypeVar

from .. import finishing, form
from ..places import Place
from . import actions, asked, owned, roles, structs
from .actions import sites
from .ahead import answers
from .alone import may_be_marked
from .building import Shape
from .cover import Cover
from .duplicates import duplicate
from .facts import Calls, effects, reached, recursions, recursive
from .marks import Marks, Plans, Site, finished, marked, marks

Log = Callable[[str], None]
Trial = tuple[str, Callable[[Shape], bool]]
# What may be tried: its name, the sites of which one has to be marked, the operations that are changed, and the changes.
Candidate = tuple[Site, set[Site], list[form.Method], Iterable[Trial]]


def searched(
    program: form.Program,
    log: Log = lambda line: None,
    around: Callable[[Shape], set[Place]] = lambda shape: set(),
) -> Shape:
    """The program, as it was lowered, in the best shape that was found: with structs or their numbers, a class for each role, or the user's.
    `around` says which loops can be shared as they are: these, and what runs within them, are left so."""
    best: Search | None = None
    for start in _starts(Shape(program)):
        finishing.begin(start.program)
        one = _ended(Search(start, log, around(start)))
        if best is None or len(one.sites | one.around) > len(best.sites | best.around):
            best = one
    assert best is not None
    return best.shape


def _starts(plain: Shape) -> list[Shape]:
    """The program from which is searched: as it is, and with structs as their numbers and a class for each role, where it has such."""
    other = structs.flattened(plain) or plain
    other = roles.split(other) or other
    return [plain] if other is plain else [plain, other]


@dataclass
class Tried:
    """What was found of a candidate's trials: the number of the first one that is better, what is told of each, and the plans that were asked
    for."""

    at: int | None
    lines: list[str]
    plans: Plans


def _ended(search: "Search") -> "Search":
    while search.step():
        pass
    return search


class Search:
    """The best shape as yet, and what was tried on it in vain."""

    def __init__(self, shape: Shape, log: Log, around: set[Place]) -> None:
        self.shape, self._log = shape, log
        self.around: set[Site] = {("loop", one) for one in around}
        for one in shape.program.methods():
            owned.all_of(shape, one)
        self._plans: Plans = {}
        self._cover = Cover(shape)
        self._left = {site for one in self.around for site in self._cover.within.get(one, set())} | self.around
        self._best = marks(shape, self._plans)
        # Of what was tried: the operations that it could change, as they were then.
        self._tried: dict[Site, int] = {}
        self._written: dict[form.Method, str] = {}
        self._calls: Calls = {}

    @property
    def sites(self) -> set[Site]:
        """The user's loops and recursions that are marked."""
        return self._best.sites if self._best is not None else set()

    def step(self) -> bool:
        """Finds a better shape; whether there is one."""
        if self._best is None:
            return False
        self._written = {}
        self._calls = {}
        asked_for: list[tuple[Site, int, list[Trial]]] = []

        def jobs() -> Iterator[Callable[[], Tried]]:
            for site, wanted, within, trials in self._candidates():
                was = self._state(within)
                if site not in self._left and self._tried.get(site) != was:
                    asked_for.append((site, was, list(trials)))
                    yield lambda mine=(site, wanted, asked_for[-1][2]): self._first(*mine)  # type: ignore[misc]

        with closing(answers(jobs())) as found:
            for one, (site, was, trials) in zip(found, asked_for):
                self._tried[site] = was
                self._plans.update(one.plans)
                for line in one.lines:
                    self._log(line)
                if one.at is not None:
                    made = self._made(trials[one.at])
                    assert made is not None
                    self.shape, self._best = made
                    return True
        return False

    def _first(self, site: Site, wanted: set[Site], trials: list[Trial]) -> Tried:
        """Looks for the first of the trials that finds a better shape; the search is left as it is, but for its plans."""
        known, lines = set(self._plans), list[str]()
        for number, trial in enumerate(trials):
            if not self._alone(wanted, trial[1]):
                continue
            made = self._made(trial)
            got = made[1] if made is not None else None
            lines.append(f"{site[1]} {site[0]}, {trial[0]}: {None if got is None else len(got.sites)}")
            if got is not None and wanted & got.sites and self._cover.better(got.sites, self.sites):
                return Tried(number, lines, self._new_plans(known))
        return Tried(None, lines, self._new_plans(known))

    def _new_plans(self, known: set[str]) -> Plans:
        return {text: told for text, told in self._plans.items() if text not in known}

    def _made(self, trial: Trial) -> tuple[Shape, Marks] | None:
        """What the trial makes of the shape; None where it does nothing, or where its text isn't accepted."""
        made = duplicate(self.shape)
        got = marks(made, self._plans) if trial[1](made) else None
        return (made, got) if got is not None else None

    def _alone(self, wanted: set[Site], change: Callable[[Shape], bool]) -> bool:
        """Whether the change may let one of the sites run in parallel."""
        trial = duplicate(self.shape)
        return change(trial) and may_be_marked(trial, wanted, self._plans)

    def _state(self, within: list[form.Method]) -> int:
        for one in within:
            if one not in self._written:
                self._written[one] = f"{one!r} {one.pure} {one.parameters} {one.body}"
        return hash(tuple(self._written[one] for one in within))

    # What can be tried ------------------------------------------------------------------------------------------------

    def _candidates(self) -> Iterator[Candidate]:
        yield from self._recursions()
        yield from self._loops()
        yield from self._asked()

    def _recursions(self) -> Iterator[Candidate]:
        calling = recursions(self.shape.program, self._calls)
        for place, methods in _by_place((one.place, one) for one in self.shape.program.methods() if one in calling):
            site, bodies = ("recursion", place), [one.body for one in methods]
            if site not in self.sites and all(map(self._may_commute, bodies)):
                yield site, {site}, self._within(methods), of_recursion(place)

    def _loops(self) -> Iterator[Candidate]:
        found = list(_by_place((one[2].place, one) for one in sites(self.shape)))
        # What has more within comes first: a rewrite of what is within can stand in its way.
        for place, copies in sorted(found, key=lambda one: -self._cover.size(("loop", one[0]))):
            site = ("loop", place)
            if site not in self.sites and all(self._may_commute([loop]) for _, _, loop in copies):
                within = [other for method, _, loop in copies for other in [method, *reached([loop], self._calls)]]
                yield site, {site}, within, of_loop(place, [loop for _, _, loop in copies])

    def _asked(self) -> Iterator[Candidate]:
        for place, methods in _by_place((one.place, one) for one in self.shape.program.methods() if one.pure):
            loops = [loop for one in methods for loop in asked.user_loops(one)]
            if loops:
                yield ("asked", place), {("loop", one.place) for one in loops}, self._within(methods), of_value(
                    place, loops
                )

    def _within(self, methods: list[form.Method]) -> list[form.Method]:
        return [other for one in methods for other in [one, *reached(one.body, self._calls)]]

    def _may_commute(self, body: list[form.Statement]) -> bool:
        """Whether the statements print nothing and make nothing: neither has another order."""
        found = effects(body, known=self._calls)
        return not (found.seen or found.makes)


Found = TypeVar("Found")


def _by_place(found: Iterable[tuple[Place, Found]]) -> Iterable[tuple[Place, list[Found]]]:
    """What stands at one place of the user's text, which may be in several copies."""
    places: dict[Place, list[Found]] = {}
    for place, one in found:
        places.setdefault(place, []).append(one)
    return places.items()


def of_recursion(place: Place) -> Iterator[Trial]:
    for number, action in enumerate(actions.RECURSIONS):

        def change(shape: Shape, action: actions.MethodAction = action) -> bool:
            methods = [one for one in shape.program.methods() if one.place == place and recursive(one)]
            return any([action(shape, one) is not None for one in methods])

        yield f"action {number}", change


def of_loop(place: Place, loops: Sequence[form.Statement]) -> Iterator[Trial]:
    """Actions on the loops that stand at the place, which have to be told: those that may do anything there."""
    for number, action in enumerate(actions.LOOPS):

        def change(shape: Shape, action: actions.LoopAction = action.do) -> bool:
            return any([action(shape, *one) for one in sites(shape) if one[2].place == place])

        if any(map(action.may, loops)):
            yield f"action {number}", change


def of_value(place: Place, loops: Sequence[form.Statement]) -> Iterator[Trial]:
    """A value method as an operation, and then an action on one of its loops."""
    for number, action in enumerate(actions.LOOPS):

        def change(shape: Shape, action: actions.LoopAction = action.do) -> bool:
            methods = [one for one in shape.program.methods() if one.place == place and one.pure]
            made = [asked.made_operation(shape, one) for one in methods]
            return any([action(shape, *one) for one in sites(shape) if one[0] in made])

        if any(map(action.may, loops)):
            yield f"action {number}", change


def trials(shape: Shape) -> dict[str, Callable[[Shape], bool]]:
    """All that may be tried on a program, by the line and a name."""
    methods, found = shape.program.methods(), dict[str, Callable[[Shape], bool]]()
    for place, copies in _by_place((one[2].place, one[2]) for one in sites(shape)):
        found.update({f"{place.line}:{place.column} loop, {name}": one for name, one in of_loop(place, copies)})
    for place in dict.fromkeys(one.place for one in methods if recursive(one)):
        found.update({f"{place.line} recursion, {name}": one for name, one in of_recursion(place)})
    for place in dict.fromkeys(one.place for one in methods if one.pure):
        loops = [loop for one in methods if one.place == place for loop in asked.user_loops(one)]
        found.update({f"{place.line} value, {name}": one for name, one in of_value(place, loops)})
    return found


__all__ = ["Marks", "finished", "marked", "marks", "searched", "sites", "trials"]
