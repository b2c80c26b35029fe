"""Not proved (../README.md). The user's loops and recursions: which run in parallel, and what stands in the way of
the others."""

import re
from dataclasses import dataclass, field

from porting import form, told
from porting.clang import INCLUDE
from porting.contexts import Contexts
from porting.places import Place
from porting.port import Ported
from porting.reasons import Namer, Reason, unlisted

from .shaping import Shaped

PARALLEL, MIXED, SERIAL = "may run in parallel", "serial, with parallel parts", "serial"
WITHIN = "serial, within what runs in parallel"
APART = "may run in parallel where its objects are all different"
SHARED = (PARALLEL, APART)
# Where this part of a loop is shared within it, the loop itself is no matter.
ENOUGH = 0.5
# Shares differ by more than chance where they differ by one of so many parts.
STEPS = 20
# The states of a place, the one that says least of it first.
LEAST = (SERIAL, MIXED, WITHIN, APART, PARALLEL)
AT = re.compile(r" \((?P<file>[^()\s]+):(?P<line>\d+)\)$")


@dataclass
class Pair:
    """Two functions in the user's names, and why their calls may not change places, if they may not."""

    one: str
    other: str
    reason: Reason | None


@dataclass
class Finding:
    """A loop or recursion of the user. `heads` are its names in what the program says: `loop LINE`, `op
    CLASS::NAME`."""

    place: Place
    what: str
    state: str
    reasons: list[Reason]
    pairs: list[Pair]
    heads: list[str]
    # The names of what is shared within it.
    inner: set[str] = field(default_factory=set)
    # Whether it is a loop each iteration of which is about an object: these are worth a look first.
    is_over_objects: bool = False
    share: float | None = None
    runs: int = 0

    def conflict(self) -> tuple[str, int] | None:
        """The file and line that the first reason names."""
        found = AT.search(self.reasons[0].said) if self.reasons else None
        return (found["file"], int(found["line"])) if found else None

    def sentence(self, says_why: bool) -> str:
        if self.state in SHARED:
            return f"{self.what} {self.state}"
        why = f": {self.reasons[0]}" if says_why else ""
        return (f"{self.what} is serial" if self.state == SERIAL else f"{self.what}: {self.state}") + why


@dataclass
class Findings:
    """All of a program, by their places; or that it wasn't looked at."""

    all: list[Finding] = field(default_factory=list)
    is_known: bool = True

    def parallel(self) -> list[Finding]:
        return [one for one in self.all if one.state in SHARED]

    def by_share(self) -> list[Finding]:
        """Those with the greatest share of the run first; of about the same share loops over objects."""
        return sorted(
            self.all, key=lambda one: (-round((one.share or 0) * STEPS), not one.is_over_objects, -(one.share or 0))
        )

    def shared_part(self, one: Finding) -> float | None:
        """Which part of a loop or recursion lies in what is shared within it, of 1; None where that isn't known."""
        inside = [other for other in self.parallel() if one.inner & set(other.heads)]
        outer = [
            other for other in inside if not any(each.inner & set(other.heads) for each in inside if each is not other)
        ]
        shares = [other.share for other in outer or inside]
        if not one.share or not shares or None in shares:
            return None
        return min(1.0, sum(share for share in shares if share is not None) / one.share)

    def says_why(self, one: Finding) -> bool:
        """Whether what stands in its way is worth telling: of what is serial, and of what has only small parts that are
        shared."""
        part = self.shared_part(one)
        return bool(one.reasons) and (one.state == SERIAL or one.state == MIXED and part is not None and part < ENOUGH)

    def summary(self) -> str:
        if not self.is_known:
            return "its loops weren't looked at"
        if not self.all:
            return "no loop and no recursion"
        return f"{len(self.parallel())} of {len(self.all)} loops and recursions may run in parallel"


def found(shaped: Shaped, apart: set[int]) -> Findings:
    """`apart` are the lines of the text with loops that are shared where their objects are different."""
    ported = shaped.ported
    blocks, namer = told.Blocks(ported), Namer(ported)
    heads = {f"loop {line}" for line in apart}
    contexts = Contexts(ported, lambda head: head in heads or bool(blocks.marks.get(head)))
    ones = [*_loops(ported, blocks, namer, heads, contexts), *_methods(shaped, blocks, namer, heads, contexts)]
    return Findings(_merged(ones))


def _loops(ported: Ported, blocks: told.Blocks, namer: Namer, apart: set[str], contexts: Contexts) -> list[Finding]:
    made = []
    for at, statement in enumerate(ported.text.statements):
        if not isinstance(statement, (form.Loop, form.Count)) or not statement.user or not is_users(statement.place):
            continue
        head = f"loop {at + 1}"
        pairs, inner = _pairs(blocks, head, namer), _marked_in(statement.body, blocks, ported, apart)
        if blocks.marks.get(head) or head in apart:
            state = PARALLEL if blocks.marks.get(head) else APART
            made.append(Finding(statement.place, "loop", state, [], pairs, [head], inner))
            continue
        reasons = ranked(blocks, head, namer) if head in blocks.marks else [unlisted(statement)]
        state = MIXED if inner else WITHIN if contexts.has_loop(statement) else SERIAL
        made.append(Finding(statement.place, "loop", state, reasons, pairs, [head], inner, is_over_objects(statement)))
    return made


def is_over_objects(loop: form.Loop | form.Count) -> bool:
    """Whether each iteration begins with an object of its own, or goes to the next one of a list."""
    if not isinstance(loop, form.Count) or not loop.body:
        return False
    first = loop.body[0]
    value = first.value if isinstance(first, form.Let) else first.receiver if isinstance(first, form.Do) else None
    walks = isinstance(loop.counter.type, form.Pointer)
    return walks or value is not None and isinstance(value.type, form.Pointer) and loop.counter in form.within(value)


def _methods(shaped: Shaped, blocks: told.Blocks, namer: Namer, apart: set[str], contexts: Contexts) -> list[Finding]:
    """The recursions of the user, and his loops that became methods."""
    made = []
    for method in shaped.ported.program.methods():
        loop = shaped.turned.get(method)
        place = loop or method.place
        is_recursion = calls_itself(method) and not method.origin.startswith(("stop ", "a "))
        if not is_users(place) or not (loop or is_recursion):
            continue
        head, what = f"op {method!r}", "loop" if loop else f"recursion {method.origin}"
        pairs, inner = _pairs(blocks, head, namer), _marked_in(method.body, blocks, shaped.ported, apart) - {head}
        if blocks.marks.get(head):
            made.append(Finding(place, what, PARALLEL, [], pairs, [head], inner))
            continue
        reasons = [GIVES_BACK] if method.pure else ranked(blocks, head, namer)
        state = MIXED if inner else WITHIN if contexts.has_method(method) else SERIAL
        made.append(Finding(place, what, state, reasons, pairs, [head], inner))
    return made


GIVES_BACK = Reason(
    "it gives a value back to each caller, who waits for it", "let each call add to a sum that is passed along"
)
UNKNOWN = Reason("it reads what its own calls change, or calls nothing", "read it before")


def ranked(blocks: told.Blocks, head: str, namer: Namer) -> list[Reason]:
    """The reasons of a loop or recursion, the most useful one first, each once."""
    lines = sorted(blocks.lines.get(head, []), key=namer.weight)
    found = [*map(namer.passed_on, lines), *map(namer.reason, lines)]
    reasons = [reason for reason in found if reason is not None]
    placed = sorted(reasons, key=lambda one: AT.search(one.said) is None)
    return list({str(one): one for one in placed}.values()) or [UNKNOWN]


def _pairs(blocks: told.Blocks, head: str, namer: Namer) -> list[Pair]:
    made: dict[tuple[str, str], Pair] = {}
    for line in blocks.lines.get(head, []):
        one, other = (namer.operation(name) for name in line.split()[:2])
        reason = namer.reason(line)
        known = made.get((one, other))
        if known is None or known.reason is None:
            made[one, other] = Pair(one, other, reason)
    return list(made.values())


def _marked_in(body: list[form.Statement], blocks: told.Blocks, ported: Ported, apart: set[str]) -> set[str]:
    """What is shared in the statements, and in what they call."""
    numbers = {id(one): at + 1 for at, one in enumerate(ported.text.statements) if one is not None}
    seen: set[form.Method] = set()
    found: set[str] = set()
    waiting = [body]
    while waiting:
        for one in form.statements(waiting.pop()):
            head = f"loop {numbers.get(id(one), 0)}"
            if blocks.marks.get(head) or head in apart:
                found.add(head)
            if isinstance(one, form.Do) and one.method not in seen:
                seen.add(one.method)
                if calls_itself(one.method) and blocks.marks.get(f"op {one.method!r}"):
                    found.add(f"op {one.method!r}")
                waiting.append(one.method.body)
    return found


def calls_itself(method: form.Method) -> bool:
    """Whether a function comes back to itself through others."""
    seen: set[form.Method] = set()
    waiting = _called(method)
    while waiting:
        one = waiting.pop()
        if one is method:
            return True
        if one not in seen:
            seen.add(one)
            waiting += _called(one)
    return False


def _called(method: form.Method) -> list[form.Method]:
    called = [one.method for one in form.statements(method.body) if isinstance(one, form.Do)]
    return called + [one.method for one in form.expressions(method.body) if isinstance(one, form.Apply)]


def is_users(place: Place) -> bool:
    return bool(place.line) and not place.file.startswith(INCLUDE)


def _merged(ones: list[Finding]) -> list[Finding]:
    """One for each place: of several instances of one text the one that says least."""
    made: dict[tuple[str, int, int, str], Finding] = {}
    for one in ones:
        key = (one.place.file, one.place.line, one.place.column, one.what.split()[0])
        known = made.get(key)
        if known is None:
            made[key] = one
            continue
        kept, other = (known, one) if LEAST.index(known.state) <= LEAST.index(one.state) else (one, known)
        kept.heads, kept.inner = [*kept.heads, *other.heads], kept.inner | other.inner
        made[key] = kept
    return [made[key] for key in sorted(made)]
