"""Not proved (README.md). Plan and pairs in the user's lines and names: which loops and recursions may run in
parallel, and why others not."""

from dataclasses import dataclass

from . import form
from .clang import INCLUDE
from .contexts import Contexts
from .engine import Answer, ask
from .places import Place
from .port import Ported
from .reasons import Namer, Reason, short, unlisted
from .refusals import Unported


@dataclass
class Verdict:
    """Of a loop or function of the user: what it is, and why it isn't parallel, if it isn't; whether all of its runs are within what
    runs in parallel, so that it costs no thread its work."""

    place: Place
    what: str
    reason: Reason | None
    within: bool = False

    @property
    def rank(self) -> int:
        return 2 if self.reason is None else int(self.within)

    def __str__(self) -> str:
        said = (f"is serial: {self.reason}", "is serial, within what runs in parallel", "runs in parallel")[self.rank]
        return f"{short(self.place)}: {self.what} {said}"


def report(ported: Ported) -> list[str]:
    """A line for each loop and recursion of the user, by its place, and a last one that counts."""
    blocks = Blocks(ported)
    contexts = Contexts(ported, lambda head: bool(blocks.marks.get(head)))
    verdicts = merged(loops(ported, blocks, contexts) + recursions(ported, blocks, contexts))
    if not verdicts:
        return ["no loop and no recursion"]
    parallel = sum(one.reason is None for one in verdicts)
    done = sorted({f"{short(place)}: {words}" for place, words in ported.rewritten})
    return (
        [str(one) for one in verdicts] + done + [f"{parallel} of {len(verdicts)} loops and recursions run in parallel"]
    )


def pair_lines(ported: Ported) -> list[str]:
    """Each pair of `pairs` in the user's names."""
    namer, out = Namer(ported), []
    for head, lines in Blocks(ported).lines.items():
        word, name = head.split()
        shown = (
            f"{short(namer.place(int(name)))}: loop"
            if word == "loop"
            else f"{short(_place(namer, name))}: {namer.operation(name)}"
        )
        for line in lines:
            reason = namer.reason(line)
            if not all(namer.is_users(one) for one in line.split()[:2]):
                continue
            first, second = (namer.operation(one) for one in line.split()[:2])
            out.append(f"{shown}: {first} and {second}: {reason if reason is not None else 'in any order'}")
    return list(dict.fromkeys(out))


def _place(namer: Namer, name: str) -> Place:
    return namer.methods[name].place


class Blocks:
    """What `plan` and `pairs` answer: the marks, and the pairs of each extent."""

    def __init__(self, ported: Ported) -> None:
        text = str(ported.text)
        self.marks: dict[str, bool] = {}
        for line in _answered(ask(text, "plan")):
            head, _, verdict = line.rpartition(" ")
            self.marks[head] = verdict == "parallel"
        self.lines: dict[str, list[str]] = {}
        head = ""
        for line in _answered(ask(text, "pairs")):
            if line.startswith(("extent ", "loop ")):
                head = line.replace("extent ", "op ", 1)
                self.lines[head] = []
            else:
                self.lines[head].append(line)

    def reason(self, head: str, namer: Namer) -> Reason | None:
        """Why what `plan` calls by this head isn't marked."""
        if self.marks.get(head):
            return None
        for line in sorted(self.lines.get(head, []), key=namer.weight):
            reason = namer.reason(line)
            if reason is not None:
                return reason
        return Reason("it reads what its own calls change, or calls nothing", "read it before")


def _answered(answer: Answer) -> list[str]:
    if answer.status != 0:
        raise Unported([f"the port isn't accepted ({' '.join(answer.lines[:1])})"])
    return answer.lines


def loops(ported: Ported, blocks: Blocks, contexts: Contexts) -> list[Verdict]:
    """The loops of the user."""
    namer, found = Namer(ported), []
    for at, statement in enumerate(ported.text.statements):
        if isinstance(statement, (form.Loop, form.Count)) and statement.user and _is_users(ported, statement.place):
            head = f"loop {at + 1}"
            reason = blocks.reason(head, namer) if head in blocks.marks else unlisted(statement)
            found.append(Verdict(statement.place, "loop", reason, contexts.has_loop(statement)))
    return found


def recursions(ported: Ported, blocks: Blocks, contexts: Contexts) -> list[Verdict]:
    """The functions of the user that change something and call themselves, and those others that are marked."""
    namer, found = Namer(ported), []
    called = {method: _called(method) for method in ported.program.methods()}
    for method in called:
        if not method.user and method not in ported.loops:
            continue
        marked = blocks.marks.get(f"op {method!r}", False)
        within = contexts.has_method(method)
        if method in ported.loops:
            found.append(Verdict(ported.loops[method], "loop", blocks.reason(f"op {method!r}", namer), within))
            continue
        if _calls_itself(method, called):
            reason = blocks.reason(f"op {method!r}", namer) if not method.pure else _pure(method)
            found.append(Verdict(method.place, f"recursion {method.origin}", reason, within))
        elif marked:
            found.append(Verdict(method.place, f"what {method.origin} calls", None))
    return found


def _pure(method: form.Method) -> Reason:
    parts = [part for one in form.expressions(method.body) for part in form.within(one)]
    chosen = any(isinstance(part, form.Binary) and part.operator in ("max", "min") for part in parts)
    mended = "pass an object along to which each call adds"
    if chosen:
        mended = (
            "pass the value so far along as an argument, and an object that keeps the greatest or the least of them"
        )
    return Reason("it gives a value back to each caller, who waits for it", mended)


def _calls_itself(method: form.Method, called: dict[form.Method, set[form.Method]]) -> bool:
    """Whether a call leads to another one of the same method."""
    seen: set[form.Method] = set()
    waiting = [method]
    while waiting:
        for one in called.get(waiting.pop(), ()):
            if one is method:
                return True
            if one not in seen:
                seen.add(one)
                waiting.append(one)
    return False


def _called(method: form.Method) -> set[form.Method]:
    found = {one.method for one in form.statements(method.body) if isinstance(one, form.Do)}
    return found | {one.method for one in form.expressions(method.body) if isinstance(one, form.Apply)}


def _is_users(ported: Ported, place: Place) -> bool:
    return bool(place.line) and not place.file.startswith(INCLUDE)


def merged(verdicts: list[Verdict]) -> list[Verdict]:
    """One verdict for each place: several instances of one text are parallel where all are."""
    by_place: dict[tuple[str, int, int, str], Verdict] = {}
    for one in verdicts:
        key = (one.place.file, one.place.line, one.place.column, one.what.split()[0])
        known = by_place.get(key)
        if known is None or one.rank < known.rank:
            by_place[key] = one
    return [by_place[key] for key in sorted(by_place)]
