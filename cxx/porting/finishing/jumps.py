"""Not proved (README.md). Break, continue and return, which the language doesn't have, as conditions.

What stands behind a jump within an `if` goes into the other branch, where one branch always jumps; else it stands
under a flag that the jump sets. A loop that is left has the flag in its condition. A value method keeps its returns,
which the language has.
"""

from .. import form
from ..places import Place
from ..words import unique

BREAK, CONTINUE, RETURN = "left", "skipped", "done"
Block = list[form.Statement]


def finish(program: form.Program) -> None:
    for method in program.methods():
        _Jumps(method).finish()


class _Jumps:
    """One method. `flags` has, for each kind of jump that stands round the place that is looked at, the local that
    tells of it."""

    def __init__(self, method: form.Method) -> None:
        self.method = method
        self.used = {one.name for one in method.parameters}
        self.used |= {one.name for one in form.expressions(method.body) if isinstance(one, form.Local)}

    def finish(self) -> None:
        method = self.method
        if not method.pure and _jumps(method.body, (RETURN,), True):
            flag = self._flag(RETURN)
            needed = _Needed()
            body = self._list(method.body, {RETURN: flag}, needed)
            if flag in needed.flags:
                method.body = [form.Let(flag, form.Truth(False), method.place), *body]
            else:
                method.body = _unasked(body, flag)
        else:
            method.body = self._list(method.body, {}, _Needed())
        if method.pure and method.result is not None and not always_returns(method.body):
            method.body.append(form.Return(form.zero(method.result), method.place))

    def _flag(self, name: str) -> form.Local:
        return form.Local(unique(name, self.used), form.BOOL)

    def _list(self, body: Block, flags: dict[str, form.Local], needed: "_Needed") -> Block:
        """The statements without the jumps that `flags` names."""
        out: Block = []
        for at, one in enumerate(body):
            kind = _kind(one)
            if kind is not None:
                if kind in flags:
                    out.append(form.Put(flags[kind], "", form.Truth(True), one.place))
                else:
                    out.append(one)
                return out
            rest = body[at + 1 :]
            if isinstance(one, form.If):
                if self._branch(one, rest, flags, needed, out):
                    return out
            elif isinstance(one, (form.Loop, form.Count)):
                done = self._loop(one, flags, needed, out)
                if done is not None and rest:
                    self._under(done, self._list(rest, flags, needed), needed, out, one.place)
                    return out
            else:
                out.append(one)
        return out

    def _branch(self, one: form.If, rest: Block, flags: dict[str, form.Local], needed: "_Needed", out: Block) -> bool:
        """An `if`; whether the rest of the list is done with it."""
        kinds = tuple(flags)
        yes_jumps, no_jumps = _jumps(one.yes, kinds, False), _jumps(one.no, kinds, False)
        if not yes_jumps and not no_jumps:
            out.append(self._if(one, self._list(one.yes, flags, needed), self._list(one.no, flags, needed)))
            return False
        if yes_jumps and _always(one.yes, kinds):
            out.append(self._if(one, self._list(one.yes, flags, needed), self._list(one.no + rest, flags, needed)))
            return True
        if no_jumps and _always(one.no, kinds):
            out.append(self._if(one, self._list(one.yes + rest, flags, needed), self._list(one.no, flags, needed)))
            return True
        out.append(self._if(one, self._list(one.yes, flags, needed), self._list(one.no, flags, needed)))
        if rest:
            self._under_any(yes_jumps | no_jumps, self._list(rest, flags, needed), flags, needed, out, one.place)
        return True

    def _if(self, one: form.If, yes: Block, no: Block) -> form.If:
        return form.If(one.condition, yes, no, one.place)

    def _under(self, flag: form.Local, rest: Block, needed: "_Needed", out: Block, place: Place) -> None:
        needed.flags.add(flag)
        if rest:
            out.append(form.If(form.Not(flag), rest, [], place))

    def _under_any(
        self, kinds: set[str], rest: Block, flags: dict[str, form.Local], needed: "_Needed", out: Block, place: Place
    ) -> None:
        condition: form.Expr | None = None
        for kind in sorted(kinds):
            needed.flags.add(flags[kind])
            one = form.Not(flags[kind])
            condition = one if condition is None else form.Binary("&&", condition, one, form.BOOL)
        if rest and condition is not None:
            out.append(form.If(condition, rest, [], place))

    def _loop(
        self, one: form.Loop | form.Count, flags: dict[str, form.Local], needed: "_Needed", out: Block
    ) -> form.Local | None:
        """A loop; the flag of the method's end, where that may have come in it."""
        place = one.place
        inner: dict[str, form.Local] = {CONTINUE: self._flag(CONTINUE)}
        body = one.body
        if isinstance(one, form.Loop) and one.test:
            # What is done before the condition is looked at stands at the head of the body, and the loop is left there.
            leave = form.If(form.negated(one.condition), [form.Break(place)], [], place)
            body = [*one.test, leave, *body]
            one = form.Loop([], form.Truth(True), body, one.step, place, one.user)
        breaks = bool(_jumps(body, (BREAK,), False))
        returns = RETURN in flags and bool(_jumps(body, (RETURN,), True))
        if breaks:
            inner[BREAK] = self._flag(BREAK)
        if returns:
            inner[RETURN] = flags[RETURN]
        within = _Needed()
        turn = self._list(body, inner, within)
        if not _jumps(body, (CONTINUE,), False):
            pass
        elif inner[CONTINUE] in within.flags:
            turn.insert(0, form.Let(inner[CONTINUE], form.Truth(False), place))
        else:
            turn = _unasked(turn, inner[CONTINUE])
        condition = one.condition
        ends = [inner[BREAK]] if breaks else []
        ends += [flags[RETURN]] if returns else []
        for flag in reversed(ends):
            asked = form.Not(flag)
            condition = asked if condition == form.Truth(True) else form.Binary("&&", asked, condition, form.BOOL)
        if breaks:
            out.append(form.Let(inner[BREAK], form.Truth(False), place))
        if returns:
            needed.flags.add(flags[RETURN])
        if isinstance(one, form.Count):
            out.append(form.Count(one.counter, one.first, condition, one.step, turn, place, one.user))
        else:
            self._stepped(one, condition, turn, ends, out)
        return flags[RETURN] if returns else None

    def _stepped(self, one: form.Loop, condition: form.Expr, turn: Block, ends: list[form.Local], out: Block) -> None:
        """A `while`, with its step behind each turn that doesn't leave it."""
        step: Block = list(one.step)
        if step and ends:
            asked: form.Expr = form.Not(ends[0])
            for flag in ends[1:]:
                asked = form.Binary("&&", asked, form.Not(flag), form.BOOL)
            step = [form.If(asked, step, [], one.place)]
        out.append(form.Loop([], condition, turn + step, [], one.place, one.user))


class _Needed:
    """The flags that something asks for."""

    def __init__(self) -> None:
        self.flags: set[form.Local] = set()


def _kind(one: form.Statement) -> str | None:
    if isinstance(one, form.Break):
        return BREAK
    if isinstance(one, form.Continue):
        return CONTINUE
    return RETURN if isinstance(one, form.Return) else None


def _jumps(body: Block, kinds: tuple[str, ...], loops: bool) -> set[str]:
    """Which of these jumps the statements have that leave them; of loops within only returns do."""
    found: set[str] = set()
    for one in body:
        kind = _kind(one)
        if kind in kinds:
            assert kind is not None
            found.add(kind)
        elif isinstance(one, form.If):
            found |= _jumps(one.yes, kinds, loops) | _jumps(one.no, kinds, loops)
        elif isinstance(one, (form.Loop, form.Count)) and RETURN in kinds:
            found |= _jumps(one.body, (RETURN,), loops)
    return found


def _always(body: Block, kinds: tuple[str, ...]) -> bool:
    """Whether the statements always end with a jump."""
    if not body:
        return False
    last = body[-1]
    if _kind(last) in kinds:
        return True
    return isinstance(last, form.If) and _always(last.yes, kinds) and _always(last.no, kinds)


def always_returns(body: Block) -> bool:
    """Whether the language sees that a value method ends with a return."""
    if not body:
        return False
    last = body[-1]
    if isinstance(last, form.Return):
        return True
    return isinstance(last, form.If) and always_returns(last.yes) and always_returns(last.no)


def _unasked(body: Block, flag: form.Local) -> Block:
    """The statements without what sets the flag, which nothing asks for."""
    out: Block = []
    for one in body:
        if isinstance(one, form.If):
            one = form.If(one.condition, _unasked(one.yes, flag), _unasked(one.no, flag), one.place)
        if not (isinstance(one, form.Put) and one.target == flag):
            out.append(one)
    return out


def one(method: form.Method) -> None:
    """Takes the jumps of one method away."""
    _Jumps(method).finish()
