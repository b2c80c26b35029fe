"""Not proved: what a call takes at most, where the text says so: in expressions and statements, without end where it
doesn't."""

from __future__ import annotations

from .tree import Asked, Binary, Block, Call, Declare, Expression, Fill, For, If, Item, Local, Method, New
from .tree import Number, Own, Program, Put, Statement, This, While, Word, counted, expressions, parts

# What is lighter than this isn't worth other workers, nor the question whether it is.
FEW = 2000
ENDLESS = float("inf")


class Weights:
    def __init__(self, program: Program):
        self.program = program
        self.known: dict[Method, float] = {}

    def method(self, method: Method) -> float:
        if method not in self.known:
            self.known[method] = ENDLESS  # while it is weighed: it calls itself
            self.known[method] = 1 + self.statement(method.body, method.owner)
        return self.known[method]

    def expression(self, it: Expression, owner: str) -> float:
        if isinstance(it, (Number, Word, Local, This)):
            return 0
        own: float = 10 if isinstance(it, New) or isinstance(it, Binary) and it.operator in "/%" else 1
        if isinstance(it, Asked):
            own = self.method(self.program.called(it, owner))
        return own + sum(self.expression(part, owner) for part in parts(it))

    def statement(self, it: Statement, owner: str) -> float:
        if isinstance(it, Block):
            return sum(self.statement(item, owner) for item in it.items)
        if isinstance(it, While):
            return ENDLESS
        asked = sum(self.expression(part, owner) for part in expressions(it))
        if isinstance(it, For):
            many = turns(it)
            return 1 + (many * (2 + asked + self.statement(it.body, owner)) if many else 0)
        if isinstance(it, If):
            branches = [self.statement(branch, owner) for branch in (it.yes, it.no) if branch is not None]
            return 1 + asked + max(branches)
        if isinstance(it, (Call, Fill)):
            return asked + self.method(self.program.called(it, owner))
        if isinstance(it, Put) and isinstance(it.target, (Own, Item)):
            asked += 1
        return asked if isinstance(it, Declare) and it.value is None else 1 + asked


def turns(it: For) -> float:
    """Of `for (long i = 3; i < 7; i += 1)` the difference of its numbers."""
    found = counted(it)
    if found is None or not isinstance(found[1], Number) or not isinstance(found[2], Number):
        return ENDLESS
    return max(0, int(found[2].digits) - int(found[1].digits))
