"""Not proved (README.md). Which objects of a class can be told apart by the text: roles, found by unification.

Each call has a copy of the method that it calls, but for calls that come back to a method that waits, which go to its copy. A role stands
for the objects that a pointer of a copy may point to; where one pointer is put into another, compared with it or chosen beside it, both have
one role, and the same fields of both have. So no object of one role is ever seen as one of another.
"""

from dataclasses import dataclass, field

from .. import form

MOST_COPIES = 2000


class TooMany(Exception):
    """The copies of methods are too many."""


@dataclass(eq=False)
class Role:
    """A set of objects of a class; where it was unified with another, `up` is that one."""

    cls: str
    fields: dict[str, "Role"] = field(default_factory=dict)
    # The order in which it was met that an object of it is made; None where none is.
    made: int | None = None
    up: "Role | None" = None


@dataclass(eq=False)
class Copy:
    """A method as one call has it."""

    method: form.Method
    this: Role
    result: Role | None
    locals: dict[str, Role] = field(default_factory=dict)
    # The copies that it calls, by the statement (its id) or expression.
    calls: dict[int | form.Apply, "Copy"] = field(default_factory=dict)
    # Those of them that wait already.
    waiting: set["Copy"] = field(default_factory=set)


def found(role: Role) -> Role:
    while role.up is not None:
        role = role.up
    return role


def unify(one: Role | None, other: Role | None) -> None:
    waiting = [(one, other)]
    while waiting:
        first, second = waiting.pop()
        if first is None or second is None:
            continue
        first, second = found(first), found(second)
        if first is second:
            continue
        second.up = first
        both = [one for one in (first.made, second.made) if one is not None]
        first.made = min(both) if both else None
        for name, role in second.fields.items():
            if name in first.fields:
                waiting.append((first.fields[name], role))
            else:
                first.fields[name] = role


class Unified:
    """The copies of a program's methods with their roles."""

    def __init__(self, program: form.Program) -> None:
        self.root = Role("Program", made=0)
        self.copies: list[Copy] = []
        self._made = 0
        self.main = self._copy(program.main, self.root, {})

    def _copy(self, method: form.Method, this: Role, waiting: dict[form.Method, Copy]) -> Copy:
        if len(self.copies) >= MOST_COPIES:
            raise TooMany
        made = Copy(method, this, Role(method.result.cls) if isinstance(method.result, form.Pointer) else None)
        self.copies.append(made)
        for one in method.parameters:
            self.local(made, one)
        self._block(made, method.body, {**waiting, method: made})
        return made

    def local(self, copy: Copy, local: form.Local) -> Role | None:
        if not isinstance(local.type, form.Pointer):
            return None
        return copy.locals.setdefault(local.name, Role(local.type.cls))

    # Statements -------------------------------------------------------------------------------------------------------

    def _block(self, copy: Copy, body: list[form.Statement], waiting: dict[form.Method, Copy]) -> None:
        for one in body:
            self._statement(copy, one, waiting)
            for block in form.blocks(one):
                self._block(copy, block, waiting)

    def _statement(self, copy: Copy, one: form.Statement, waiting: dict[form.Method, Copy]) -> None:
        match one:
            case form.Let(local, value, _):
                given = self._role(copy, value, waiting) if value is not None else None
                unify(self.local(copy, local), given)
            case form.Put(target, _, value, _):
                unify(self._role(copy, target, waiting), self._role(copy, value, waiting))
            case form.Make(local, _):
                role = self.local(copy, local)
                assert role is not None
                self._made += 1
                if found(role).made is None:
                    found(role).made = self._made
            case form.Do(method, receiver, arguments, result, _):
                called = self._called(copy, id(one), method, receiver, tuple(arguments), waiting)
                if result is not None:
                    unify(self.local(copy, result), called.result)
            case form.Count(counter, first, condition, _, _, _, _):
                unify(self.local(copy, counter), self._role(copy, first, waiting))
                self._role(copy, condition, waiting)
            case form.Return(value, _):
                unify(copy.result, self._role(copy, value, waiting) if value is not None else None)
            case _:
                for expr in form.own_expressions(one):
                    self._role(copy, expr, waiting)

    def _called(
        self, copy: Copy, key: int | form.Apply, method: form.Method, receiver: form.Expr, arguments: tuple[form.Expr, ...],
        waiting: dict[form.Method, Copy],
    ) -> Copy:  # fmt: skip
        owner = self._role(copy, receiver, waiting)
        given = [self._role(copy, one, waiting) for one in arguments]
        assert owner is not None
        if key not in copy.calls:
            if method in waiting:
                copy.waiting.add(waiting[method])
                copy.calls[key] = waiting[method]
            else:
                copy.calls[key] = self._copy(
                    method, Role(method.cls.name) if owner is not self.root else owner, waiting
                )
        called = copy.calls[key]
        unify(called.this, owner)
        for local, role in zip(method.parameters, given):
            unify(self.local(called, local), role)
        return called

    # Expressions ------------------------------------------------------------------------------------------------------

    def role(self, copy: Copy, expr: form.Expr) -> Role | None:
        """The role of what the expression points to, all calls in it being known."""
        return self._role(copy, expr, {})

    def _role(self, copy: Copy, expr: form.Expr, waiting: dict[form.Method, Copy]) -> Role | None:
        match expr:
            case form.Local():
                return self.local(copy, expr)
            case form.This():
                return copy.this
            case form.Root():
                return self.root
            case form.Field(owner, name, type_):
                return self._field(self._role(copy, owner, waiting), name, type_)
            case form.Item(owner, name, index, type_):
                self._role(copy, index, waiting)
                return self._field(self._role(copy, owner, waiting), name, type_)
            case form.Choose(condition, yes, no, _):
                self._role(copy, condition, waiting)
                first, second = self._role(copy, yes, waiting), self._role(copy, no, waiting)
                unify(first, second)
                return first if first is not None else second
            case form.Apply(method, receiver, arguments, _):
                return self._called(copy, expr, method, receiver, arguments, waiting).result
            case form.Binary("==" | "!=", left, right, _):
                unify(self._role(copy, left, waiting), self._role(copy, right, waiting))
                return None
        for part in form.parts(expr):
            self._role(copy, part, waiting)
        return None

    def _field(self, owner: Role | None, name: str, type_: form.Type) -> Role | None:
        if not isinstance(type_, form.Pointer) or owner is None:
            return None
        return found(owner).fields.setdefault(name, Role(type_.cls))
