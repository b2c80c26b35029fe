"""Not proved (README.md). A class in several roles as several classes.

Asked before: by unification over the whole program, objects of the class fall into sets, made at places of their own, of which none is ever
seen as one of another (`unified`). Each set has a class of its own then, with the same fields and methods; methods are copied where they work
on several sets. So every statement runs on the same objects as before; only the names of classes differ. Steps: the same.
"""

from .. import form
from ..words import unique
from . import facts
from .building import Shape, copied
from .unified import Copy, Role, TooMany, Unified, found

NAME = "class in several roles to several classes"
MOST_METHODS = 200


def split(shape: Shape) -> Shape | None:
    """The program with a class for each role; None where no class has two."""
    try:
        unified = Unified(shape.program)
    except TooMany:
        return None
    names = _Names(shape.program, unified)
    if not names.several:
        return None
    made = _Splitting(shape.program, unified, names).program()
    if len(made.methods()) > MOST_METHODS:
        return None
    again = Shape(made, list(shape.told), {}, dict(shape.done))
    for cls, count in names.several.items():
        again.count(NAME)
        old = shape.program.classes[cls]
        if old.place.line:
            again.tell(old.place, f"{old.origin or cls} is in {count} roles, and made {count} classes")
    return again


class _Names:
    """The class of each role."""

    def __init__(self, program: form.Program, unified: Unified) -> None:
        self._unified = unified
        self.roles: dict[str, list[Role]] = {}
        every = [role for one in unified.copies for role in self._of(one)]
        self._names: dict[Role, str] = {}
        used = set(program.classes)
        for role in sorted({found(one) for one in every if found(one).made is not None}, key=lambda one: one.made or 0):
            group = self.roles.setdefault(role.cls, [])
            self._names[role] = role.cls if not group else unique(f"{role.cls}_{len(group) + 1}", used)
            group.append(role)
        self.several = {cls: len(group) for cls, group in self.roles.items() if len(group) > 1}

    def _of(self, copy: Copy) -> list[Role]:
        """The roles of a copy, and those that their fields lead to."""
        seen: dict[Role, None] = {}
        waiting = [found(one) for one in [copy.this, copy.result, *copy.locals.values()] if one is not None]
        while waiting:
            role = waiting.pop()
            if role not in seen:
                seen[role] = None
                waiting += [found(one) for one in role.fields.values()]
        return list(seen)

    def of(self, role: Role) -> str:
        """What is never made is of the first class, since it is null always."""
        return self._names.get(found(role), role.cls)


class _Splitting:
    """The new classes and their methods."""

    def __init__(self, program: form.Program, unified: Unified, names: _Names) -> None:
        self._old, self._unified, self._names = program, unified, names
        self._classes: dict[str, form.Class] = {}
        self._keys: dict[Copy, int] = {}
        self._known: dict[tuple[object, ...], int] = {}
        self._methods: dict[int, form.Method] = {}
        # What is called in a class hides methods of its names.
        self._locals = {
            cls.name: {local.name for one in cls.methods for local in [*one.parameters, *facts.used(one.body)]}
            for cls in program.classes.values()
        }

    def program(self) -> form.Program:
        for name, cls in self._old.classes.items():
            every: list[Role | None] = [*self._names.roles.get(name, [])]
            for role in every or [None]:
                self._class(cls, role)
        # (in the order of the old program)
        order = {method: at for at, method in enumerate(self._old.methods())}
        copies = sorted(self._unified.copies, key=lambda one: order[one.method])
        chosen = [copy for copy in copies if self._key(copy) not in self._methods and self._declared(copy)]
        for copy in chosen:
            self._methods[self._key(copy)].body = self._block(copy, copied(copy.method.body), copy.method.body)
        return form.Program(self._classes, self._methods[self._key(self._unified.main)])

    def _class(self, cls: form.Class, role: Role | None) -> None:
        name = self._names.of(role) if role is not None else cls.name
        slots = []
        for slot in cls.slots:
            type_ = slot.type
            if role is not None and slot.name in role.fields:
                type_ = form.Pointer(self._names.of(role.fields[slot.name]))
            slots.append(form.Slot(slot.name, type_, slot.length, slot.origin, slot.grows, slot.place, slot.owned))
        self._classes[name] = form.Class(name, slots, [], cls.place, cls.origin)

    def _key(self, copy: Copy) -> int:
        """The number of the method that the copy becomes: copies that look the same become one."""
        if copy not in self._keys:
            roles = tuple(sorted((name, self._names.of(role)) for name, role in copy.locals.items()))
            calls = tuple(
                ("itself",) if one is copy else ("waits", id(one)) if one in copy.waiting else self._key(one)
                for one in copy.calls.values()
            )
            given = (copy.method, self._names.of(copy.this), roles, calls)
            self._keys[copy] = self._known.setdefault(given, len(self._known))
        return self._keys[copy]

    def _declared(self, copy: Copy) -> bool:
        """Declares the method that the copy becomes."""
        old, cls = copy.method, self._classes[self._names.of(copy.this)]
        used = cls.names() | self._locals[old.cls.name]
        made = form.Method(
            unique(old.name, used), cls, self._type(old.result, copy.result), [], [], old.pure, old.place
        )
        made.origin, made.user = old.origin, old.user
        made.parameters = [self._local(copy, one) for one in old.parameters]
        cls.methods.append(made)
        self._methods[self._key(copy)] = made
        return True

    def _type(self, type_: form.Type | None, role: Role | None) -> form.Type | None:
        return form.Pointer(self._names.of(role)) if isinstance(type_, form.Pointer) and role is not None else type_

    def _local(self, copy: Copy, local: form.Local) -> form.Local:
        role = copy.locals.get(local.name)
        return form.Local(local.name, form.Pointer(self._names.of(role))) if role is not None else local

    # Bodies -----------------------------------------------------------------------------------------------------------

    def _block(self, copy: Copy, body: list[form.Statement], old: list[form.Statement]) -> list[form.Statement]:
        for one, was in zip(body, old):
            self._statement(copy, one, was)
            for block, before in zip(form.blocks(one), form.blocks(was)):
                self._block(copy, block, before)
        return body

    def _statement(self, copy: Copy, one: form.Statement, was: form.Statement) -> None:
        from ..finishing.walking import map_statement

        map_statement(one, lambda expr: self._expr(copy, expr))
        if isinstance(one, (form.Let, form.Make)):
            one.local = self._local(copy, one.local)
        elif isinstance(one, form.Count):
            one.counter = self._local(copy, one.counter)
        elif isinstance(one, form.Do):
            one.method = self._methods[self._key(copy.calls[id(was)])]
            one.result = self._local(copy, one.result) if one.result is not None else None

    def _expr(self, copy: Copy, expr: form.Expr) -> form.Expr:
        match expr:
            case form.Local():
                return self._local(copy, expr)
            case form.This():
                return form.This(form.Pointer(self._names.of(copy.this)))
            case form.Apply(_, receiver, arguments, type_):
                called = copy.calls[expr]
                method = self._methods[self._key(called)]
                given = tuple(self._expr(copy, one) for one in arguments)
                return form.Apply(method, self._expr(copy, receiver), given, method.result or type_)
        old = form.parts(expr)
        made = form.with_parts(expr, tuple(self._expr(copy, part) for part in old))
        role = self._unified.role(copy, expr) if isinstance(made.type, form.Pointer) else None
        match made:
            case form.Field(owner, name, _) if role is not None:
                return form.Field(owner, name, form.Pointer(self._names.of(role)))
            case form.Item(owner, name, index, _) if role is not None:
                return form.Item(owner, name, index, form.Pointer(self._names.of(role)))
            case form.Choose(condition, yes, no, _) if role is not None:
                return form.Choose(condition, yes, no, form.Pointer(self._names.of(role)))
        return made
