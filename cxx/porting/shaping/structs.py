"""Not proved (README.md). Structs of numbers, held as members and made as values, as the numbers themselves: `at.x` as `at_x`.

Asked before, of the whole program: all members of the class are numbers; an object of it stands in a member of another object, which
holds it from its making on, or is made in a function, and nothing else ever points to it: it is compared with none, in no array, and not
null. Its functions are put in where they are called; others that are handed one only read it, and change no member that they may be handed.

Why prints and final values stay: each object has one name then, a member or a local, and each of its numbers is a member or a local
that is read and written where the number was. Where anything isn't so, the class stays as it is.

Steps: calls of the class's functions are gone.
"""

from .. import form
from ..finishing.walking import map_statement
from ..places import Place
from ..words import unique
from . import facts
from .building import Shape, copied, renamed, replace
from .duplicates import duplicate

NAME = "struct of numbers to its numbers"
Block = list[form.Statement]


class Unfit(Exception):
    """The class has to stay."""


def flattened(shape: Shape) -> Shape | None:
    """The program, as it was lowered, without the structs that can be their numbers; None where there is none."""
    best: Shape | None = None
    for name in list(shape.program.classes):
        now = best if best is not None else shape
        if _is_struct(now.program, name):
            trial = duplicate(now)
            try:
                _Flat(trial, trial.program.classes[name]).done()
            except Unfit:
                continue
            best = trial
    return best


def _is_struct(program: form.Program, name: str) -> bool:
    cls = program.classes[name]
    held = [one for other in program.classes.values() for one in other.slots if one.type == form.Pointer(name)]
    numbers = all(one.length is None and isinstance(one.type, form.Scalar) for one in cls.slots)
    return bool(cls.slots and held and numbers) and all(one.length is None for one in held)


class _Flat:
    """One class of a program on its way to numbers."""

    def __init__(self, shape: Shape, cls: form.Class) -> None:
        self.shape, self.cls, self.type = shape, cls, form.Pointer(cls.name)
        self.program = shape.program
        # The new members, by the old one and the number; the new parameters of methods, by the old ones.
        self.members: dict[tuple[str, str, str], str] = {}
        self.parameters: dict[form.Method, dict[form.Local, list[form.Local]]] = {}
        # The members whose numbers a method puts itself.
        self._puts: dict[form.Method, set[facts.Place]] = {}

    def done(self) -> None:
        cls, program = self.cls, self.program
        others = [one for one in program.methods() if one.cls is not cls]
        for method in others:
            _Inlined(self, method).done()
        self._slots()
        called = {one for method in others for one in facts.called(method.body)}
        for method in others:
            if method.result == self.type:
                # (what gives one back is put in wherever it is called)
                if method in called:
                    raise Unfit
                method.result, method.body = None, []
            self._puts[method] = self._put_by(method.body)
            self._parameters(method)
        for method in others:
            _Split(self, method).done()
        del program.classes[cls.name]
        for method in others:
            if any(one.type == self.type for one in form.expressions(method.body)) or cls in {
                one.cls for one in facts.called(method.body)
            }:
                raise Unfit
        self.shape.count(NAME)
        if cls.place.line:
            self.shape.tell(cls.place, f"{cls.origin or cls.name} is held as its numbers")

    def _slots(self) -> None:
        for other in self.program.classes.values():
            if other is self.cls:
                continue
            made: list[form.Slot] = []
            used = self.shape.names(other)
            for slot in other.slots:
                if slot.type != self.type:
                    made.append(slot)
                    continue
                for number in self.cls.slots:
                    name = unique(f"{slot.name}_{number.name}", used)
                    self.members[other.name, slot.name, number.name] = name
                    origin = f"{slot.origin or slot.name}.{number.origin or number.name}"
                    made.append(form.Slot(name, number.type, None, origin, False, slot.place))
            other.slots[:] = made

    def _parameters(self, method: form.Method) -> None:
        """A parameter that points to one becomes its numbers."""
        used = (
            {one.name for one in facts.used(method.body)}
            | {one.name for one in method.parameters}
            | self.shape.names(method.cls)
        )
        changed = facts.assigned(method.body)
        new: list[form.Local] = []
        for one in method.parameters:
            if one.type != self.type:
                new.append(one)
                continue
            if one in changed:
                raise Unfit
            locals_ = [form.Local(unique(f"{one.name}_{number.name}", used), number.type) for number in self.cls.slots]
            self.parameters.setdefault(method, {})[one] = locals_
            new += locals_
        method.parameters = new

    def _put_by(self, body: Block) -> set[facts.Place]:
        names = {
            one.local: one.value
            for one in form.statements(body)
            if isinstance(one, form.Let) and one.local.type == self.type
        }
        found: set[facts.Place] = set()
        for one in form.statements(body):
            if not isinstance(one, form.Put) or not isinstance(one.target, form.Field):
                continue
            owner: form.Expr | None = one.target if one.target.type == self.type else one.target.object
            while isinstance(owner, form.Local) and owner in names:
                owner = names[owner]
            if isinstance(owner, form.Field) and owner.type == self.type:
                found.add(facts.place_of(owner))
        return found

    def written(self, method: form.Method) -> set[facts.Place]:
        """The members whose numbers a run of the method may put."""
        return {place for one in [method, *facts.reached(method.body)] for place in self._puts.get(one, set())}

    def numbers(self, expr: form.Expr) -> tuple[form.Expr, ...]:
        return tuple(form.Field(expr, one.name, one.type) for one in self.cls.slots)


class _Inlined:
    """The calls of a method that have to do with the class, put in."""

    MOST = 400

    def __init__(self, flat: _Flat, method: form.Method) -> None:
        self.flat, self.method = flat, method
        self.used = {one.name for one in method.parameters} | {one.name for one in facts.used(method.body)}
        self.used |= flat.shape.names(method.cls)
        self.left = self.MOST

    def done(self) -> None:
        self.method.body = self._block(self.method.body)
        replace(self.method.body, self._applied)

    def _is_ours(self, method: form.Method) -> bool:
        return method.cls is self.flat.cls or method.result == self.flat.type

    def _block(self, body: Block) -> Block:
        out: Block = []
        for one in body:
            if isinstance(one, form.Do) and self._is_ours(one.method):
                out += self._block(self._spliced(one))
                continue
            match one:
                case form.If():
                    one.yes, one.no = self._block(one.yes), self._block(one.no)
                case form.Loop():
                    one.test, one.body, one.step = map(self._block, (one.test, one.body, one.step))
                case form.Count():
                    one.body = self._block(one.body)
            out.append(one)
        return out

    def _spliced(self, call: form.Do) -> Block:
        self.left -= 1
        body = copied(call.method.body)
        value: form.Expr | None = None
        if body and isinstance(body[-1], form.Return):
            last = body.pop()
            assert isinstance(last, form.Return)
            value = last.value
        if self.left < 0 or any(isinstance(one, form.Return) for one in form.statements(body)):
            raise Unfit
        tail: Block = [form.Return(value, call.place)] if value is not None else []
        body += tail
        parameters = call.method.parameters
        inner = [one for one in dict.fromkeys([*parameters, *facts.used(body)])]
        names = {one: form.Local(unique(one.name, self.used), one.type) for one in inner}
        renamed(body, names)
        first: Block = []
        if any(isinstance(one, form.This) for one in form.expressions(body)):
            owner = form.Local(unique("owner_", self.used), form.Pointer(call.method.cls.name))
            replace(body, lambda expr: owner if isinstance(expr, form.This) else None)
            first.append(form.Let(owner, call.receiver, call.place))
        first += [form.Let(names[one], given, call.place) for one, given in zip(parameters, call.arguments)]
        if tail:
            last = body.pop()
            assert isinstance(last, form.Return) and last.value is not None
            if call.result is not None:
                body.append(form.Let(call.result, last.value, call.place))
        elif call.result is not None:
            raise Unfit
        return first + body

    def _applied(self, expr: form.Expr) -> form.Expr | None:
        """A call of one of the class's functions that only computes, as what it computes."""
        if not isinstance(expr, form.Apply) or expr.method.cls is not self.flat.cls:
            return None
        self.left -= 1
        body = expr.method.body
        if self.left < 0 or len(body) != 1 or not isinstance(body[0], form.Return) or body[0].value is None:
            raise Unfit
        receiver = form.mapped(expr.receiver, self._applied)
        given = dict(zip(expr.method.parameters, (form.mapped(one, self._applied) for one in expr.arguments)))

        def put(part: form.Expr) -> form.Expr | None:
            if isinstance(part, form.This):
                return receiver
            return given.get(part) if isinstance(part, form.Local) else None

        return form.mapped(form.mapped(body[0].value, put), self._applied)


class _Split:
    """The numbers of a method's structs."""

    def __init__(self, flat: _Flat, method: form.Method) -> None:
        self.flat, self.method = flat, method
        self.used = {one.name for one in method.parameters} | {one.name for one in facts.used(method.body)}
        self.used |= flat.shape.names(method.cls)
        # What each pointer stands for: the locals of an object that is made, or a member of an object.
        self.locals: dict[form.Local, dict[str, form.Local]] = {}
        self.others: dict[form.Local, form.Expr] = {}
        for one, locals_ in flat.parameters.get(method, {}).items():
            self.locals[one] = {number.name: local for number, local in zip(flat.cls.slots, locals_)}

    def done(self) -> None:
        flat = self.flat
        changed = {one for one in facts.assigned(self.method.body) if one.type == flat.type}
        if changed:
            raise Unfit
        self.method.body = self._block(self.method.body)
        given = flat.parameters.get(self.method, {}).values()
        if facts.assigned(self.method.body) & {local for locals_ in given for local in locals_}:
            raise Unfit

    def _block(self, body: Block) -> Block:
        out: Block = []
        for at, one in enumerate(body):
            if self._is_making(one):
                continue
            match one:
                case form.Make(local, place) if local.type == self.flat.type:
                    out += self._declared(local, place)
                case form.Let(local, value, place) if local.type == self.flat.type:
                    out += self._alias(local, value, place)
                case form.Put(form.Field() as target, "", form.Local() as made, place) if target.type == self.flat.type:
                    self._let_go(made, body, at)
                    for number in self.flat.cls.slots:
                        out.append(form.Put(self._number(target, number), "", self.locals[made][number.name], place))
                case _:
                    self._statement(one)
                    out.append(one)
        return out

    def _let_go(self, made: form.Local, body: Block, at: int) -> None:
        """The object was made in this block, and has no other name behind the statement that gives it to its owner."""
        names = {one for one, locals_ in self.locals.items() if locals_ is self.locals.get(made)}
        is_made = any(isinstance(one, form.Make) and one.local in names for one in body[:at])
        if not is_made or names & set(facts.used(body[at + 1 :])):
            raise Unfit

    def _is_making(self, one: form.Statement) -> bool:
        """`if (!owner->member) owner->member = new ..`: its numbers are there."""
        match one:
            case form.If(
                form.Binary("==", form.Field() as left, form.Null(), _),
                [form.Make(made, _), form.Put(target, "", value, _)],
                [],
                _,
            ):
                return left.type == self.flat.type and target == left and value == made
        return False

    def _declared(self, local: form.Local, place: Place) -> Block:
        self.locals[local] = {
            number.name: form.Local(unique(f"{local.name}_{number.name}", self.used), number.type)
            for number in self.flat.cls.slots
        }
        return [
            form.Let(self.locals[local][number.name], form.zero(number.type), place) for number in self.flat.cls.slots
        ]

    def _alias(self, local: form.Local, value: form.Expr | None, place: Place) -> Block:
        """Another name of an object: the same locals, or the member of an owner that has a name."""
        match value:
            case form.Local() if value in self.locals:
                self.locals[local] = self.locals[value]
                return []
            case form.Local() if value in self.others:
                self.others[local] = self.others[value]
                return []
            case form.Field(owner, name, type_):
                owner = self._expr(owner)
                if isinstance(owner, (form.This, form.Root)):
                    self.others[local] = form.Field(owner, name, type_)
                    return []
                kept = form.Local(unique(f"{local.name}_of", self.used), owner.type)
                self.others[local] = form.Field(kept, name, type_)
                return [form.Let(kept, owner, place)]
        raise Unfit

    def _statement(self, one: form.Statement) -> None:
        if isinstance(one, form.Do):
            self._handed(one.method, one.arguments)
            one.arguments = self._arguments(one.method, one.arguments)
        map_statement(one, self._expr)
        match one:
            case form.If():
                one.yes, one.no = self._block(one.yes), self._block(one.no)
            case form.Loop():
                one.test, one.body, one.step = map(self._block, (one.test, one.body, one.step))
            case form.Count():
                self._statement(one.step)
                one.body = self._block(one.body)

    def _handed(self, method: form.Method, arguments: list[form.Expr]) -> None:
        """Members that are handed over stay as they are while the function runs."""
        written = self.flat.written(method)
        for one in arguments:
            if one.type != self.flat.type:
                continue
            place = self.others.get(one, one) if isinstance(one, form.Local) else one
            if isinstance(place, form.Field) and facts.place_of(place) in written:
                raise Unfit

    def _arguments(self, method: form.Method, arguments: list[form.Expr]) -> list[form.Expr]:
        out: list[form.Expr] = []
        for one in arguments:
            out += self.flat.numbers(one) if one.type == self.flat.type else [one]
        return out

    def _expr(self, expr: form.Expr) -> form.Expr:
        def change(part: form.Expr) -> form.Expr | None:
            match part:
                case form.Field(form.Local() as local, name, _) if local in self.locals:
                    return self.locals[local][name]
                case form.Field(owner, name, type_) if owner.type == self.flat.type:
                    if isinstance(owner, form.Local) and owner in self.others:
                        owner = self.others[owner]
                    if not isinstance(owner, form.Field):
                        raise Unfit
                    return self._number(owner, form.Slot(name, type_))
                case form.Apply(method, receiver, arguments, type_) if any(
                    one.type == self.flat.type for one in arguments
                ):
                    given = tuple(form.mapped(one, change) for one in self._arguments(method, list(arguments)))
                    return form.Apply(method, form.mapped(receiver, change), given, type_)
            return None

        return form.mapped(expr, change)

    def _number(self, member: form.Field, number: form.Slot) -> form.Field:
        assert isinstance(member.object.type, form.Pointer)
        name = self.flat.members[member.object.type.cls, member.name, number.name]
        return form.Field(self._expr(member.object), name, number.type)
