"""Not proved (README.md). Functions and virtual calls as methods, and the program as a whole."""

from .. import form
from .. import tree as t
from ..cursors import walking
from .. import references
from ..effects import Effects, lowered_parameters, mark_uses, overriders
from ..places import Place
from ..refusals import Refusals, Refused
from ..sites import Sites
from ..types import VOID, Reference, is_scalar
from ..words import unique
from . import letters, objects, steps
from .context import Body, Kinds, Tables
from .naturals import known_bits
from .numbers import binary
from .shapes import Shapes


class Lowering:
    """One program, from the typed tree to the middle form."""

    def __init__(self, program: t.Program, capacities: dict[str, int], backwards: bool = False) -> None:
        references.settle(program)
        mark_uses(program)
        refusals = Refusals()
        try:
            shapes = Shapes(program, capacities)
        except Refused as refused:
            refusals.add(refused)
            refusals.raise_if_any()
            raise
        self.program = program
        found = walking(program)
        self.tables = Tables(shapes, Effects(program), Sites(), refusals, bits=known_bits(program))
        self.tables.walking = found
        self.tables.backwards = backwards
        self.tables.method_of = self.method_of
        self.tables.sites.know({one.value for one in t.everything(program) if isinstance(one, t.Text)})
        self._waiting: list[tuple[t.Function, Kinds]] = []

    def lowered(self) -> form.Program:
        shapes = self.tables.shapes
        for function in self.program.functions:
            if function.virtual and function.owner is not None and len(overriders(function)) > 1:
                self._dispatcher(function)
        main = form.Method(unique("main", shapes.names[shapes.program]), shapes.program, place=self.program.main.place)
        main.origin, main.user = "main", True
        shapes.program.methods.append(main)
        self.tables.methods[(self.program.main, ())] = main
        body = Body(self.tables, main, self.program.main)
        body.this = form.Root()
        for variable in self.program.globals:
            if not steps.is_late(variable):
                self._global(body, variable)
        for variable in self.program.globals:
            if steps.is_late(variable) and not variable.static_local:
                self._global(body, variable)
        assert self.program.main.body is not None
        steps.block(body, self.program.main.body, main.body)
        while self._waiting:
            self._lower(*self._waiting.pop(0))
        self.tables.refusals.raise_if_any()
        if self.tables.letters:
            main.body[:0] = letters.filled(shapes, self.tables.sites, main.place)
        classes = {name: cls for name, cls in shapes.classes.items() if name != "Program"}
        return form.Program({**classes, "Program": shapes.program}, main)

    def _global(self, body: Body, variable: t.Variable) -> None:
        try:
            objects.member_at(body, form.Root(), variable, variable.initial, body.method.body, variable.place)
        except Refused as refused:
            if not refused.place.line:
                refused.place = variable.place
            self.tables.refusals.add(refused)

    def method_of(self, function: t.Function, kinds: Kinds) -> form.Method:
        """The method of a function; its body is lowered later."""
        known = self.tables.methods.get((function, kinds))
        if known is None:
            known = self._declared(function)
            self.tables.methods[(function, kinds)] = known
            if function.walks or _gives_place(function):
                # Which place it gives is known behind its body alone.
                known.result = None
                self._lower(function, kinds)
            else:
                self._waiting.append((function, kinds))
        return known

    def _declared(self, function: t.Function) -> form.Method:
        shapes = self.tables.shapes
        owner = function.owner if not function.static else None
        cls = shapes.class_of(owner) if owner is not None else shapes.program
        name = function.name
        if owner is not None and owner.base is not None and function.virtual:
            name = f"{owner.name}_{name}"
        method = form.Method(unique(name, shapes.names[cls]), cls, place=function.place)
        method.origin = f"{function.owner.name}::{function.name}" if function.owner else function.name
        method.user = not function.library
        method.pure = function in self.tables.effects.pure
        if function.result != VOID:
            method.result = shapes.of(function.result)
        cls.methods.append(method)
        return method

    def _lower(self, function: t.Function, kinds: Kinds) -> None:
        method = self.tables.methods[(function, kinds)]
        if function.body is None:
            place = function.place
            self.tables.refusals.add(Refused(place, f"{method.origin} has no body", "name the file that has it"))
            return
        body = Body(self.tables, method, function)
        if function.static or function.owner is None:
            body.this = form.Root()
        try:
            steps.parameters(body, function, method.body, kinds)
        except Refused as refused:
            if not refused.place.line:
                refused.place = function.place
            self.tables.refusals.add(refused)
            return
        steps.block(body, function.body, method.body)

    def _dispatcher(self, function: t.Function) -> None:
        """One method for a virtual function, which asks for the class of the object."""
        assert function.owner is not None
        shapes, chosen = self.tables.shapes, overriders(function)
        root = function.owner.root()
        known = self.tables.dispatchers.get(chosen[0])
        if known is not None:
            self.tables.dispatchers[function] = known
            return
        cls = shapes.class_of(root)
        method = form.Method(unique(function.name, shapes.names[cls]), cls, place=function.place)
        method.origin = f"{root.name}::{function.name}"
        method.pure = all(one in self.tables.effects.pure for one in chosen)
        if function.result != VOID:
            method.result = shapes.of(function.result)
        cls.methods.append(method)
        for one in [*chosen, function]:
            self.tables.dispatchers[one] = method
        body = Body(self.tables, method)
        for variable in lowered_parameters(function):
            body.parameter(variable.name, shapes.parameter(variable.type))
        for record in root.family():
            target = _override(record, function)
            if target is not None:
                self._branch(body, record, target, function.place)
        if method.result is not None and method.pure:
            method.body.append(form.Return(form.zero(method.result), function.place))

    def _branch(self, body: Body, record: t.Record, target: t.Function, place: Place) -> None:
        method, shapes = body.method, self.tables.shapes
        asked = binary("==", body.own("kind_", form.LONG), form.Number(shapes.kinds[record]))
        called = self.method_of(target, ())
        arguments: list[form.Expr] = list(method.parameters)
        inside: list[form.Statement]
        if method.pure:
            assert method.result is not None
            inside = [form.Return(form.Apply(called, body.this, tuple(arguments), method.result), place)]
        elif method.result is None:
            inside = [form.Do(called, body.this, arguments, None, place)]
        elif called.pure:
            inside = [form.Return(form.Apply(called, body.this, tuple(arguments), method.result), place)]
        else:
            result = body.temporary(method.result)
            inside = [form.Do(called, body.this, arguments, result, place), form.Return(result, place)]
        method.body.append(form.If(asked, inside, [], place))


def _gives_place(function: t.Function) -> bool:
    """Whether the result is a reference to a number, a truth value or a pointer that may be changed through it."""
    result = function.result
    return isinstance(result, Reference) and not result.constant and is_scalar(result.to)


def _override(record: t.Record, function: t.Function) -> t.Function | None:
    """What a virtual call runs for an object of the class."""
    wanted = function.virtual_signature()
    for one in record.ancestors():
        for other in one.functions:
            if other.name == function.name and other.virtual_signature() == wanted:
                return None if other.pure_virtual else other
    return None
