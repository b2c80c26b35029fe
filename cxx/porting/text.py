"""Not proved (README.md). The text of a finished form, and for each of its lines the place in the user's text."""

from . import form
from .helpers import HELPERS, choosing
from .places import NOWHERE, Place

LEVELS = {
    "||": 1, "&&": 2, "|": 3, "^": 4, "&": 5, "==": 6, "!=": 6, "<": 7, ">": 7, "<=": 7, ">=": 7, "+": 8, "-": 8,
    "*": 9, "/": 9, "%": 9,
}  # fmt: skip
PREFIX, TAIL = 20, 30
LEAST = -(1 << 63)


class Text:
    """A text that grows line by line."""

    def __init__(self, program: form.Program) -> None:
        self.lines: list[str] = []
        self.places: list[Place] = []
        # The statement that a line begins, for what its traps may come from.
        self.statements: list[form.Statement | None] = []
        self._helpers: dict[str, str] = {}
        self._hidden: set[str] = set()
        # The lines of fields, by class and field.
        self._slots: dict[str, int] = {}
        for cls in program.classes.values():
            self._class(cls)
        main = program.main
        self._line("int main() {", main.place, 0)
        self._line("Program *program = new Program();", main.place, 1)
        self._line(f"program->{main.name}();", main.place, 1)
        self._line("return 0;", main.place, 1)
        self._line("}", main.place, 0)

    def __str__(self) -> str:
        return "\n".join(self.lines) + "\n"

    def _line(self, text: str, place: Place, depth: int) -> None:
        self.lines.append("  " * depth + text)
        self.places.append(place)
        self.statements.append(None)

    # Classes ----------------------------------------------------------------------------------------------------------

    def _class(self, cls: form.Class) -> None:
        self._helpers = {}
        self._line(f"class {cls.name} {{", cls.place, 0)
        self._line("public:", cls.place, 0)
        for slot in cls.slots:
            self._slots[f"{cls.name}.{slot.name}"] = len(self.lines)
            self._line(_field(slot), cls.place, 1)
        for method in cls.methods:
            self._method(method)
        for name in self._helpers:
            for line in self._helpers[name].split("\n"):
                self._line(line, NOWHERE, 1)
        self._line("};", cls.place, 0)

    def lengthened(self, name: str, slot: form.Slot) -> None:
        """The array of this class and name has another length."""
        self.lines[self._slots[name]] = "  " + _field(slot)

    def _method(self, method: form.Method) -> None:
        self._hidden = {one.name for one in method.parameters}
        self._hidden |= {one.name for one in form.expressions(method.body) if isinstance(one, form.Local)}
        result = _type(method.result) if method.result is not None else "void "
        parameters = ", ".join(_type(one.type) + one.name for one in method.parameters)
        self._line(f"{result}{method.name}({parameters}) {{", method.place, 1)
        self._block(method.body, 2)
        self._line("}", method.place, 1)

    # Statements -------------------------------------------------------------------------------------------------------

    def _block(self, body: list[form.Statement], depth: int) -> None:
        for one in body:
            self._statement(one, depth)

    def _statement(self, one: form.Statement, depth: int) -> None:
        at = len(self.lines)
        self._written(one, depth)
        if at < len(self.lines):
            self.statements[at] = one

    def _written(self, one: form.Statement, depth: int) -> None:
        place = one.place
        match one:
            case form.Let(local, value, _):
                first = f" = {self._value(value)}" if value is not None else ""
                self._line(f"{_type(local.type)}{local.name}{first};", place, depth)
            case form.Put():
                self._line(self._put(one) + ";", place, depth)
            case form.Make(local, _):
                assert isinstance(local.type, form.Pointer)
                self._line(f"{_type(local.type)}{local.name} = new {local.type.cls}();", place, depth)
            case form.Do(method, receiver, arguments, _, _):
                self._line(self._call(method, receiver, arguments) + ";", place, depth)
            case form.Tell(site, values, _):
                for value in [form.Number(site), *values]:
                    self._line(f"print({self._value(value)});", place, depth)
            case form.If(condition, yes, no, _):
                self._if(condition, yes, no, place, depth)
            case form.Loop(_, condition, body, _, _, _):
                self._line(f"while ({self._value(condition)}) {{", place, depth)
                self._block(body, depth + 1)
                self._line("}", place, depth)
            case form.Count():
                counter = f"{_type(one.counter.type)}{one.counter.name} = {self._value(one.first)}"
                self._line(f"for ({counter}; {self._value(one.condition)}; {self._put(one.step)}) {{", place, depth)
                self._block(one.body, depth + 1)
                self._line("}", place, depth)
            case form.Return(value, _):
                assert value is not None
                self._line(f"return {self._value(value)};", place, depth)
            case _:
                raise AssertionError(one)

    def _if(
        self, condition: form.Expr, yes: list[form.Statement], no: list[form.Statement], place: Place, depth: int
    ) -> None:
        if not yes and not no:
            # The condition may trap, as in C++; where it can't, nothing is left.
            if any(
                not isinstance(one, (form.Local, form.Number, form.Truth, form.Binary, form.Not))
                for one in form.within(condition)
            ):
                self._line(f"if ({self._value(condition)}) {{", place, depth)
                self._line("}", place, depth)
            return
        if not yes:
            condition, yes, no = form.negated(condition), no, yes
        self._line(f"if ({self._value(condition)}) {{", place, depth)
        self._block(yes, depth + 1)
        if no:
            self._line("} else {", place, depth)
            self._block(no, depth + 1)
        self._line("}", place, depth)

    def _put(self, one: form.Put) -> str:
        target = self._value(one.target)
        if one.operator in ("+", "-") and one.value == form.Number(1):
            return f"{target}{one.operator}{one.operator}"
        return f"{target} {one.operator}= {self._value(one.value)}"

    # Expressions ------------------------------------------------------------------------------------------------------

    def _value(self, expr: form.Expr, level: int = 0) -> str:
        match expr:
            case form.Number(value, _):
                return _number(value, level)
            case form.Truth(value, _):
                return "true" if value else "false"
            case form.Null():
                return "nullptr"
            case form.This():
                return "this"
            case form.Local(name, _):
                return name
            case form.Field(owner, name, _):
                return self._own(owner, name)
            case form.Item(owner, name, index, _):
                return f"{self._own(owner, name)}[{self._value(index)}]"
            case form.Binary("max" | "min" as name, left, right, _):
                return f"{name}({self._value(left)}, {self._value(right)})"
            case form.Binary(operator, left, right, _):
                own = LEVELS[operator]
                text = f"{self._value(left, own)} {operator} {self._value(right, own + 1)}"
                return f"({text})" if own < level else text
            case form.Not(operand, _):
                return self._prefix("!", operand, level)
            case form.Minus(operand, _):
                return self._prefix("-", operand, level)
            case form.Choose(condition, yes, no, type_):
                name, text = choosing(type_)
                return self._help(name, text, (condition, yes, no))
            case form.Help(name, arguments, _):
                return self._help(name, HELPERS[name], arguments)
            case form.Apply(method, receiver, arguments, _):
                return self._call(method, receiver, list(arguments))
        raise AssertionError(expr)

    def _prefix(self, sign: str, operand: form.Expr, level: int) -> str:
        text = sign + self._value(operand, PREFIX + 1)
        return f"({text})" if level > PREFIX else text

    def _help(self, name: str, text: str, arguments: tuple[form.Expr, ...]) -> str:
        self._helpers[name] = text
        return f"{name}({', '.join(map(self._value, arguments))})"

    def _own(self, owner: form.Expr, name: str) -> str:
        if isinstance(owner, form.This):
            return f"this->{name}" if name in self._hidden else name
        return f"{self._value(owner, TAIL)}->{name}"

    def _call(self, method: form.Method, receiver: form.Expr, arguments: list[form.Expr]) -> str:
        given = ", ".join(map(self._value, arguments))
        before = "" if isinstance(receiver, form.This) else f"{self._value(receiver, TAIL)}->"
        return f"{before}{method.name}({given})"


def _field(slot: form.Slot) -> str:
    length = f"[{slot.length}]" if slot.length is not None else ""
    return f"{_type(slot.type)}{slot.name}{length};"


def _type(type_: form.Type) -> str:
    return type_.name + " " if isinstance(type_, form.Scalar) else f"{type_.cls} *"


def _number(value: int, level: int) -> str:
    if value == LEAST:
        return "(-9223372036854775807 - 1)"
    return str(value) if value >= 0 else f"({value})" if level else str(value)
