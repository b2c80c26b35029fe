"""Not proved (README.md). The bodies that main reaches, statement by statement.

A refusal ends the statement that it stands in and no more, so that all of a program are told at once.
"""

from typing import Callable

from .. import tree as t
from ..clang import Node, Unit, children
from ..places import Place
from ..refusals import FAULTS, NOT_KNOWN, Refusals, Refused, Unported
from ..types import BOOL, STREAM, VOID, Array, Int, Object, Pointer, Type, Vector, bare
from .declarations import Declarations, is_known
from .expressions import ExpressionReader
from . import library
from .library import unknown_type

SKIPPED = {
    "NullStmt", "StaticAssertDecl", "UsingDecl", "UsingDirectiveDecl", "CXXRecordDecl", "EnumDecl", "TypedefDecl",
    "TypeAliasDecl", "EmptyDecl",
}  # fmt: skip
REFUSED = {
    "GotoStmt": ("goto", "write a loop or a function"),
    "LabelStmt": ("a label", "write a loop or a function"),
    "IndirectGotoStmt": ("goto", "write a loop or a function"),
    "CXXTryStmt": ("an exception", "return a value that tells of the fault"),
    "GCCAsmStmt": ("assembly", "write C++"),
    "CaseStmt": ("a case within another statement", "let each case stand directly in its switch"),
    "DefaultStmt": ("a case within another statement", "let each case stand directly in its switch"),
}


def read_program(unit: Unit, arguments: bool = False) -> tuple[t.Program, Refusals]:
    """The program of a unit, without the statements that are refused; where `arguments` is true, main may have some,
    and is read as what a run without any does."""
    try:
        reader = BodyReader(Declarations(unit), arguments)
    except Refused as refused:
        raise Unported([str(refused)]) from None
    return reader.program(), reader.refusals


class BodyReader:
    """Reads what main reaches: bodies, and first values of what lives as long as the program."""

    def __init__(self, declared: Declarations, arguments: bool) -> None:
        self.declared = declared
        self.arguments = arguments
        self.refusals = declared.refusals
        self._waiting: list[t.Function] = []
        self._reached: set[t.Function] = set()
        self.functions: list[t.Function] = []
        self.expressions = ExpressionReader(declared, self._reach)
        self.statics: list[t.Variable] = []
        self._readers: dict[str, Callable[[Node, list[t.Statement]], None]] = {
            "CompoundStmt": self._block,
            "DeclStmt": self._declare,
            "IfStmt": self._if,
            "WhileStmt": self._while,
            "DoStmt": self._do,
            "ForStmt": self._for,
            "CXXForRangeStmt": self._each,
            "SwitchStmt": self._switch,
            "ReturnStmt": self._return,
            "BreakStmt": lambda node, out: out.append(t.Break(self.place(node))),
            "ContinueStmt": lambda node, out: out.append(t.Continue(self.place(node))),
            "AttributedStmt": lambda node, out: self.read(children(node)[-1], out),
        }

    def place(self, node: Node) -> Place:
        return self.declared.unit.place(node)

    def program(self) -> t.Program:
        outside = {str(node.get("id")) for node in children(self.declared.unit.root)}
        functions = self.declared.functions.items()
        main = next((one for number, one in functions if one.name == "main" and number in outside), None)
        if main is None or not self.declared.has_body(main):
            self.refusals.raise_if_any()
            raise Unported(["the program has no main; name the file that has it, too"])
        arguments, main.parameters = main.parameters, []
        if arguments and not self.arguments:
            self.refusals.add(
                Refused(main.place, "main with arguments", "write int main(), with constants: a run has no input")
            )
        self._reach(main)
        for variable in self.declared.globals:
            self._initial(variable)
        for record in self.declared.records:
            for member in record.members:
                self._initial(member)
        while self._waiting:
            self._function(self._waiting.pop())
        if main.body is not None:
            main.body.steps[:0] = [_without_arguments(one) for one in arguments]
        self._types()
        variables = [one for one in self.declared.globals if one.constant is None]
        return t.Program(main, self.declared.records, self.functions, variables + self.statics, bool(arguments))

    def _types(self) -> None:
        """Refuses the types that aren't known of what isn't named anywhere, but is there."""
        members = [one for record in self.declared.records if not record.library for one in record.members]
        library = [
            one for one in self.declared.globals if self.declared.unit.is_library(self.declared.variable_nodes[one])
        ]
        shared: list[t.Variable | t.Member] = [one for one in self.declared.globals if one not in library]
        for one in [*members, *shared]:
            if not is_known(one.type):
                self.refusals.add(Refused(one.place, *unknown_type(one.type)))

    def _reach(self, function: t.Function) -> None:
        if function in self._reached:
            return
        self._reached.add(function)
        self._waiting.append(function)
        if function.virtual and function.owner:
            for one in function.owner.root().family():
                for other in one.functions:
                    if other.name == function.name and other.virtual_signature() == function.virtual_signature():
                        other.virtual = True
                        self._reach(other)

    def _initial(self, variable: t.Variable | t.Member) -> None:
        node = self.declared.initials.get(variable)
        self.expressions.captures = {}
        self.declared.types.scope = variable.owner if isinstance(variable, t.Member) else None
        if node is not None and is_known(variable.type):
            try:
                variable.initial = self.expressions.read(node)
                if isinstance(variable, t.Variable):
                    self.expressions.constant_of(variable, self.declared.variable_nodes[variable])
            except Refused as refused:
                if isinstance(variable, t.Variable) and not self.declared.unit.is_library(node):
                    self.refusals.add(refused)

    def _function(self, function: t.Function) -> None:
        node = self.declared.nodes[function]
        self.declared.types.scope = function.owner
        self.expressions.captures = self.declared.captures.get(function, {})
        self.functions.append(function)
        if not self._is_known(function):
            function.body = t.Block(function.place, [])
            return
        steps: list[t.Statement] = []
        if not (self.declared.has_body(function) or function.pure_virtual or self.declared.is_compilers(function)):
            name = f"{function.owner.name}::{function.name}" if function.owner else function.name
            self.refusals.add(Refused(function.place, f"{name} has no body", "name the file that has it"))
        for child in children(node):
            if child["kind"] == "CXXCtorInitializer":
                self._guarded(child, lambda one: self._initializer(function, one))
            elif child["kind"] == "CompoundStmt":
                self._block(child, steps)
            elif child["kind"] == "CXXTryStmt":
                self.read(child, steps)
        function.body = t.Block(function.place, steps)

    def _is_known(self, function: t.Function) -> bool:
        """Whether the types of its result and parameters are; else that is refused."""
        known = True
        for type_, place in [(function.result, function.place)] + [
            (one.type, one.place) for one in function.parameters
        ]:
            if not is_known(type_):
                self.refusals.add(Refused(place, *library.unknown_type(type_), function.library))
                known = False
        return known

    def _initializer(self, function: t.Function, node: Node) -> None:
        value = children(node)[0]
        member = self.declared.members.get(node.get("anyInit", {}).get("id", ""))
        if value["kind"] == "CXXDefaultInitExpr":
            return
        if value["kind"] == "CXXInheritedCtorInitExpr":
            function.initializers.append(t.Initializer(self.place(value), self._inherited(function, value)))
            return
        function.initializers.append(t.Initializer(self.place(value), self.expressions.read(value), member))

    def _inherited(self, function: t.Function, node: Node) -> t.Expr:
        """The base's constructor of the same parameters, which a class has by `using Base::Base`."""
        made, place = self.declared.type_of(node), self.place(node)
        assert isinstance(made, Object)
        base = self.declared.constructor(made.record, function.signature)
        if base is None:
            raise Refused(place, "a constructor of the base that isn't known", "write the constructor")
        self._reach(base)
        given: list[t.Expr] = [t.Name(bare(one.type), place, one) for one in function.parameters]
        return t.Construct(made, place, base, given)

    def _guarded(self, node: Node, action: Callable[[Node], None]) -> None:
        try:
            action(node)
        except Refused as refused:
            if not refused.place.line:
                refused.place = self.place(node)
            self.refusals.add(refused)
        except FAULTS:
            self.refusals.add(Refused(self.place(node), NOT_KNOWN, "write it another way"))

    # Statements -------------------------------------------------------------------------------------------------------

    def read(self, node: Node, out: list[t.Statement]) -> None:
        self._guarded(node, lambda one: self._read(one, out))

    def _read(self, node: Node, out: list[t.Statement]) -> None:
        kind = node["kind"]
        if kind in SKIPPED:
            return
        if kind in REFUSED:
            if kind in ("LabelStmt", "CXXTryStmt"):
                self.read(children(node)[0], out)
            raise Refused(self.place(node), *REFUSED[kind])
        if kind in self._readers:
            self._readers[kind](node, out)
        else:
            out.append(t.Evaluate(self.place(node), self.expressions.read(node)))

    def block(self, node: Node) -> t.Block:
        out: list[t.Statement] = []
        self.read(node, out)
        return t.Block(self.place(node), out)

    def _block(self, node: Node, out: list[t.Statement]) -> None:
        inside: list[t.Statement] = []
        for child in children(node):
            self.read(child, inside)
        out.append(t.Block(self.place(node), inside))

    def _declare(self, node: Node, out: list[t.Statement]) -> None:
        for child in children(node):
            if child["kind"] in ("VarDecl", "DecompositionDecl"):
                self._guarded(child, lambda one: self._variable(one, out))
            elif child["kind"] not in SKIPPED:
                self._read(child, out)

    def _variable(self, node: Node, out: list[t.Statement]) -> None:
        if not is_known(self.declared.type_of(node)):
            raise Refused(self.place(node), *library.unknown_type(self.declared.type_of(node)))
        static = node.get("storageClass") == "static"
        variable = self.declared.variable(node, False)
        variable.shared = variable.static_local = static
        given = self.declared.initials.get(variable)
        if given is not None:
            variable.initial = self.expressions.read(given)
            if self.expressions.constant_of(variable, node):
                return
        if bare(variable.type) == STREAM:
            return
        if static:
            self.statics.append(variable)
        out.append(t.Declare(self.place(node), variable))

    def _condition(self, node: Node) -> t.Expr:
        return self.truth(self.expressions.read(node))

    def truth(self, value: t.Expr) -> t.Expr:
        return value if value.type == BOOL else t.Convert(BOOL, value.place, value)

    def _if(self, node: Node, out: list[t.Statement]) -> None:
        parts = list(children(node))
        inside: list[t.Statement] = []
        if node.get("hasInit"):
            self.read(parts.pop(0), inside)
        if node.get("hasVar"):
            self.read(parts.pop(0), inside)
        condition = self._condition(parts[0])
        no = self.block(parts[2]) if node.get("hasElse") else t.Block(self.place(node), [])
        inside.append(t.If(self.place(node), condition, self.block(parts[1]), no))
        out.append(t.Block(self.place(node), inside) if len(inside) > 1 else inside[0])

    def _while(self, node: Node, out: list[t.Statement]) -> None:
        parts, place = children(node), self.place(node)
        if node.get("hasVar"):
            inside: list[t.Statement] = []
            self.read(parts[0], inside)
            leave = t.If(place, self._condition(parts[1]), t.Block(place, []), t.Block(place, [t.Break(place)]))
            body = t.Block(place, [*inside, leave, self.block(parts[2])])
            out.append(t.While(place, t.Truth(BOOL, place, True), body))
            return
        out.append(t.While(place, self._condition(parts[0]), self.block(parts[1])))

    def _do(self, node: Node, out: list[t.Statement]) -> None:
        body, condition = children(node)
        out.append(t.DoWhile(self.place(node), self.block(body), self._condition(condition)))

    def _for(self, node: Node, out: list[t.Statement]) -> None:
        first, variable, condition, step, body = children(node)
        place = self.place(node)
        if variable:
            raise Refused(place, "a variable that a condition declares", "declare it before the loop")
        before: list[t.Statement] = []
        if first:
            self.read(first, before)
        out.append(
            t.For(
                place,
                t.Block(place, before),
                self._condition(condition) if condition else None,
                self.expressions.read(step) if step else None,
                self.block(body),
            )
        )

    def _each(self, node: Node, out: list[t.Statement]) -> None:
        parts, place = children(node), self.place(node)
        inside: list[t.Statement] = []
        if parts[0]:
            self.read(parts[0], inside)
        items = library.items_of(self.expressions.read(children(children(parts[1])[0])[0]))
        variable = self.declared.variable(children(parts[6])[0], False)
        variable.initial = None
        if _is_list(items.type):
            inside.append(self._links(variable, items, parts, place))
            out.append(t.Block(place, inside))
            return
        if not isinstance(bare(items.type), (Array, Vector)):
            self._range(parts, place, out, inside)
            return
        inside.append(t.Each(place, variable, items, self.block(parts[7])))
        out.append(t.Block(place, inside) if len(inside) > 1 else inside[0])

    def _links(self, variable: t.Variable, items: t.Expr, parts: list[Node], place: Place) -> t.Statement:
        """Over the library's list: along its links."""
        type_ = bare(items.type)
        assert isinstance(type_, Object)
        first = type_.record.members[0]
        link = bare(first.type)
        assert isinstance(link, Pointer) and isinstance(link.to, Object)
        value, _, after = link.to.record.members
        at = t.Variable("at", link, place, initial=t.Dot(link, place, items, first))
        here = t.Name(link, place, at)
        item = t.Deref(link.to, place, here)
        variable.initial = t.Dot(bare(value.type), place, item, value)
        if isinstance(variable.type, (Object, Vector)):
            variable.initial = t.Copy(variable.type, place, variable.initial)
        step = t.Assign(link, place, here, "", t.Dot(link, place, item, after), link)
        body: list[t.Statement] = [t.Declare(place, variable), self.block(parts[7])]
        first_step: list[t.Statement] = [t.Declare(place, at)]
        return t.For(place, t.Block(place, first_step), t.Convert(BOOL, place, here), step, t.Block(place, body))

    def _range(self, parts: list[Node], place: Place, out: list[t.Statement], inside: list[t.Statement]) -> None:
        """Over an object with `begin` and `end`: the loop that C++ says it is."""
        for one in parts[1:4]:
            self.read(one, inside)
        body: list[t.Statement] = []
        self.read(parts[6], body)
        body.append(self.block(parts[7]))
        step = self.expressions.read(parts[5])
        loop = t.For(place, t.Block(place, []), self._condition(parts[4]), step, t.Block(place, body))
        out.append(t.Block(place, [*inside, loop]))

    def _return(self, node: Node, out: list[t.Statement]) -> None:
        place = self.place(node)
        if not children(node):
            out.append(t.Return(place, None))
            return
        value = self.expressions.read(children(node)[0])
        if value.type == VOID or bare(value.type) == STREAM:
            out.append(t.Evaluate(place, value))
            out.append(t.Return(place, None))
        else:
            out.append(t.Return(place, value))

    def _switch(self, node: Node, out: list[t.Statement]) -> None:
        parts, place = list(children(node)), self.place(node)
        inside: list[t.Statement] = []
        if node.get("hasInit"):
            self.read(parts.pop(0), inside)
        if node.get("hasVar"):
            self.read(parts.pop(0), inside)
        value = self.expressions.read(parts[0])
        cases: list[t.Case] = []
        for child in children(parts[1]):
            steps: list[t.Statement] = []
            while child["kind"] in ("CaseStmt", "DefaultStmt"):
                if not cases or cases[-1].body.steps or steps:
                    cases.append(t.Case([], t.Block(self.place(child), [])))
                cases[-1].values.append(self._case(child))
                child = children(child)[-1]
            self.read(child, steps)
            if not cases:
                raise Refused(self.place(child), "a statement before the first case", "write it behind a case")
            cases[-1].body.steps += steps
        inside.append(t.Switch(place, value, cases))
        out.append(t.Block(place, inside) if len(inside) > 1 else inside[0])

    def _case(self, node: Node) -> int | None:
        if node["kind"] == "DefaultStmt":
            return None
        if node.get("isGNURange"):
            raise Refused(self.place(node), "a range of cases", "write each case")
        value = self.expressions.read(children(node)[0])
        if isinstance(value, t.Truth):
            return int(value.value)
        assert isinstance(value, t.Number)
        return value.value


def _without_arguments(parameter: t.Variable) -> t.Statement:
    """A parameter of main as what it is in a run without arguments: their number is one, of the program's name."""
    place, type_ = parameter.place, parameter.type
    parameter.initial = t.Number(type_, place, 1) if isinstance(type_, Int) else t.Null(type_, place)
    return t.Declare(place, parameter)


def _is_list(type_: Type) -> bool:
    """Whether it is the library's list."""
    held = bare(type_)
    return isinstance(held, Object) and held.record.library and held.record.name.startswith("list_")
