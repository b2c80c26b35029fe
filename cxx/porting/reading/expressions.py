"""Not proved (README.md). One expression of clang's tree as one of the typed tree.

What clang writes round an expression and that changes nothing (brackets, cleanups, loads) is left out; calls of
operators are calls, constants are numbers, copies are `Copy`.
"""

from typing import Callable

from .. import tree as t
from ..clang import Node, children
from ..folding import folded
from ..places import Place
from ..refusals import Refused

from ..types import (
    BOOL, INT, LONG, NULL, STREAM, STRING, UNSIGNED_LONG, VOID, Array, Int, Object, Pointer, Type, Vector, bare,
    is_scalar,
)  # fmt: skip
from . import library, output
from .declarations import Declarations, is_copying, is_known

TRANSPARENT = {
    "ParenExpr", "ExprWithCleanups", "MaterializeTemporaryExpr", "CXXBindTemporaryExpr", "ConstantExpr",
    "SubstNonTypeTemplateParmExpr",
}  # fmt: skip
CASTS = {
    "ImplicitCastExpr", "CStyleCastExpr", "CXXStaticCastExpr", "CXXFunctionalCastExpr", "CXXConstCastExpr",
    "CXXDynamicCastExpr", "CXXReinterpretCastExpr",
}  # fmt: skip
SAME = {
    "NoOp",
    "LValueToRValue",
    "ArrayToPointerDecay",
    "FunctionToPointerDecay",
    "ConstructorConversion",
    "UserDefinedConversion",
}
CONVERTING = {
    "IntegralCast", "IntegralToBoolean", "PointerToBoolean", "NullToPointer", "DerivedToBase", "UncheckedDerivedToBase",
    "BaseToDerived",
}  # fmt: skip
CAST = {
    "BitCast": ("a pointer as one to what it doesn't point to", "let the pointer have the type of its object"),
    "LValueBitCast": ("an object as one of another type", "write a conversion member by member"),
    "PointerToIntegral": ("an address as a number", "give each object a number of its own"),
    "IntegralToPointer": ("a number as an address", "write a pointer to an object"),
}
REFUSED = {
    "FloatingLiteral": ("a number with a fraction", "write whole numbers, scaled (fixed point)"),
    "CXXTypeidExpr": ("typeid", "write a virtual function that tells the kind"),
    "CXXPseudoDestructorExpr": ("a call of a destructor", "leave it out: nothing is freed"),
    "BinaryConditionalOperator": ("?: without what is between", "write x ? x : y"),
    "StmtExpr": ("statements in an expression", "write a function"),
    "VAArgExpr": ("any number of arguments", "write a template, or pass a vector"),
    "AddrLabelExpr": ("the address of a label", "write a switch"),
    "OffsetOfExpr": ("offsetof", "name the member"),
    "CXXNoexceptExpr": ("noexcept as a value", "write true or false"),
}


class ExpressionReader:
    """Reads expressions; `reached` is told of each function that is called and each variable that is named."""

    def __init__(self, declared: Declarations, reached: Callable[[t.Function], None]) -> None:
        self.declared = declared
        self.reached = reached
        # Within a lambda, the members that its captured variables are.
        self.captures: dict[str, t.Member] = {}
        self._readers: dict[str, Callable[[Node], t.Expr]] = {
            "IntegerLiteral": lambda node: t.Number(self.type(node), self.place(node), int(node["value"])),
            "CharacterLiteral": lambda node: t.Number(self.type(node), self.place(node), int(node["value"])),
            "CXXBoolLiteralExpr": lambda node: t.Truth(BOOL, self.place(node), bool(node["value"])),
            "CXXNullPtrLiteralExpr": lambda node: t.Null(NULL, self.place(node)),
            "GNUNullExpr": lambda node: t.Null(NULL, self.place(node)),
            "StringLiteral": lambda node: t.Text(STRING, self.place(node), output.literal(node)),
            "CXXThisExpr": self._this,
            "LambdaExpr": self._lambda,
            "DeclRefExpr": self._name,
            "MemberExpr": self._member,
            "ArraySubscriptExpr": self._item,
            "UnaryOperator": self._unary,
            "BinaryOperator": self._binary,
            "CompoundAssignOperator": self._compound,
            "ConditionalOperator": self._conditional,
            "CallExpr": self._call,
            "CXXMemberCallExpr": self._method,
            "CXXOperatorCallExpr": self._operator,
            "CXXConstructExpr": self._construct,
            "CXXTemporaryObjectExpr": self._construct,
            "InitListExpr": self._list,
            "CXXNewExpr": self._new,
            "CXXDeleteExpr": lambda node: t.Ignored(VOID, self.place(node), [self.read(children(node)[0])]),
            "ImplicitValueInitExpr": self._zero,
            "CXXScalarValueInitExpr": self._zero,
            "UnaryExprOrTypeTraitExpr": self._size,
            "CXXStdInitializerListExpr": self._braced,
            "CXXThrowExpr": lambda node: t.Stop(VOID, self.place(node), None, "an exception"),
        }

    def type(self, node: Node) -> Type:
        read = self.declared.type_of(node)
        if not is_known(read):
            raise Refused(self.place(node), *library.unknown_type(read))
        return read

    def place(self, node: Node) -> Place:
        return self.declared.unit.place(node)

    def read(self, node: Node) -> t.Expr:
        kind = node["kind"]
        if kind in TRANSPARENT:
            if kind == "ConstantExpr" and "value" in node and isinstance(self.type(node), Int):
                return t.Number(self.type(node), self.place(node), int(node["value"]))
            return self.read(children(node)[-1 if kind.startswith("Subst") else 0])
        if kind in CASTS:
            return self._cast(node)
        if kind in self._readers:
            return folded(self._readers[kind](node))
        what, instead = REFUSED.get(kind, (f"an expression that isn't known ({kind})", "write it another way"))
        raise Refused(self.place(node), what, instead)

    # Conversions ------------------------------------------------------------------------------------------------------

    def _cast(self, node: Node) -> t.Expr:
        kind, inner, place = node.get("castKind", "NoOp"), children(node)[0], self.place(node)
        if kind == "ToVoid":
            return t.Ignored(VOID, place, [self.read(inner)])
        if kind in SAME:
            return self.read(inner)
        if "Floating" in kind:
            raise Refused(place, "a number with a fraction", "write whole numbers, scaled (fixed point)")
        if kind == "Dynamic" and isinstance(self.type(node), Pointer):
            return t.Narrow(self.type(node), place, self.read(inner))
        if kind == "BitCast":
            made = self._allocated(node, inner)
            if made is not None:
                return made
            if self.declared.type_of(node) == Pointer(VOID):
                return self.read(inner)
        if kind == "BitCast" or kind not in CONVERTING:
            raise Refused(place, *CAST.get(kind, (f"a cast that isn't known ({kind})", "write it without the cast")))
        to, operand = self.type(node), self.read(inner)
        if kind in ("DerivedToBase", "UncheckedDerivedToBase", "BaseToDerived") and isinstance(bare(to), Object):
            operand.type = to
            return operand
        return folded(t.Convert(to, place, operand))

    def _allocated(self, node: Node, inner: Node) -> t.Expr | None:
        """`(T *)malloc(sizeof(T))`, `(T *)malloc(n * sizeof(T))` and `(T *)calloc(n, sizeof(T))`: new."""
        call, made = self.callee(inner), self.type(node)
        if call["kind"] != "CallExpr" or not isinstance(made, Pointer):
            return None
        name = self.callee(children(call)[0]).get("referencedDecl", {}).get("name")
        sizes = [self.callee(one) for one in children(call)[1:]]
        if name == "malloc" and sizes[0]["kind"] == "BinaryOperator" and sizes[0]["opcode"] == "*":
            sizes = [self.callee(one) for one in children(sizes[0])]
            if sizes[0]["kind"] == "UnaryExprOrTypeTraitExpr":
                sizes = sizes[::-1]
        elif name == "malloc":
            return t.New(made, self.place(node), None) if sizes[0]["kind"] == "UnaryExprOrTypeTraitExpr" else None
        if name not in ("malloc", "calloc") or sizes[-1]["kind"] != "UnaryExprOrTypeTraitExpr":
            return None
        return t.New(made, self.place(node), None, self.read(sizes[0]))

    # Names ------------------------------------------------------------------------------------------------------------

    def _this(self, node: Node) -> t.Expr:
        if "this" in self.captures:
            return self._captured("this", self.type(node), self.place(node))
        return t.This(self.type(node), self.place(node))

    def _captured(self, number: str, type_: Type, place: Place) -> t.Expr:
        """What a lambda has captured: a member of its object."""
        member = self.captures[number]
        own = Object(member.owner)
        return t.Dot(bare(type_), place, t.Deref(own, place, t.This(Pointer(own), place)), member)

    def _lambda(self, node: Node) -> t.Expr:
        record = self.declared.lambda_record(node)
        parts: list[t.Expr | None] = [self.read(value) for _, _, value in self.declared.captured(record)]
        return t.Aggregate(Object(record), self.place(node), parts)

    def _name(self, node: Node) -> t.Expr:
        told, place = node["referencedDecl"], self.place(node)
        if told["id"] in self.captures:
            return self._captured(told["id"], self.type(node), place)
        if told["id"] in self.declared.constants:
            return t.Number(self.type(node), place, self.declared.constants[told["id"]])
        if told["id"] in self.declared.bindings:
            return self.read(self.declared.bindings[told["id"]])
        variable = self.declared.variables.get(told["id"])
        if variable is not None:
            if bare(variable.type) == STREAM:
                return t.Ignored(STREAM, place, [])
            if not is_known(variable.type):
                raise Refused(variable.place, *library.unknown_type(variable.type))
            if variable in self.declared.undefined:
                raise Refused(place, f"{variable.name}, which is defined nowhere", "name the file that has it")
            constant = self._constant(variable, told["type"]["qualType"])
            type_ = STRING if bare(variable.type) == STRING else bare(self.type(node))
            return constant if constant is not None else t.Name(type_, place, variable)
        if told["kind"] in ("FunctionDecl", "CXXMethodDecl"):
            raise Refused(place, f"the function {told['name']} as a value", "call it by its name, or write a lambda")
        raise Refused(place, f"{told.get('name', 'a name')}, which isn't known", "write it another way", True)

    def _constant(self, variable: t.Variable, spelled: str) -> t.Expr | None:
        """The value of a constant that the text tells."""
        constant = spelled.rstrip().endswith("const") if "*" in spelled else "const" in spelled.split()
        if variable.constant is None and constant and variable in self.declared.initials and is_scalar(variable.type):
            value = self.read(self.declared.initials[variable])
            if isinstance(value, (t.Number, t.Truth, t.Text)):
                variable.constant = value
        return variable.constant

    def constant_of(self, variable: t.Variable, node: Node) -> bool:
        """Whether the declared variable is a constant that the text tells."""
        return self._constant(variable, node["type"]["qualType"]) is not None

    def _member(self, node: Node) -> t.Expr:
        place, base = self.place(node), children(node)[0]
        static = self.declared.variables.get(node["referencedMemberDecl"])
        if static is not None:
            constant = self._constant(static, node["type"]["qualType"])
            return constant if constant is not None else t.Name(self.type(node), place, static)
        member = self.declared.members.get(node["referencedMemberDecl"])
        if member is None and self.declared.type_of(base) == BOOL:
            if node["name"] == "second":
                return self.read(base)
            raise Refused(place, "the place that insert gives", "ask find for it")
        if member is None:
            raise Refused(place, f"the member {node['name']}, which isn't known", "write it another way")
        if not is_known(member.type):
            raise Refused(place if member.owner.library else member.place, *library.unknown_type(member.type))
        return t.Dot(bare(self.type(node)), place, self.object(base, node["isArrow"]), member)

    def object(self, base: Node, arrow: bool) -> t.Expr:
        """The object before `.` or `->`."""
        read = self.read(base)
        if not arrow:
            return read
        if not isinstance(read.type, Pointer):
            raise Refused(self.place(base), "a receiver that is no pointer", "write it another way")
        return t.Deref(read.type.to, read.place, read)

    def _item(self, node: Node) -> t.Expr:
        items, index = (self.read(child) for child in children(node))
        return t.Item(self.type(node), self.place(node), items, index)

    # Operators --------------------------------------------------------------------------------------------------------

    def _unary(self, node: Node) -> t.Expr:
        operator, inner, place = node["opcode"], children(node)[0], self.place(node)
        if operator in ("++", "--"):
            target = self.read(inner)
            within = INT if isinstance(target.type, Int) and target.type.width < 32 else target.type
            one = t.Number(within if isinstance(within, Int) else LONG, place, 1)
            return t.Assign(target.type, place, target, operator[0], one, within, after=bool(node.get("isPostfix")))
        operand = self.read(inner)
        if operator == "*":
            return t.Deref(bare(self.type(node)), place, operand)
        if operator == "&":
            return t.AddressOf(self.type(node), place, operand)
        if operator == "+":
            return operand
        if operator not in ("-", "~", "!"):
            raise Refused(place, f"the operator {operator}", "write it another way")
        return t.Unary(self.type(node), place, operator, operand)

    def _binary(self, node: Node) -> t.Expr:
        operator, place = node["opcode"], self.place(node)
        left, right = (self.read(child) for child in children(node))
        if operator == "=":
            return t.Assign(left.type, place, left, "", right, left.type)
        if operator == ",":
            return t.Binary(right.type, place, ",", left, right)
        return t.Binary(self.type(node), place, operator, left, right)

    def _compound(self, node: Node) -> t.Expr:
        target, value = (self.read(child) for child in children(node))
        spelled = node["computeResultType"]
        within = self.declared.types(spelled.get("desugaredQualType", spelled["qualType"]))
        return t.Assign(target.type, self.place(node), target, node["opcode"][:-1], value, within)

    def _conditional(self, node: Node) -> t.Expr:
        condition, yes, no = (self.read(child) for child in children(node))
        type_ = STRING if yes.type == no.type == STRING else self.type(node)
        return t.Conditional(type_, self.place(node), condition, yes, no)

    def _zero(self, node: Node) -> t.Expr:
        return self.zero(self.type(node), self.place(node))

    def zero(self, type_: Type, place: Place) -> t.Expr:
        """The value that nothing is said of."""
        if isinstance(type_, Int):
            return t.Number(type_, place, 0)
        if type_ == BOOL:
            return t.Truth(BOOL, place, False)
        if isinstance(type_, Pointer) or type_ == STRING:
            return t.Null(type_, place)
        return t.Aggregate(type_, place, [])

    def _size(self, node: Node) -> t.Expr:
        told = node.get("argType")
        measured = self.declared.types(told["qualType"]) if told else self.type(children(node)[0])
        size = _bytes(measured)
        if node.get("name") != "sizeof" or size is None:
            raise Refused(self.place(node), f"{node.get('name', 'sizeof')} of this", "write the number")
        return t.Number(UNSIGNED_LONG, self.place(node), size)

    # Calls ------------------------------------------------------------------------------------------------------------

    def called(
        self, function: t.Function, receiver: t.Expr | None, given: list[Node], node: Node, virtual: bool = False
    ) -> t.Expr:
        self.reached(function)
        arguments = self.arguments(function, given)
        result = VOID if bare(function.result) == STREAM else function.result
        return t.Call(
            bare(result), self.place(node), function, None if function.static else receiver, arguments, virtual
        )

    def by_header(self, name: str, type_: Type, place: Place, *arguments: t.Expr) -> t.Expr:
        """A call of a function that a stub header has for what is read as such calls."""
        function = next(one for one in self.declared.functions.values() if one.name == name and one.library)
        self.reached(function)
        return t.Call(type_, place, function, None, [*arguments])

    def arguments(self, function: t.Function, given: list[Node]) -> list[t.Expr]:
        read = []
        for parameter, node in zip(function.parameters, given):
            if node["kind"] == "CXXDefaultArgExpr":
                node = self.declared.defaults[parameter]
            value = self.read(node)
            if bare(parameter.type) != STREAM:
                read.append(value)
        return read

    def _call(self, node: Node) -> t.Expr:
        callee, given, place = self.callee(children(node)[0]), children(node)[1:], self.place(node)
        if callee["kind"] == "MemberExpr" and callee["referencedMemberDecl"] in self.declared.functions:
            # A static member function that is called by an object.
            return self.called(self.declared.functions[callee["referencedMemberDecl"]], None, given, node)
        if callee["kind"] != "DeclRefExpr" or callee["referencedDecl"]["kind"] not in ("FunctionDecl", "CXXMethodDecl"):
            raise Refused(place, "a call through a pointer", "call the function by its name, or write a virtual method")
        told = callee["referencedDecl"]
        function = self.declared.functions.get(told["id"])
        known = (
            function is not None and function.library and function.owner is None and function.name in library.BY_NAME
        )
        if (
            function is None
            or known
            or not self.declared.has_body(function)
            and (function.library or not function.owner)
        ):
            return library.call(self, told["name"], given, node, function)
        return self.called(function, None, given, node)

    def callee(self, node: Node) -> Node:
        while node["kind"] in TRANSPARENT or node["kind"] in CASTS:
            node = children(node)[0]
        return node

    def _method(self, node: Node) -> t.Expr:
        named, given, place = self.callee(children(node)[0]), children(node)[1:], self.place(node)
        if named["kind"] != "MemberExpr":
            raise Refused(place, "a call through a pointer to a member", "call the method by its name")
        base = children(named)[0]
        if named["name"].startswith("~"):
            return t.Ignored(VOID, place, [self.read(base)])
        function = self.declared.functions.get(named["referencedMemberDecl"])
        if function is None or function.library and not self.declared.has_body(function):
            return library.method(self, self.object(base, named["isArrow"]), named["name"], given, node)
        receiver = self.object(base, named["isArrow"])
        items = library.items_of(receiver)
        if items is not receiver and named["name"] in ("begin", "end"):
            return t.VectorCall(self.type(node), place, named["name"], items, [])
        if function.name == "operator=" and not self.declared.is_written(function):
            return self._assigned(receiver, given[0], place)
        qualified = self._is_qualified(named)
        return self.called(function, receiver, given, node, not qualified)

    def _is_qualified(self, named: Node) -> bool:
        """Whether a method is called as `Base::method`, which isn't virtual: its name begins behind the qualifier."""
        begin, end = named["range"]["begin"], named["range"]["end"]
        begin, end = begin.get("expansionLoc", begin), end.get("expansionLoc", end)
        base = children(named)[0]
        if base["kind"] == "CXXThisExpr" and base.get("implicit"):
            return bool(begin.get("offset") != end.get("offset"))
        return output.source(end)[: end["offset"]].rstrip().endswith("::")

    def _operator(self, node: Node) -> t.Expr:
        told, given, place = self.callee(children(node)[0])["referencedDecl"], children(node)[1:], self.place(node)
        function = self.declared.functions.get(told["id"])
        name = told["name"]
        if name == "operator<<" and bare(self.declared.type_of(given[0])) == STREAM:
            return output.streamed(self, node)
        if function is not None and (self.declared.is_written(function) or function.pure_virtual):
            if function.owner is None:
                return self.called(function, None, given, node)
            return self.called(function, self.read(given[0]), given[1:], node, True)
        if name == "operator=":
            return self._assigned(self.read(given[0]), given[1], place)
        return library.method(self, self.read(given[0]), name, given[1:], node)

    def _assigned(self, target: t.Expr, given: Node, place: Place) -> t.Expr:
        value = self.read(given)
        return t.Assign(target.type, place, target, "", value, target.type)

    # Objects ----------------------------------------------------------------------------------------------------------

    def _construct(self, node: Node) -> t.Expr:
        made, place = self.type(node), self.place(node)
        given = [one for one in children(node)]
        if isinstance(made, Array):
            item = self.type_construct(made, node, place)
            return t.Aggregate(made, place, item)
        if isinstance(made, Pointer):
            first_given = self.read(given[0]) if given else t.Null(NULL, place)
            return folded(t.Convert(made, place, first_given))
        if made == STRING:
            return self.read(given[0]) if given else t.Text(STRING, place, "")
        if made == BOOL:
            return self.read(given[0])
        if isinstance(made, Vector):
            return library.vector(self, made, [one for one in given if one["kind"] != "CXXDefaultArgExpr"], node)
        if not isinstance(made, Object):
            raise Refused(place, "an object that isn't known", "write it another way")
        function = self.declared.constructor(made.record, node["ctorType"]["qualType"])
        if function is None:
            first = self.read(given[0]) if len(given) == 1 else None
            if first is not None and bare(first.type) == made:
                return t.Copy(made, place, first)
            if given:
                raise Refused(
                    place, "a constructor that isn't known", "write a constructor without template parameters"
                )
            return t.Construct(made, place, None, [])
        if is_copying(function) and not self.declared.is_written(function):
            return t.Copy(made, place, self.read(given[0]))
        self.reached(function)
        return t.Construct(made, place, function, self.arguments(function, given), bool(node.get("list")))

    def type_construct(self, made: Array, node: Node, place: Place) -> list[t.Expr | None]:
        """The items of an array that one constructor makes."""
        of: Type = made
        count = 1
        while isinstance(of, Array):
            count, of = count * of.length, of.of
        if not isinstance(of, Object):
            return []
        function = self.declared.constructor(of.record, node["ctorType"]["qualType"])
        if function is not None:
            self.reached(function)
        return []

    def _list(self, node: Node) -> t.Expr:
        made, place = self.type(node), self.place(node)
        given = children(node) or [
            one for one in node.get("array_filler", []) if one["kind"] != "ImplicitValueInitExpr"
        ]
        if is_scalar(made):
            return self.read(given[0]) if given else self.zero(made, place)
        members: list[t.Member | None] = []
        if isinstance(made, Object):
            members = [*made.record.members]
            if made.record.base is not None:
                members = [None, *members]
        parts: list[t.Expr | None] = []
        for at, one in enumerate(given):
            if one["kind"] == "ImplicitValueInitExpr":
                parts.append(None)
            elif one["kind"] == "CXXDefaultInitExpr":
                member = members[at]
                parts.append(self.read(self.declared.initials[member]) if member is not None else None)
            else:
                parts.append(self.read(one))
        return t.Aggregate(made, place, parts)

    def _braced(self, node: Node) -> t.Expr:
        """A list in braces: a vector."""
        items = self.read(children(node)[0])
        assert isinstance(items, t.Aggregate)
        return t.Aggregate(self.type(node), items.place, items.parts)

    def _new(self, node: Node) -> t.Expr:
        made, place, given = self.type(node), self.place(node), children(node)
        if not node.get("isArray"):
            initial = self.read(given[0]) if given else None
            return t.New(made, place, initial)
        length = self.read(given[0])
        if isinstance(made, Pointer) and isinstance(made.to, Object):
            self._each_made(made.to, given[1:])
            return t.New(made, place, None, length)
        initial = self.read(given[1]) if len(given) > 1 and given[1]["kind"] != "ImplicitValueInitExpr" else None
        return t.New(made, place, initial, length)

    def _each_made(self, of: Object, given: list[Node]) -> None:
        """The constructor without arguments that makes each object of a new array."""
        for one in given:
            if one["kind"] not in ("CXXConstructExpr", "ImplicitValueInitExpr"):
                raise Refused(self.place(one), "a list of new objects", "write a vector, or fill the array by a loop")
            function = self.declared.constructor(of.record, one.get("ctorType", {}).get("qualType", ""))
            if function is not None:
                self.reached(function)


def _bytes(type_: Type) -> int | None:
    if isinstance(type_, Int):
        return type_.width // 8
    if isinstance(type_, Array):
        item = _bytes(type_.of)
        return None if item is None else item * type_.length
    return 1 if type_ == BOOL else 8 if isinstance(type_, Pointer) else None
