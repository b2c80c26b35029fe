"""Not proved (README.md). What a unit declares: classes, functions, variables, constants and names of types.

Two passes: the first gathers every declaration by clang's number and every name of a type, the second reads bases and
members, whose types may be declared later. Bodies aren't read here.
"""

import re
from dataclasses import dataclass, field

from ..clang import Node, Unit, children, walk
from ..places import Place
from ..refusals import Refusals, Refused
from ..tree import Expr, Function, Member, Number, Record, Variable
from ..types import INT, STREAM, VOID, Int, Object, Pointer, Reference, Type, TypeReader, Unknown, bare

NAMESPACES = ("TranslationUnitDecl", "NamespaceDecl", "LinkageSpecDecl")
ALIASES = ("TypedefDecl", "TypeAliasDecl")
# Classes of the library that are read by their names, and never as C++.
BY_THEIR_NAMES = ("vector", "initializer_list", "string", "unique_ptr", "shared_ptr", "weak_ptr", "inserted_")
METHODS = ("CXXMethodDecl", "CXXConstructorDecl", "CXXConversionDecl", "CXXDestructorDecl")


@dataclass
class Instance:
    """An instance of a class template: the spelling of its arguments."""

    arguments: list[str]
    record: Record


@dataclass
class Declarations:
    """By clang's numbers: what each declaration is."""

    unit: Unit
    records: list[Record] = field(default_factory=list)
    functions: dict[str, Function] = field(default_factory=dict)
    variables: dict[str, Variable] = field(default_factory=dict)
    members: dict[str, Member] = field(default_factory=dict)
    constants: dict[str, int] = field(default_factory=dict)
    nodes: dict[Function, Node] = field(default_factory=dict)
    defaults: dict[Variable, Node] = field(default_factory=dict)
    initials: dict[Variable | Member, Node] = field(default_factory=dict)
    variable_nodes: dict[Variable, Node] = field(default_factory=dict)
    refusals: Refusals = field(default_factory=Refusals)
    # By the number of a vector's method that is a template, that of the function of the stub header that does it.
    emplacing: dict[str, str] = field(default_factory=dict)
    # Variables of which no file of the program has the definition.
    undefined: set[Variable] = field(default_factory=set)
    # Names of a structured binding, by their numbers: the member that each is.
    bindings: dict[str, Node] = field(default_factory=dict)
    globals: list[Variable] = field(default_factory=list)
    record_nodes: dict[Record, Node] = field(default_factory=dict)
    # Of a lambda's function, what each captured variable (or `this`) is a member of the lambda's object.
    captures: dict[Function, dict[str, Member]] = field(default_factory=dict)

    def __post_init__(self) -> None:
        self.types = TypeReader(self._named)
        self._names: dict[str, Type | str] = {}
        self._instances: dict[str, list[Instance]] = {}
        self._lambdas: dict[Record, Node] = {}
        # Classes that only an alias names.
        self._unnamed: dict[str, Type] = {}
        self._nested: dict[Record, dict[str, Type | str]] = {}
        self._outer: dict[Record, Record | None] = {}
        # By the name of a class template the arguments that it has where none are given.
        self._defaults: dict[str, list[str]] = {}
        # Constructors of vectors from a range: the spelling of the item, their types, the function that does it.
        self._ranged: list[tuple[str, str, str]] = []
        self._pending: list[tuple[Node, Record | None]] = []
        self._static: list[tuple[Node, Record | None]] = []
        for node in children(self.unit.root):
            self._gather(node, "")
        self.types.forget()
        for record in self.records:
            self.types.scope = record
            self._members(record)
        for node, owner in self._pending:
            self.types.scope = owner
            self._function(node, owner)
        defined: set[Variable] = set()
        for node, owner in self._static:
            self.types.scope = owner
            variable = self.variable(node, True)
            if _is_defined(node, owner) or self.unit.is_library(node):
                defined.add(variable)
        self.undefined = set(self.globals) - defined
        self.types.scope = None

    # Names of types ---------------------------------------------------------------------------------------------------

    def type_of(self, node: Node) -> Type:
        spelled = node["type"]
        return self.types(spelled.get("desugaredQualType", spelled["qualType"]))

    def result_of(self, node: Node) -> Type:
        """The result's type of a declared function."""
        spelled: str = node["type"]["qualType"]
        if spelled.startswith("auto ") and " -> " in spelled:
            return self.types(spelled[spelled.rindex(" -> ") + 4 :])
        depth = 0
        for at, letter in enumerate(spelled):
            depth += {"<": 1, ">": -1}.get(letter, 0)
            if letter == "(" and depth == 0:
                break
        read = self.types(spelled[:at].strip())
        return VOID if bare(read) == STREAM else read

    def _named(self, text: str) -> Type | None:
        found = self._of_scope(text)
        if found is None:
            found = self._names.get(text)
        if found is None and ">::" in text:
            outer = self.types(text[: text.rindex(">::") + 1])
            found = self._nested.get(outer.record, {}).get(text.split("::")[-1]) if isinstance(outer, Object) else None
        if found is None:
            ending = [one for name, one in self._names.items() if name.endswith("::" + text)]
            found = ending[0] if ending else None
        if found is None and "::" in text and "<" not in text:
            found = self._names.get(text.split("::")[-1])
        if isinstance(found, str):
            return self.types(found)
        if found is None and text.endswith(">"):
            return self._instance(text)
        return found

    def _of_scope(self, text: str) -> Type | str | None:
        """What the name means within the class that is being read."""
        scope = self.types.scope
        while scope is not None:
            for record in scope.ancestors():
                if text.split("::")[-1] in self._nested.get(record, {}) and (
                    "::" not in text or text.split("::")[-2] in (record.name, self.record_nodes[record].get("name"))
                ):
                    return self._nested[record][text.split("::")[-1]]
            scope = self._outer.get(scope)
        return None

    def _instance(self, text: str) -> Type | None:
        at = text.index("<")
        name = text[:at].split("::")[-1].strip()
        spelled = _arguments(text[at + 1 : -1]) if text[at + 1 : -1].strip() else self._defaults.get(name, [])
        given = [self._argument(one) for one in spelled]
        for instance in self._instances.get(name, []):
            if [self._argument(one) for one in instance.arguments[: len(given)]] == given:
                return Object(instance.record)
        return None

    def _argument(self, text: str) -> Type | str:
        text = {"true": "1", "false": "0", "-1": "1"}.get(text, text)
        return text if re.match(r"^-?\d+", text) else self.types(text)

    # First pass -------------------------------------------------------------------------------------------------------

    def _gather(self, node: Node, scope: str, owner: Record | None = None) -> None:
        kind = node.get("kind", "")
        name = node.get("name", "")
        if kind in NAMESPACES:
            inside = scope + name + "::" if name and name != "std" else scope
            for child in children(node):
                self._gather(child, inside)
        elif kind in ("CXXRecordDecl", "ClassTemplateSpecializationDecl"):
            if node.get("completeDefinition") and not node.get("definitionData", {}).get("isLambda"):
                self._record(node, scope, owner)
        elif kind == "ClassTemplateDecl":
            self._template(node, scope)
        elif kind == "FunctionTemplateDecl" and not (name.startswith("operator") and self._of_pointers(node)):
            for child in children(node):
                if any(one["kind"] == "TemplateArgument" for one in children(child)):
                    self._pending.append((child, owner))
                    self._local_types(child)
        elif kind == "EnumDecl":
            self._enum(node, scope, owner)
        elif kind in ALIASES:
            owned = children(node)[0].get("ownedTagDecl") if children(node) else None
            if owned is not None and owned.get("id") in self._unnamed:
                self._name(scope + name, owner, self._unnamed[owned["id"]])
                return
            spelled = node["type"].get("desugaredQualType", node["type"]["qualType"])
            # `typedef struct Node Node;` says nothing new.
            if re.sub(r"^(struct|class|enum|union) ", "", spelled) != name:
                self._name(scope + name, owner, spelled)
        elif kind == "FunctionDecl" or kind in METHODS:
            self._pending.append((node, owner))
            self._local_types(node)
        elif kind == "FriendDecl":
            for child in children(node):
                if child["kind"] in ("FunctionDecl", "FunctionTemplateDecl"):
                    self._gather(child, "")
        elif kind == "VarDecl":
            self._static.append((node, owner))
            self._local_types(node)

    def _template(self, node: Node, scope: str) -> None:
        """The instances of a class template, and its arguments where none are given."""
        for child in children(node):
            if child["kind"] == "ClassTemplateSpecializationDecl":
                self._gather(child, scope)
            elif "defaultArg" in child:
                given = self._defaults.setdefault(node.get("name", ""), [])
                given.append(_spelled_argument(child["defaultArg"]))

    def _of_pointers(self, node: Node) -> bool:
        """Whether a template of the library compares pointers that own, which are plain pointers here."""
        return self.unit.is_library(node) and any(
            "_ptr<" in str(one.get("type", {}).get("qualType")) for one in children(node)
        )

    def _local_types(self, function: Node) -> None:
        """Classes, enumerations and aliases that are declared in a body."""
        for child in children(function):
            if child.get("kind") in ("CXXRecordDecl", "EnumDecl", *ALIASES):
                if not child.get("isImplicit"):
                    self._gather(child, "")
            elif child.get("kind") == "LambdaExpr":
                self._lambda(child)
            else:
                self._local_types(child)

    def _lambda(self, node: Node) -> None:
        """A lambda is an object of a class of its own, whose members are what it captures."""
        inner = children(node)[0]
        record = Record("lambda", self.unit.name_place(inner))
        record.library = self.unit.is_library(inner)
        self.records.append(record)
        self.record_nodes[record] = inner
        self._lambdas[record] = node
        self._names[node["type"]["qualType"]] = Object(record)
        for child in children(inner):
            if child["kind"] in ("CXXMethodDecl", "FunctionTemplateDecl"):
                self._gather(child, "", record)

    def captured(self, record: Record) -> list[tuple[str, str, Node]]:
        """Of a lambda's object, for each member: the number and name of the variable, and the value it is given."""
        found = []
        for one in children(self._lambdas[record])[1:-1]:
            named = one
            while named["kind"] not in ("DeclRefExpr", "CXXThisExpr") and children(named):
                named = children(named)[0]
            told = named.get("referencedDecl", {"id": "this", "name": "receiver"})
            found.append((told["id"], told["name"], one))
        return found

    def lambda_record(self, node: Node) -> Record:
        return next(record for record, other in self._lambdas.items() if other is node)

    def _name(self, name: str, owner: Record | None, meaning: Type | str) -> None:
        """A name of a type, within its class or outside all."""
        self._names.setdefault(name, meaning)
        if owner is not None:
            self._nested.setdefault(owner, {}).setdefault(name.split("::")[-1], meaning)

    def _record(self, node: Node, scope: str, owner: Record | None) -> None:
        name = node.get("name") or "Unnamed"
        arguments = [_spelled_argument(one) for one in children(node) if one["kind"] == "TemplateArgument"]
        shown = name + ("_" + "_".join(arguments) if arguments else "")
        record = Record(re.sub(r"\W+", "_", shown).strip("_"), self.unit.name_place(node))
        record.library = self.unit.is_library(node)
        if record.library and name in BY_THEIR_NAMES:
            self._emplacing(node, arguments)
            return
        self.records.append(record)
        self.record_nodes[record] = node
        self._outer[record] = owner
        if not node.get("name"):
            self._unnamed[node["id"]] = Object(record)
        if arguments:
            self._instances.setdefault(name, []).append(Instance(arguments, record))
        else:
            self._name(scope + name, owner, Object(record))
        for child in children(node):
            if not child.get("isImplicit") or child.get("kind") in METHODS:
                self._gather(child, scope + name + "::", record)

    def _emplacing(self, node: Node, arguments: list[str]) -> None:
        """What each method of a vector that is a template calls to do it, and each constructor from a range."""
        for template in children(node):
            if template.get("name", "").split("<")[0] not in ("emplace_back", "vector", "insert", "assign"):
                continue
            for method in children(template):
                calls = [one for one in walk(method) if one["kind"] == "CallExpr"]
                named = [one for call in calls[:1] for one in walk(children(call)[0]) if one["kind"] == "DeclRefExpr"]
                if method["kind"] == "CXXMethodDecl" and named:
                    self.emplacing[method["id"]] = named[0]["referencedDecl"]["id"]
                elif method["kind"] == "CXXConstructorDecl" and named:
                    self._ranged.append((arguments[0], _signature(method), named[0]["referencedDecl"]["id"]))

    def from_range(self, item: Type, signature: str) -> Function | None:
        """The function of the stub header that makes a vector of what is from a first place to a last one."""
        found = [one for spelled, of, one in self._ranged if of == _plain(signature) and self.types(spelled) == item]
        return self.functions.get(found[0]) if found else None

    def _enum(self, node: Node, scope: str, owner: Record | None) -> None:
        fixed = node.get("fixedUnderlyingType")
        read = self.types(fixed.get("desugaredQualType", fixed["qualType"])) if fixed else INT
        if node.get("name"):
            self._name(scope + node["name"], owner, read if isinstance(read, Int) else INT)
        value = -1
        for child in children(node):
            if child["kind"] == "EnumConstantDecl":
                told = _constant(child)
                value = value + 1 if told is None else told
                self.constants[child["id"]] = value

    # Second pass ------------------------------------------------------------------------------------------------------

    def _refuse(self, place: Place, what: str, instead: str) -> None:
        """Refuses a declaration, and goes on: the others are told too."""
        self.refusals.add(Refused(place, what, instead))

    def _members(self, record: Record) -> None:
        node = self.record_nodes[record]
        if node.get("tagUsed") == "union":
            self._refuse(record.place, f"the union {record.name}", "write a struct with a member for each")
        bases = node.get("bases", [])
        if len(bases) > 1 or bases and bases[0].get("isVirtual"):
            word = "a virtual base" if len(bases) == 1 else "several bases"
            self._refuse(record.place, f"{record.name} has {word}", "give it one base, and the others as members")
        if bases:
            base = self.type_of(bases[0])
            if isinstance(base, Object):
                record.base = base.record
                base.record.derived.append(record)
        if record in self._lambdas:
            fields = [one for one in children(node) if one["kind"] == "FieldDecl"]
            for child, (_, name, _) in zip(fields, self.captured(record)):
                record.members.append(Member(name, self.type_of(child), record.place, record))
            return
        for child in children(node):
            if child["kind"] == "FieldDecl":
                member = Member(child.get("name", "unnamed"), self.type_of(child), self.unit.name_place(child), record)
                if child.get("isBitfield"):
                    self._refuse(member.place, "a bit-field", "write a plain member")
                record.members.append(member)
                self.members[child["id"]] = member
                if child.get("hasInClassInitializer") and children(child):
                    self.initials[member] = children(child)[-1]

    def _function(self, node: Node, owner: Record | None) -> None:
        known = self.functions.get(node.get("previousDecl", ""))
        kind = node["kind"]
        if kind == "CXXDestructorDecl":
            return
        if known is None:
            static = owner is None or node.get("storageClass") == "static"
            known = Function(node["name"], self.unit.name_place(node), owner, static, VOID, [])
            known.constructor = kind == "CXXConstructorDecl"
            if not known.constructor:
                known.result = self.result_of(node)
            known.signature = _signature(node)
            known.pure_virtual = bool(node.get("pure"))
            known.library = self.unit.is_library(node)
            known.virtual = bool(node.get("virtual")) or any(
                one["kind"] in ("OverrideAttr", "FinalAttr") for one in children(node)
            )
            known.parameters = [self._parameter(one) for one in children(node) if one["kind"] == "ParmVarDecl"]
            if owner:
                owner.functions.append(known)
            if owner in self._lambdas:
                told = [number for number, _, _ in self.captured(owner)]
                self.captures[known] = dict(zip(told, owner.members))
            self.nodes[known] = node
        self.functions[node["id"]] = known
        for variable, one in zip(known.parameters, (one for one in children(node) if one["kind"] == "ParmVarDecl")):
            self.variables[one["id"]] = variable
            if children(one):
                self.defaults.setdefault(variable, children(one)[-1])
        if _has_body(node):
            self.nodes[known] = node
            known.place = self.unit.name_place(node)

    def _parameter(self, node: Node) -> Variable:
        return Variable(node.get("name", "unnamed"), self.type_of(node), self.unit.name_place(node))

    def variable(self, node: Node, shared: bool) -> Variable:
        """The variable that the node declares; a second declaration of one is the first."""
        known = self.variables.get(node.get("previousDecl", ""))
        if known is None:
            known = Variable(node.get("name", "bound"), self.type_of(node), self.unit.name_place(node), shared)
        self.variables[node["id"]] = known
        self.variable_nodes.setdefault(known, node)
        given = [one for one in children(node) if one["kind"] != "BindingDecl" and not one["kind"].endswith("Attr")]
        if node.get("init") and given:
            self.initials[known] = given[-1]
        for one in children(node):
            if one["kind"] == "BindingDecl" and children(one):
                self.bindings[one["id"]] = children(one)[0]
        stream = bare(known.type) == STREAM or node.get("storageClass") == "extern" and self.unit.is_library(node)
        if shared and known not in self.globals and not stream:
            self.globals.append(known)
        return known

    def constructor(self, record: Record, signature: str) -> Function | None:
        wanted = _plain(signature)
        for function in record.functions:
            if function.constructor and function.signature == wanted:
                return function
        return None

    def has_body(self, function: Function) -> bool:
        return _has_body(self.nodes[function])

    def is_compilers(self, function: Function) -> bool:
        """Whether the compiler writes the body."""
        node = self.nodes[function]
        return bool(node.get("isImplicit")) or "explicitlyDefaulted" in node

    def is_written(self, function: Function) -> bool:
        """Whether the body stands in the text, and isn't the compiler's."""
        return _has_body(self.nodes[function]) and not self.is_compilers(function)


def is_copying(function: Function) -> bool:
    """Whether a constructor or `operator=` takes another object of its class."""
    own = function.owner
    types = [one.type for one in function.parameters]
    return (
        len(types) == 1
        and isinstance(types[0], Reference)
        and isinstance(types[0].to, Object)
        and types[0].to.record is own
    )


def _is_defined(node: Node, owner: Record | None) -> bool:
    """Whether the declaration of a variable makes it."""
    if node.get("init") or node.get("inline") or node.get("constexpr"):
        return True
    return node.get("storageClass") != ("extern" if owner is None else "static")


def _has_body(node: Node) -> bool:
    return any(one["kind"] in ("CompoundStmt", "CXXTryStmt") for one in children(node))


def _plain(signature: str) -> str:
    return re.sub(r"\s*noexcept(\(\w+\))?", "", signature).strip()


def _signature(node: Node) -> str:
    return _plain(node["type"]["qualType"])


def _spelled_argument(node: Node) -> str:
    if "type" in node:
        spelled: str = node["type"].get("desugaredQualType", node["type"]["qualType"])
        return spelled
    return str(node.get("value", node.get("expr", "")))


def _arguments(text: str) -> list[str]:
    """The arguments of a template, at the commas outside brackets."""
    parts, depth, start = [], 0, 0
    for at, letter in enumerate(text):
        depth += {"<": 1, "(": 1, ">": -1, ")": -1}.get(letter, 0)
        if letter == "," and depth == 0:
            parts.append(text[start:at].strip())
            start = at + 1
    return parts + [text[start:].strip()]


def _constant(node: Node) -> int | None:
    """The value that clang tells of a constant expression."""
    for child in children(node):
        if child["kind"] == "ConstantExpr" and "value" in child:
            return int(child["value"])
        found = _constant(child)
        if found is not None:
            return found
    return None


def number(value: int, place: Place, type_: Type = INT) -> Expr:
    return Number(type_, place, value)


def is_known(type_: Type) -> bool:
    """Whether nothing in the type is unknown."""
    return unknown_in(type_) is None


def unknown_in(type_: Type) -> Unknown | None:
    """What in the type is unknown; of a class of the library also in its members."""
    if isinstance(type_, Unknown):
        return type_
    if isinstance(type_, Object) and type_.record.library:
        parts = [one.type for one in type_.record.members if not isinstance(one.type, (Pointer, Reference))]
        return next((found for one in parts if (found := unknown_in(one))), None)
    inner = getattr(type_, "to", None) or getattr(type_, "of", None)
    return unknown_in(inner) if inner is not None else None
