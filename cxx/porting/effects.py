"""Not proved (README.md). Which functions change nothing, which expressions have effects, who calls whom."""

from . import tree as t
from .types import STREAM, VOID, Array, Object, Reference, Type, Vector, bare, is_scalar

CHANGING = (t.New, t.Construct, t.Aggregate, t.Filled, t.Copy, t.Print, t.Swap)
ASKING = ("size", "empty", "back", "begin", "end")


class Effects:
    """What is known of the functions of a program."""

    def __init__(self, program: t.Program) -> None:
        self._calls = {function: self._called(function) for function in program.functions}
        self.pure = {one for one in program.functions if self._may_be_pure(one)}
        self._reach: dict[t.Function, set[t.Function]] = {}
        self._known: dict[t.Tree, bool] = {}
        growing = True
        while growing:
            impure = {one for one in self.pure if any(other not in self.pure for other in self._calls[one])}
            self.pure -= impure
            growing = bool(impure)

    def _called(self, function: t.Function) -> set[t.Function]:
        called: set[t.Function] = set()
        for node in t.bodies(function):
            if isinstance(node, t.Call):
                called.update(overriders(node.function) if node.virtual else [node.function])
            elif isinstance(node, t.Construct) and node.function is not None:
                called.add(node.function)
        return called

    def _may_be_pure(self, function: t.Function) -> bool:
        if function.constructor or function.body is None or function.name == "main":
            return False
        result = function.result
        if bare(result) in (VOID, STREAM) or not is_scalar(bare(result)) and not isinstance(result, Reference):
            return False
        if function.walks or is_lending_type(function.result):
            return False
        return not any(self._changes(function, node) for node in t.bodies(function))

    def _changes(self, function: t.Function, node: t.Tree) -> bool:
        """Whether the node itself changes something that lives on, or makes an object."""
        if isinstance(node, CHANGING):
            return True
        if isinstance(node, t.Stop):
            return node.code is not None
        if isinstance(node, t.VectorCall):
            return node.method not in ASKING
        if isinstance(node, t.Assign):
            return not _is_local(node.target)
        if isinstance(node, t.Declare):
            variable = node.variable
            kept = isinstance(variable.type, (Object, Array, Vector))
            return variable.shared or variable.lent or kept
        if isinstance(node, t.Each):
            return node.variable.lent or isinstance(node.variable.type, (Object, Array, Vector))
        return False

    def reach(self, function: t.Function) -> set[t.Function]:
        """The functions that a call of this one may lead to, itself among them."""
        if function not in self._reach:
            seen, waiting = {function}, [function]
            while waiting:
                for other in self._calls.get(waiting.pop(), ()):
                    if other not in seen:
                        seen.add(other)
                        waiting.append(other)
            self._reach[function] = seen
        return self._reach[function]

    def has_effect(self, node: t.Tree) -> bool:
        """Whether evaluating the expression changes anything."""
        if node not in self._known:
            self._known[node] = self._has_effect(node)
        return self._known[node]

    def _has_effect(self, node: t.Tree) -> bool:
        if isinstance(node, (t.Assign, t.Stop, *CHANGING)):
            return True
        if isinstance(node, t.VectorCall) and node.method not in ASKING:
            return True
        if isinstance(node, t.Call):
            called = overriders(node.function) if node.virtual else [node.function]
            if any(one not in self.pure for one in called):
                return True
        return any(self.has_effect(part) for part in t.parts(node))


def overriders(function: t.Function) -> list[t.Function]:
    """What a virtual call of the function may run: it and what overrides it, in its whole hierarchy."""
    if not function.virtual or function.owner is None:
        return [function]
    wanted = function.virtual_signature()
    return [
        other
        for record in function.owner.root().family()
        for other in record.functions
        if other.name == function.name and not other.pure_virtual and other.virtual_signature() == wanted
    ]


def _is_local(target: t.Expr) -> bool:
    """Whether the place dies with the call."""
    return isinstance(target, t.Name) and not target.variable.shared and not isinstance(target.variable.type, Reference)


def assigned(node: t.Tree) -> set[t.Variable]:
    """The variables that evaluating the expression may assign to by their names."""
    found: set[t.Variable] = set()
    for one in t.walk(node):
        targets = (
            [one.target] if isinstance(one, t.Assign) else [one.left, one.right] if isinstance(one, t.Swap) else []
        )
        found.update(target.variable for target in targets if isinstance(target, t.Name))
    return found


def assigned_in(function: t.Function) -> set[t.Variable]:
    """The variables that the function may assign to by their names, behind their declaration."""
    found: set[t.Variable] = set()
    for node in t.bodies(function):
        if isinstance(node, (t.Assign, t.Swap)):
            targets = [node.target] if isinstance(node, t.Assign) else [node.left, node.right]
            for target in targets:
                while isinstance(target, (t.Assign, t.Binary)):
                    target = target.target if isinstance(target, t.Assign) else target.right
                if isinstance(target, t.Name) and is_scalar(bare(target.type)):
                    found.add(target.variable)
        elif (
            isinstance(node, t.Declare)
            and isinstance(node.variable.type, Reference)
            and isinstance(node.variable.initial, t.Name)
        ):
            found.add(node.variable.initial.variable)
    return found


def mark_uses(program: t.Program) -> None:
    """Sets `whole` and `lent` of variables and members by how they are used."""
    for node in t.everything(program):
        _mark(node)
    for function in program.functions:
        for initializer in function.initializers:
            if initializer.member is not None and is_lending(initializer.member):
                _lend(initializer.value)


def _mark(node: t.Tree) -> None:
    if isinstance(node, t.Aggregate) and isinstance(node.type, Object):
        for member, given in zip(node.type.record.members, node.parts):
            if given is not None and is_lending(member):
                _lend(given)
    if isinstance(node, (t.Call, t.Construct)) and node.function is not None:
        for parameter, argument in zip(lowered_parameters(node.function), node.arguments):
            if is_lending(parameter):
                _lend(argument)
    if isinstance(node, t.Declare) and isinstance(node.variable.type, Reference) and node.variable.initial is not None:
        if isinstance(bare(node.variable.type), (Array, Vector)):
            return
    known = _contained(node)
    for part in t.parts(node):
        if part is not known and isinstance(part, (t.Name, t.Dot)) and isinstance(part.type, (Array, Vector)):
            owner: t.Variable | t.Member = part.variable if isinstance(part, t.Name) else part.member
            owner.whole = True


def _contained(node: t.Tree) -> t.Tree | None:
    """The part of the node that may be an array or a vector without being used as a whole."""
    if isinstance(node, (t.Item, t.Each)):
        return node.items
    if isinstance(node, t.Binary):
        return node.left if isinstance(bare(node.left.type), (Array, Vector)) else node.right
    if isinstance(node, t.VectorCall):
        return node.vector
    if isinstance(node, t.Assign) and isinstance(node.type, Vector):
        return node.target
    return None


def _lend(argument: t.Expr) -> None:
    if isinstance(argument, t.Name) and not isinstance(argument.variable.type, Reference):
        argument.variable.lent = True
    elif isinstance(argument, t.Dot) and not isinstance(argument.member.type, Reference):
        argument.member.lent = True
    elif isinstance(argument, t.Conditional):
        _lend(argument.yes)
        _lend(argument.no)


def is_lending(parameter: t.Variable | t.Member) -> bool:
    """Whether the parameter or member is a reference to a number, a truth value or a pointer, through which it may be
    changed."""
    return is_lending_type(parameter.type)


def is_lending_type(type_: Type) -> bool:
    """Whether it is a reference to a number, a truth value or a pointer, through which that may be changed."""
    return isinstance(type_, Reference) and not type_.constant and is_scalar(type_.to)


def lowered_parameters(function: t.Function) -> list[t.Variable]:
    """The parameters but streams, which are left out."""
    return [one for one in function.parameters if bare(one.type) != STREAM]
