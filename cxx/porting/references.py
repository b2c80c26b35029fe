"""Not proved (README.md). Which references to numbers are values: those through which nothing is changed, and whose
place nobody changes by another name while the function runs."""

from typing import Iterator, Union

from . import tree as t
from .effects import is_lending, is_lending_type, lowered_parameters, overriders
from .types import Object, Reference, bare, is_scalar

Named = Union[t.Variable, t.Member]


def settle(program: t.Program) -> None:
    """Makes values of the references that may be values, and references of those that have to see a change."""
    changes = _Changes(program)
    given: dict[t.Variable, list[t.Expr]] = {}
    seen: set[t.Variable] = set()
    for function, parameter, argument in _arguments(program):
        given.setdefault(parameter, []).append(argument)
        if _is_changed(argument, changes.of(function)):
            seen.add(parameter)
    for parameter in seen:
        if all(isinstance(one, (t.Name, t.Dot)) for one in given[parameter]):
            assert isinstance(parameter.type, Reference)
            parameter.type = Reference(parameter.type.to)
    _read_only(program, seen)


def _arguments(program: t.Program) -> Iterator[tuple[t.Function, t.Variable, t.Expr]]:
    """Each argument for a reference to a number, with the function that is called."""
    for node in t.everything(program):
        if isinstance(node, (t.Call, t.Construct)) and node.function is not None:
            virtual = isinstance(node, t.Call) and node.virtual
            for function in overriders(node.function) if virtual else [node.function]:
                for parameter, argument in zip(lowered_parameters(function), node.arguments):
                    if isinstance(parameter.type, Reference) and is_scalar(parameter.type.to):
                        yield function, parameter, argument


def _is_changed(argument: t.Expr, changes: set[Named]) -> bool:
    """Whether one of the changes may be to the place that the argument names."""
    match argument:
        case t.Name():
            variable = argument.variable
            if isinstance(variable.type, Reference):
                return any(bare(one.type) == variable.type.to for one in changes)
            return variable in changes
        case t.Dot():
            return argument.member in changes
    return False


class _Changes:
    """What a call of a function may change by its name: numbers that live as long as the program, and members."""

    def __init__(self, program: t.Program) -> None:
        self._own: dict[t.Function, set[Named]] = {}
        self._called: dict[t.Function, set[t.Function]] = {}
        for function in program.functions:
            self._own[function], self._called[function] = set(), set()
            for node in t.bodies(function):
                self._look(function, node)
        self._all: dict[t.Function, set[Named]] = {}

    def _look(self, function: t.Function, node: t.Tree) -> None:
        targets: list[t.Expr] = []
        match node:
            case t.Assign():
                targets = [node.target]
            case t.Swap():
                targets = [node.left, node.right]
            case t.Call() | t.Construct() if node.function is not None:
                virtual = isinstance(node, t.Call) and node.virtual
                called = overriders(node.function) if virtual else [node.function]
                self._called[function].update(called)
                for one in called:
                    pairs = zip(lowered_parameters(one), node.arguments)
                    targets += [argument for parameter, argument in pairs if is_lending(parameter)]
        for target in targets:
            if isinstance(target, t.Name) and target.variable.shared:
                self._own[function].add(target.variable)
            elif isinstance(target, t.Dot):
                self._own[function].add(target.member)

    def of(self, function: t.Function) -> set[Named]:
        if function not in self._all:
            seen, waiting = {function}, [function]
            while waiting:
                for other in self._called.get(waiting.pop(), set()) - seen:
                    seen.add(other)
                    waiting.append(other)
            self._all[function] = {one for other in seen for one in self._own.get(other, set())}
        return self._all[function]


def _read_only(program: t.Program, kept: set[t.Variable]) -> None:
    """A parameter that is a reference to a number through which nothing is changed is a value, but for those kept."""
    waiting = {one for function in program.functions for one in lowered_parameters(function) if is_lending(one)} - kept
    growing = True
    while growing:
        changed = {one for node in t.everything(program) for one in _changed_through(node, waiting)}
        changed |= {
            node.value.variable
            for function in program.functions
            if is_lending_type(function.result)
            for node in t.bodies(function)
            if isinstance(node, t.Return) and isinstance(node.value, t.Name)
        }
        growing = bool(changed & waiting)
        waiting -= changed
    for parameter in waiting:
        assert isinstance(parameter.type, Reference)
        parameter.type = Reference(parameter.type.to, True)


def _changed_through(node: t.Tree, known: set[t.Variable]) -> list[t.Variable]:
    """The references that the node may change something through, where those that are known change nothing."""
    given: list[t.Expr] = []
    match node:
        case t.Assign():
            given = [node.target]
        case t.Swap():
            given = [node.left, node.right]
        case t.AddressOf():
            given = [node.operand]
        case t.Declare(variable=t.Variable(type=Reference(), initial=initial)) if initial is not None:
            given = [initial]
        case t.Aggregate():
            if isinstance(node.type, Object):
                pairs = zip(node.type.record.members, node.parts)
                given = [part for member, part in pairs if part is not None and is_lending(member)]
        case t.Call() | t.Construct() if node.function is not None:
            called = overriders(node.function) if isinstance(node, t.Call) and node.virtual else [node.function]
            for function in called:
                pairs_of = zip(lowered_parameters(function), node.arguments)
                given += [
                    argument for parameter, argument in pairs_of if is_lending(parameter) and parameter not in known
                ]
    return [one.variable for one in given if isinstance(one, t.Name)]
