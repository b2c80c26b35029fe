"""Not proved (README.md). Arrays of new objects: `T *p = new T[n]`.

Such a pointer becomes one to an array of pointers, each to an object of its own: `p[i].x` is `p[i]->x` then, and
`p->x` is `(*p)->x`. Which variables, members and results are such pointers is found by what they are given. One that
is given the address of a single object elsewhere is refused.
"""

from typing import Iterator, Union

from . import tree as t
from .effects import overriders
from .refusals import Refused
from .types import Object, Pointer, Reference, Type, bare

Holder = Union[t.Variable, t.Member, t.Function]
MIXED = (
    "a pointer to an array of new objects that is given something else, too",
    "let one pointer have the array, and another one the object",
)


def turned(program: t.Program) -> list[Refused]:
    """Changes the program; what can't be changed is refused."""
    if not any(_is_array(one) for one in t.everything(program)):
        return []
    flows = list(_flows(program))
    found = _holders(program, flows)
    refused = [
        Refused(value.place, *MIXED)
        for holder, value in flows
        if holder in found and not all(_fits(one, found) for one in _chosen(value))
    ]
    placed = {one for _, value in flows for one in _chosen(value)}
    refused += [
        Refused(one.place, "a new array of objects", "write a vector, or an array of pointers")
        for one in t.everything(program)
        if _is_array(one) and one not in placed and isinstance(one, t.Node)
    ]
    for holder in found:
        if isinstance(holder, t.Function):
            holder.result = _of_pointers(holder.result)
        else:
            holder.type = _of_pointers(holder.type)
    t.rewrite(program, lambda node: _changed(node, found))
    return refused


def _is_to_object(type_: Type) -> bool:
    held = bare(type_)
    return isinstance(held, Pointer) and isinstance(held.to, Object)


def _is_array(node: t.Tree) -> bool:
    return isinstance(node, t.New) and node.length is not None and _is_to_object(node.type)


def _of_pointers(type_: Type) -> Type:
    if isinstance(type_, Reference):
        return Reference(_of_pointers(type_.to), type_.constant)
    return Pointer(type_)


# What is given to what ------------------------------------------------------------------------------------------------


def _flows(program: t.Program) -> Iterator[tuple[Holder, t.Expr]]:
    """Each variable, member or result with each value that it is given."""
    owners: list[t.Variable | t.Member] = [*program.globals]
    owners += [one for record in program.records for one in record.members]
    for one in owners:
        if one.initial is not None:
            yield one, one.initial
    for function in program.functions:
        for initializer in function.initializers:
            if initializer.member is not None:
                yield initializer.member, initializer.value
        for node in t.bodies(function):
            if isinstance(node, t.Return) and node.value is not None:
                yield function, node.value
    for tree in t.everything(program):
        yield from _given(tree)


def _given(node: t.Tree) -> Iterator[tuple[Holder, t.Expr]]:
    match node:
        case t.Declare():
            if node.variable.initial is not None:
                yield node.variable, node.variable.initial
        case t.Assign(operator=""):
            holder = _holder(node.target)
            if holder is not None:
                yield holder, node.value
        case t.Call() | t.Construct() if node.function is not None:
            virtual = isinstance(node, t.Call) and node.virtual
            for function in overriders(node.function) if virtual else [node.function]:
                yield from zip(function.parameters, node.arguments)
        case t.Aggregate() if isinstance(node.type, Object) and node.type.record.base is None:
            for member, part in zip(node.type.record.members, node.parts):
                if part is not None:
                    yield member, part


def _chosen(node: t.Expr) -> list[t.Expr]:
    """What the value is one of."""
    match node:
        case t.Conditional():
            return _chosen(node.yes) + _chosen(node.no)
        case t.Convert() if isinstance(node.type, Pointer):
            return _chosen(node.operand)
        case t.Binary(operator=","):
            return _chosen(node.right)
    return [node]


def _holder(node: t.Expr) -> Holder | None:
    """What has the pointer, or the one that it is counted from."""
    match node:
        case t.Name():
            return node.variable
        case t.Dot():
            return node.member
        case t.Call():
            return node.function
        case t.Assign():
            return _holder(node.target)
        case t.Binary(operator="+" | "-"):
            return _holder(node.left) or _holder(node.right)
    return None


def _holders(program: t.Program, flows: list[tuple[Holder, t.Expr]]) -> set[Holder]:
    """What has a pointer to an array of new objects."""
    found: set[Holder] = set()
    counted = _counted(program)
    pairs = [(holder, one) for holder, value in flows for one in _chosen(value)]
    growing = True
    while growing:
        before = len(found)
        for holder, value in pairs:
            other = _holder(value)
            if _is_array(value) or other in found or holder in counted and _element_of(value) in found:
                found.add(holder)
            if holder in found and other is not None and _is_to_object(value.type):
                found.add(other)
        growing = len(found) > before
    return found


def _element_of(node: t.Expr) -> Holder | None:
    """Of the address of an item, what has the array."""
    if isinstance(node, t.AddressOf) and isinstance(node.operand, t.Item):
        return _holder(node.operand.items)
    return None


def _counted(program: t.Program) -> set[Holder]:
    """What is used as a place in an array: by an index, or by arithmetic."""
    found: set[Holder | None] = set()
    for node in t.everything(program):
        match node:
            case t.Item():
                found.add(_holder(node.items))
            case t.Assign() if node.operator:
                found.add(_holder(node.target))
            case t.Binary(operator="+" | "-"):
                found |= {_holder(node.left), _holder(node.right)}
    return {one for one in found if one is not None}


def _fits(value: t.Expr, found: set[Holder]) -> bool:
    return isinstance(value, t.Null) or _is_array(value) or _holder(value) in found or _element_of(value) in found


# The change -----------------------------------------------------------------------------------------------------------


def _changed(node: t.Tree, found: set[Holder]) -> t.Tree:
    """The node, whose parts are changed already."""
    match node:
        case t.New() if _is_array(node):
            node.each, node.initial = bare(node.type), None
            node.type = _of_pointers(node.type)
        case t.Name() if node.variable in found:
            node.type = bare(node.variable.type)
        case t.Dot() if node.member in found:
            node.type = bare(node.member.type)
        case t.Call() if node.function in found:
            node.type = bare(node.function.result)
        case t.Assign() if _is_changed(node.target) and _is_to_object(node.type):
            node.type, node.within = node.target.type, node.target.type if not node.operator else node.within
        case t.Convert() if _is_to_object(node.type) and _is_changed(node.operand):
            node.type = node.operand.type
        case t.Conditional() if _is_to_object(node.type) and (_is_changed(node.yes) or _is_changed(node.no)):
            node.type = node.yes.type if _is_changed(node.yes) else node.no.type
        case t.Binary(operator="+" | "-" | ",") if _is_to_object(node.type):
            changed = [one for one in (node.left, node.right) if _is_changed(one)]
            node.type = changed[-1].type if changed else node.type
        case t.Item() if isinstance(node.type, Object) and _is_changed(node.items):
            of = Pointer(node.type)
            return t.Deref(node.type, node.place, t.Item(of, node.place, node.items, node.index))
        case t.Deref() if isinstance(node.type, Object) and _is_changed(node.pointer):
            return t.Deref(node.type, node.place, t.Deref(Pointer(node.type), node.place, node.pointer))
    return node


def _is_changed(node: t.Expr) -> bool:
    """Whether it is a pointer to an array of pointers to objects, by its type."""
    type_ = bare(node.type)
    return isinstance(type_, Pointer) and _is_to_object(type_.to)
