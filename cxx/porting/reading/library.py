"""Not proved (README.md). What is known of the standard library beside what the stub headers define in C++."""

import re
from typing import TYPE_CHECKING

from .. import tree as t
from ..clang import Node, children
from ..folding import COMPARED
from ..places import Place
from ..refusals import PutTogether, Refused

from ..types import (
    BOOL, INT, NUMBERS, STREAM, STRING, UNSIGNED_LONG, VOID, Array, Int, Object, Pointer, Reference, Type, Unknown, Vector, bare,
)  # fmt: skip
from . import output
from .declarations import unknown_in

if TYPE_CHECKING:
    from .expressions import ExpressionReader

# Functions of the stub headers that have a body only because clang wants one.
BY_NAME = {"max", "min", "swap", "move", "forward"}
VECTOR_METHODS = {
    "size", "empty", "push_back", "emplace_back", "pop_back", "clear", "reserve", "resize", "back", "front", "at",
    "erase", "insert", "assign", "begin", "end",
}  # fmt: skip


def unknown_type(type_: Type) -> tuple[str, str]:
    """What is said of a type that isn't known, and what to write instead."""
    found = unknown_in(type_)
    name = found.name if found is not None else str(type_)
    if name in ("double", "float", "long double", "_Float16", "__float128"):
        return f"the type {name}", "write whole numbers, scaled (fixed point)"
    if name in ("wchar_t", "char8_t", "char16_t", "char32_t", "__int128", "unsigned __int128"):
        return f"the type {name}", "write char, int or long"
    if "lambda" in name or "(" in name and "::" not in name:
        return f"the type {name}", "call functions by their names, or pass a lambda to a template"
    if "::*" in name or "::" in name and "(" in name or name.endswith("::"):
        return "a pointer to a member", "name the member, or write a function"
    if re.search(r"\[\w+\]$", name):
        return "an array whose length isn't constant", "write a vector"
    return f"the type {name}, which isn't known", "write a class of your own, or a vector"


def call(reader: "ExpressionReader", name: str, given: list[Node], node: Node, function: t.Function | None) -> t.Expr:
    """A call of a function that has no body here."""
    place = reader.place(node)
    if name == "fflush":
        return t.Ignored(VOID, place, [])
    if name in ("printf", "puts", "putchar", "fprintf"):
        return output.printed(reader, name, given, node)
    if name in ("sprintf", "snprintf"):
        return output.put_together(reader, name, given, node)
    if name in ("max", "min"):
        type_ = bare(reader.type(node))
        if len(given) == 2 and isinstance(type_, Int):
            return t.Built(type_, place, name, [reader.read(one) for one in given])
        assert function is not None
        return reader.called(function, None, given, node)
    if name in ("abs", "labs", "llabs") and len(given) == 1:
        return t.Built(reader.type(node), place, "abs", [reader.read(given[0])])
    if name == "swap" and len(given) == 2:
        return t.Swap(VOID, place, reader.read(given[0]), reader.read(given[1]))
    if name in ("move", "forward", "as_const"):
        moved = reader.read(given[0])
        if name == "move" and "_ptr<" in given[0]["type"].get("desugaredQualType", given[0]["type"]["qualType"]):
            return _released(moved, place)
        return moved
    if name in ("exit", "abort", "_Exit", "quick_exit"):
        code = reader.read(given[0]) if given else t.Number(INT, place, 134)
        return t.Stop(VOID, place, code, "")
    if name == "assertion_":
        text = reader.read(given[0])
        assert isinstance(text, t.Text)
        return t.Stop(VOID, place, None, text.value)
    if name == "to_string":
        reader.read(given[0])
        raise PutTogether(place)
    if name == "free":
        return t.Ignored(VOID, place, [reader.read(given[0])])
    raise Refused(place, f"a call of {name}, whose body isn't here", "write the function, or name the file that has it")


def method(reader: "ExpressionReader", receiver: t.Expr, name: str, given: list[Node], node: Node) -> t.Expr:
    """A call of a method that the library has, or of an operator that the compiler makes."""
    place, of = reader.place(node), bare(receiver.type)
    if of == STREAM:
        return output.on_stream(reader, name, given, place)
    if name == "operator=":
        value = reader.read(given[0])
        return t.Assign(of, place, receiver, "", value, of)
    if isinstance(of, Pointer):
        return _of_pointer(reader, receiver, of, name, given, node)
    if of == STRING:
        return _of_string(reader, receiver, name, given, node)
    if name in ("c_str", "data") and isinstance(of, Object):
        ended = next((one for one in of.record.functions if one.name == "ended_" and one.library), None)
        if ended is not None:
            reader.reached(ended)
            return t.Call(bare(ended.result), place, ended, receiver, [])
    if not isinstance(of, Vector):
        raise Refused(
            place, f"a call of {name.replace('operator', 'operator ')}", "write a method or a function of your own"
        )
    return _of_vector(reader, receiver, of, name, given, node)


def _of_vector(
    reader: "ExpressionReader", receiver: t.Expr, of: Vector, name: str, given: list[Node], node: Node
) -> t.Expr:
    """A method of a vector."""
    place = reader.place(node)
    if name in ("operator[]", "at"):
        return t.Item(of.of, place, receiver, reader.read(given[0]))
    if name == "front":
        return t.Item(of.of, place, receiver, t.Number(UNSIGNED_LONG, place, 0))
    if name == "data":
        name = "begin"
    if name == "swap":
        return t.Swap(VOID, place, receiver, reader.read(given[0]))
    if name == "shrink_to_fit":
        return t.Ignored(VOID, place, [])
    if name == "assign" and len(given) == 2 or name == "insert" and len(given) == 3:
        done = _done_by(reader, node)
        if done is not None:
            reader.reached(done)
            return t.Call(VOID, place, done, None, [receiver, *(reader.read(one) for one in given)])
    if name in ("erase", "insert"):
        return _at_iterator(reader, receiver, of, name, given, node)
    if name not in VECTOR_METHODS:
        raise Refused(place, f"vector's {name}", "write a loop with an index")
    if name == "emplace_back":
        return t.VectorCall(VOID, place, "push_back", receiver, [_emplaced(reader, of.of, given, node)])
    arguments = [reader.read(one) for one in given if one["kind"] != "CXXDefaultArgExpr"]
    results: dict[str, Type] = {"size": UNSIGNED_LONG, "empty": BOOL, "back": of.of}
    result = Pointer(of.of) if name in ("begin", "end") else results.get(name, VOID)
    return t.VectorCall(result, place, name, receiver, arguments)


def _released(pointer: t.Expr, place: Place) -> t.Expr:
    """The value of a pointer that is null from then on."""
    return t.Assign(pointer.type, place, pointer, "", t.Null(pointer.type, place), pointer.type, after=True)


def _of_pointer(
    reader: "ExpressionReader", receiver: t.Expr, of: Pointer, name: str, given: list[Node], node: Node
) -> t.Expr:
    """A method of a pointer that owns, which is a plain pointer here."""
    place, operator = reader.place(node), name.replace("operator", "").strip()
    if name in ("get", "operator->", "lock"):
        return receiver
    if name == "expired":
        return t.Binary(BOOL, place, "==", receiver, t.Null(of, place))
    if operator == "*":
        return t.Deref(of.to, place, receiver)
    if operator == "bool":
        return t.Convert(BOOL, place, receiver)
    if name == "release":
        return _released(receiver, place)
    if name == "reset":
        values = [reader.read(one) for one in given if one["kind"] != "CXXDefaultArgExpr"]
        value = values[0] if values else t.Null(of, place)
        return t.Assign(of, place, receiver, "", value, of)
    if operator in ("==", "!="):
        return t.Binary(BOOL, place, operator, receiver, reader.read(given[0]))
    raise Refused(place, f"{name} of a pointer that owns", "write a plain pointer")


def _of_string(reader: "ExpressionReader", receiver: t.Expr, name: str, given: list[Node], node: Node) -> t.Expr:
    """A method or comparison of strings, which are literals."""
    place, operator = reader.place(node), name.replace("operator", "")
    if name == "c_str":
        return receiver
    if name == "empty":
        return t.Binary(BOOL, place, "==", receiver, t.Text(STRING, place, ""))
    if name in ("size", "length"):
        return _length(reader, receiver, place)
    if name == "begin":
        return receiver
    if name == "end":
        return t.Binary(STRING, place, "+", receiver, _length(reader, receiver, place))
    if name in ("operator[]", "at", "front"):
        index = reader.read(given[0]) if given else t.Number(UNSIGNED_LONG, place, 0)
        return t.Item(NUMBERS["char"], place, receiver, index)
    if operator in COMPARED:
        return t.Binary(BOOL, place, operator, receiver, reader.read(given[0]))
    raise PutTogether(place)


def _length(reader: "ExpressionReader", string: t.Expr, place: Place) -> t.Expr:
    """The length of a string: counted by a function of the stub header."""
    return reader.by_header("length_", UNSIGNED_LONG, place, string)


def items_of(items: t.Expr) -> t.Expr:
    """What a loop over the items goes over: of the library's array the array in it, of a string its letters."""
    type_ = bare(items.type)
    if isinstance(type_, Object) and type_.record.library and re.match(r"array_|text$", type_.record.name):
        member = type_.record.members[0]
        return t.Dot(member.type, items.place, items, member)
    return items


def _emplaced(reader: "ExpressionReader", item: Type, given: list[Node], node: Node) -> t.Expr:
    """The item that `emplace_back` adds: what is given, or what a constructor makes of it."""
    if len(given) == 1 and bare((only := reader.read(given[0])).type) == item:
        return only
    function = _done_by(reader, node)
    if function is None:
        raise Refused(
            reader.place(node), "emplace_back with the arguments of a constructor", "write push_back(Item(..))"
        )
    return reader.called(function, None, given, node)


def _done_by(reader: "ExpressionReader", node: Node) -> t.Function | None:
    """The function of the stub header that does what a method of a vector that is a template does."""
    method = reader.callee(children(node)[0]).get("referencedMemberDecl", "")
    return reader.declared.functions.get(reader.declared.emplacing.get(str(method), ""))


def _at_iterator(
    reader: "ExpressionReader", receiver: t.Expr, of: Vector, name: str, given: list[Node], node: Node
) -> t.Expr:
    """`v.erase(at)`, `v.erase(first, last)` and `v.insert(at, x)`."""
    if name == "insert" and len(given) != 2:
        raise Refused(reader.place(node), "vector's insert of this form", "write v.insert(v.begin() + i, x)")
    arguments = [reader.read(one) for one in given]
    return t.VectorCall(Pointer(of.of), reader.place(node), name, receiver, arguments)


def vector(reader: "ExpressionReader", made: Vector, given: list[Node], node: Node) -> t.Expr:
    """A vector that is made: empty, a copy, of a length, from a list, from a range."""
    place = reader.place(node)
    if not given:
        return t.Aggregate(made, place, [])
    ranged = reader.declared.from_range(made.of, node["ctorType"]["qualType"]) if len(given) == 2 else None
    if ranged is not None:
        return reader.called(ranged, None, given, node)
    values = [reader.read(one) for one in given]
    first = values[0]
    if isinstance(first, t.Aggregate) and len(values) == 1:
        return t.Aggregate(made, place, first.parts)
    if isinstance(bare(first.type), Vector) and len(values) == 1:
        return t.Copy(made, place, first)
    if not isinstance(first.type, Int) or len(values) > 2:
        raise Refused(place, "a vector from a range", "fill it by a loop")
    return t.Filled(made, place, first, values[1] if len(values) > 1 else None)
