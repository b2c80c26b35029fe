"""Not proved (README.md). What is printed: printf's formats and streams, as parts that are literal or a value with its
way.

The way of a value is a letter and what C++ says of it, as `sites` reads it: `%` and a format of printf, `c` a
character, `s` a literal string, `d` a number of a stream, `w` the width of the next value, and `!` a word that changes
the stream.
"""

import functools
import json
import re
from typing import TYPE_CHECKING

from .. import tree as t
from ..clang import Node, children
from ..places import Place
from ..refusals import Refused

from ..types import (
    BOOL, INT, LONG, NUMBERS, STREAM, STRING, UNSIGNED_LONG, VOID, Array, Int, Pointer, Type, Vector, bare,
)  # fmt: skip

if TYPE_CHECKING:
    from .expressions import ExpressionReader

FORMAT = re.compile(r"%([-+0 #]*)(\d*(?:\.\d+)?)(hh|h|ll|l|z|j|t)?([diucsxXop%])|([^%]+)")
LENGTHS = {"hh": 8, "h": 16, None: 32, "": 32, "l": 64, "ll": 64, "z": 64, "j": 64, "t": 64}
WORDS = {
    "endl": "\n",
    "flush": "",
    "hex": None,
    "dec": None,
    "left": None,
    "right": None,
    "boolalpha": None,
    "noboolalpha": None,
}
ADDRESS = ("an address that is printed", "print a number that the object has: an address differs from run to run")
NEEDED = ("write the value by printf's %d, %u, %x, %c or %s", "write << of numbers, characters and literal strings")


def literal(node: Node) -> str:
    """The text of a literal string, a character for each byte; clang writes it as C++ does."""
    return unescaped(node["value"])


def unescaped(spelled: str) -> str:
    inner = spelled[spelled.index('"') + 1 : spelled.rindex('"')]
    simple = {"n": "\n", "t": "\t", "r": "\r", "a": "\a", "b": "\b", "f": "\f", "v": "\v", "e": "\x1b"}

    def one(found: re.Match[str]) -> str:
        text = found.group(1)
        if text[0] == "x":
            return chr(int(text[1:], 16))
        if text[0] in "01234567":
            return chr(int(text, 8) & 255)
        return simple.get(text, text)

    plain = inner.encode("utf-8").decode("latin-1")
    return re.sub(r"\\(x[0-9a-fA-F]+|[0-7]{1,3}|.)", one, plain)


@functools.lru_cache(maxsize=None)
def _text(file: str) -> str:
    with open(file, encoding="utf-8", errors="replace") as lines:
        return lines.read()


def source(where: Node) -> str:
    """The text of the file that a place of clang's is in."""
    return _text(where["file"]) if where.get("file") else ""


def printed(reader: "ExpressionReader", name: str, given: list[Node], node: Node) -> t.Expr:
    """printf, puts or putchar; fprintf to stdout or stderr."""
    place = reader.place(node)
    if name == "fprintf":
        stream = reader.callee(given[0]).get("referencedDecl", {}).get("name")
        if stream not in ("stdout", "stderr"):
            raise Refused(place, "a print to a file", "print to the standard output")
        made = printed(reader, "printf", given[1:], node)
        assert isinstance(made, t.Print)
        made.standard = stream == "stdout"
        return made
    if name == "putchar":
        return t.Print(VOID, place, [("c", reader.read(given[0]))])
    format_ = letters_of(reader.read(given[0]))
    if name == "puts":
        if isinstance(format_, t.Text):
            return t.Print(VOID, place, [format_.value + "\n"])
        return t.Print(VOID, place, [("s", format_), "\n"])
    if not isinstance(format_, t.Text):
        raise Refused(place, "a format that is no literal string", "write the format where it is used")
    return t.Print(VOID, place, _parts(reader, format_, [reader.read(one) for one in given[1:]], place))


def _parts(
    reader: "ExpressionReader", format_: t.Text, values: list[t.Expr], place: Place
) -> list[str | tuple[str, t.Expr]]:
    parts: list[str | tuple[str, t.Expr]] = []
    at = 0
    while at < len(format_.value):
        found = FORMAT.match(format_.value, at)
        if format_.value.startswith("%p", at):
            raise Refused(place, *ADDRESS)
        if found is None:
            raise Refused(place, f"the format {json.dumps(format_.value[at:at + 6])}", NEEDED[0])
        at = found.end()
        flags, width, length, kind, text = found.groups()
        if text is not None or kind == "%":
            parts.append(text if text is not None else "%")
            continue
        if not values:
            raise Refused(place, "a format with too few values", "write a value for each %")
        value = letters_of(values.pop(0))
        if (kind == "s") != (value.type == STRING or _is_letters(value.type)):
            raise Refused(value.place, "a value that its format doesn't fit", NEEDED[0])
        if kind == "c" or kind == "s":
            parts.append((f"%{flags}{width}{kind}", value))
        else:
            parts.append((f"%{flags}{width}{kind}{LENGTHS[length]}", value))
    return parts


def letters_of(value: t.Expr) -> t.Expr:
    """What is printed: of a string that is put together, and whose letters are asked for, these as they are."""
    if isinstance(value, t.Call) and value.function.library and value.function.name == "ended_" and value.receiver:
        member = bare(value.receiver.type).record.members[0]  # type: ignore[union-attr]
        return t.Dot(member.type, value.place, value.receiver, member)
    return value


def put_together(reader: "ExpressionReader", name: str, given: list[Node], node: Node) -> t.Expr:
    """sprintf or snprintf: the parts of its format, one behind the other."""
    place = reader.place(node)
    first = 2 if name == "snprintf" else 1
    format_ = reader.read(given[first])
    if not isinstance(format_, t.Text):
        raise Refused(place, "a format that is no literal string", "write the format where it is used")
    at: t.Expr = t.Number(LONG, place, 0)
    for part in _parts(reader, format_, [reader.read(one) for one in given[first + 1 :]], place):
        at = _put(reader, [reader.read(given[0]), at], part, place)
    return reader.by_header("end_at_", INT, place, reader.read(given[0]), at)


def _put(reader: "ExpressionReader", where: list[t.Expr], part: str | tuple[str, t.Expr], place: Place) -> t.Expr:
    """A part of a format put into letters at a place; the place behind it."""
    if isinstance(part, str):
        return reader.by_header("text_at_", LONG, place, *where, t.Text(STRING, place, part), t.Number(LONG, place, 0))
    found = re.match(r"%(-?)(0?)(\d*)([a-zA-Z])(\d*)$", part[0])
    if found is None:
        raise Refused(part[1].place, "this format of sprintf", "write %d, %u, %x, %c or %s, with a width at most")
    left, zeros, width, letter, bits = found.groups()
    wide = t.Number(LONG, place, int(width or 0) * (-1 if left else 1))
    if letter == "c":
        return reader.by_header("letter_at_", LONG, place, *where, t.Convert(NUMBERS["char"], place, part[1]))
    if letter == "s":
        return reader.by_header("text_at_", LONG, place, *where, part[1], wide)
    signed = letter in "di"
    value = t.Convert(LONG if signed else UNSIGNED_LONG, place, t.Convert(Int(int(bits), signed), place, part[1]))
    base = t.Number(UNSIGNED_LONG, place, {"x": 16, "o": 8}.get(letter, 10))
    zeros_wanted = t.Truth(BOOL, place, bool(zeros))
    name = "signed_at_" if signed else "unsigned_at_"
    return reader.by_header(name, LONG, place, *where, value, base, wide, zeros_wanted)


def _is_letters(type_: Type) -> bool:
    """Whether it is an array or a vector of letters, or a pointer to one."""
    type_ = bare(type_)
    of = type_.of if isinstance(type_, (Array, Vector)) else type_.to if isinstance(type_, Pointer) else None
    return isinstance(of, Int) and of.letter


def streamed(reader: "ExpressionReader", node: Node) -> t.Expr:
    """`stream << a << b`: its parts from left to right."""
    done: list[t.Expr] = []
    standard = _flatten(reader, node, done)
    place = reader.place(node)
    merged: list[t.Expr] = []
    for one in done:
        before = merged[-1] if merged else None
        if isinstance(one, t.Print) and isinstance(before, t.Print) and not _has_effects(one):
            before.parts += one.parts
        else:
            merged.append(one)
    for one in merged:
        if isinstance(one, t.Print):
            one.standard = standard
    result = merged[0] if merged else t.Ignored(STREAM, place, [])
    for one in merged[1:]:
        result = t.Binary(STREAM, place, ",", result, one)
    return result


def _has_effects(one: t.Print) -> bool:
    return any(not isinstance(part, str) and not _is_plain(part[1]) for part in one.parts)


def _is_plain(value: t.Expr) -> bool:
    """Whether the value surely has no effect."""
    if isinstance(value, (t.Number, t.Truth, t.Text, t.Name, t.This)):
        return True
    if isinstance(value, t.Dot):
        return _is_plain(value.object)
    if isinstance(value, t.Deref):
        return _is_plain(value.pointer)
    if isinstance(value, (t.Convert, t.Unary)):
        return _is_plain(value.operand)
    if isinstance(value, t.Binary):
        return _is_plain(value.left) and _is_plain(value.right)
    return isinstance(value, t.Item) and _is_plain(value.items) and _is_plain(value.index)


def _flatten(reader: "ExpressionReader", node: Node, done: list[t.Expr]) -> bool:
    """Appends what is done, in order; whether the stream is the standard output."""
    node = reader.callee(node) if node["kind"] != "CXXOperatorCallExpr" else node
    if node["kind"] != "CXXOperatorCallExpr":
        if node["kind"] == "DeclRefExpr":
            return bool(node["referencedDecl"]["name"] not in ("cerr", "clog"))
        done.append(reader.read(node))
        return True
    told = reader.callee(children(node)[0])["referencedDecl"]
    function = reader.declared.functions.get(told["id"])
    standard = _flatten(reader, children(node)[1], done)
    if function is not None and reader.declared.has_body(function):
        done.append(reader.called(function, None, children(node)[1:], node))
        return standard
    _part(reader, children(node)[2], done)
    return standard


def _part(reader: "ExpressionReader", node: Node, done: list[t.Expr]) -> None:
    place, named = reader.place(node), reader.callee(node)
    if (
        named["kind"] == "DeclRefExpr"
        and named["referencedDecl"]["name"] in WORDS
        and named["referencedDecl"]["kind"] == "FunctionDecl"
    ):
        word = named["referencedDecl"]["name"]
        text = WORDS[word]
        done.append(t.Print(VOID, place, [text] if text is not None else [("!" + word, t.Number(INT, place, 0))]))
        return
    if named["kind"] == "CallExpr":
        called = reader.callee(children(named)[0]).get("referencedDecl", {}).get("name")
        if called in ("setw", "setfill"):
            value = reader.read(children(named)[1])
            done.append(t.Print(VOID, place, [("!" + called, value)]))
            return
    value = letters_of(reader.read(node))
    if isinstance(value, t.Text):
        done.append(t.Print(VOID, place, [("s", value)]))
        return
    done.append(t.Print(VOID, place, [(_way(value.type, place), value)]))


def _way(type_: Type, place: Place) -> str:
    type_ = bare(type_)
    if type_ == STRING or _is_letters(type_):
        return "s"
    if type_ == BOOL:
        return "b"
    if isinstance(type_, Int):
        if type_.letter or type_.width == 8:
            return "c"
        return f"{'d' if type_.signed else 'u'}{type_.width}"
    if isinstance(type_, Pointer):
        raise Refused(place, *ADDRESS)
    raise Refused(place, "a value that is printed", NEEDED[1])


def on_stream(reader: "ExpressionReader", name: str, given: list[Node], place: Place) -> t.Expr:
    """A method of a stream."""
    if name == "put":
        return t.Print(VOID, place, [("c", reader.read(given[0]))])
    if name == "write_":
        return t.Print(VOID, place, [("s", reader.read(given[0]))])
    if name == "flush":
        return t.Ignored(VOID, place, [])
    if name == "width":
        return t.Print(VOID, place, [("!setw", reader.read(given[0]))])
    raise Refused(place, f"a stream's {name}", "write << or printf")
