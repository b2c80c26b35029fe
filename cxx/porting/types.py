"""Not proved (README.md). The types of C++ that are known, and how clang's spelling of them is read."""

import re
from dataclasses import dataclass
from typing import TYPE_CHECKING, Callable, Union

if TYPE_CHECKING:
    from .tree import Record


@dataclass(frozen=True, slots=True)
class Int:
    """A whole number of so many bits; `letter` says that it is printed as a character."""

    width: int
    signed: bool
    letter: bool = False


@dataclass(frozen=True, slots=True)
class Simple:
    """A type that is its name: a truth value, nothing, a literal string, a stream that is printed to."""

    name: str


@dataclass(frozen=True, slots=True)
class Pointer:
    to: "Type"


@dataclass(frozen=True, slots=True)
class Reference:
    to: "Type"
    constant: bool = False


@dataclass(frozen=True, slots=True)
class Array:
    of: "Type"
    length: int


@dataclass(frozen=True, slots=True)
class Vector:
    of: "Type"


@dataclass(frozen=True, slots=True)
class Object:
    """A class or struct, by value."""

    record: "Record"


@dataclass(frozen=True, slots=True)
class Unknown:
    name: str


Type = Union[Int, Simple, Pointer, Reference, Array, Vector, Object, Unknown]

BOOL, VOID, NULL, STRING, STREAM = map(Simple, ("bool", "void", "nullptr", "const char *", "ostream"))
INT, LONG, UNSIGNED_LONG = Int(32, True), Int(64, True), Int(64, False)
NUMBERS: dict[str, Type] = {
    "char": Int(8, True, True),
    "signed char": Int(8, True, True),
    "unsigned char": Int(8, False, True),
    "short": Int(16, True),
    "unsigned short": Int(16, False),
    "int": INT,
    "unsigned int": Int(32, False),
    "unsigned": Int(32, False),
    "long": LONG,
    "long long": LONG,
    "unsigned long": UNSIGNED_LONG,
    "unsigned long long": UNSIGNED_LONG,
    "size_t": UNSIGNED_LONG,
    "ptrdiff_t": LONG,
    "bool": BOOL,
    "void": VOID,
    "nullptr_t": NULL,
    "ostream": STREAM,
    "literal_": STRING,
    # What insert of a set or a map says; of it `second` alone can be had.
    "inserted_": BOOL,
}
_ARRAY = re.compile(r"^(.*?)\s*((?:\[\d+\])+)$")
# Pointers and references to arrays; clang 14 spells a reference that was deduced without its brackets.
_ROWS = re.compile(r"^(.*?)(?:\(([*&])\)|(&))\s*((?:\[\d+\])+)$")


def bare(type_: Type) -> Type:
    """The type without its reference."""
    return type_.to if isinstance(type_, Reference) else type_


def is_number(type_: Type) -> bool:
    return isinstance(type_, Int)


def is_scalar(type_: Type) -> bool:
    """Whether a value of it fits into one field: numbers, truth values, pointers, literal strings."""
    return isinstance(type_, (Int, Pointer)) or type_ in (BOOL, NULL, STRING)


class TypeReader:
    """Reads clang's spelling of a type. `named` gives the class or the alias of a name, or None."""

    def __init__(self, named: Callable[[str], Type | None]) -> None:
        self._named = named
        # The class in which the spelling stands: a name within it means that class's own first.
        self.scope: "Record | None" = None
        self._read: dict[tuple["Record | None", str], Type] = {}

    def forget(self) -> None:
        """What was read before all classes were known is read anew."""
        self._read.clear()

    def __call__(self, spelling: str) -> Type:
        key = (self.scope, spelling)
        if key not in self._read:
            # A name that means itself is no type.
            self._read[key] = Unknown(spelling)
            self._read[key] = self._parse(spelling)
        return self._read[key]

    def _parse(self, spelling: str) -> Type:
        constant = (
            bool(re.search(r"\bconst\s*&+$|&&$", spelling)) or spelling.startswith("const ") and "*" not in spelling
        )
        text = re.sub(r"\bconst char \*", "literal_ ", spelling.replace("std::", " "))
        text = re.sub(r"\b(const|volatile|struct|class|enum|__restrict)\b", " ", text)
        text = re.sub(r"\s+", " ", text).strip()
        rows = _ROWS.match(text)
        if rows and rows.group(2) != "*" and re.match(r"^const char (\(&\)|&)\s*\[\d+\]$", spelling):
            return Reference(STRING, True)
        if rows:
            whole = self._arrays(rows.group(1), rows.group(4))
            return Pointer(whole) if rows.group(2) == "*" else Reference(whole, constant)
        if text.endswith("&"):
            return Reference(self(text.rstrip("& ")), constant)
        array = _ARRAY.match(text)
        if array and text.count("(") == 0:
            return self._arrays(array.group(1), array.group(2))
        if text.endswith("*"):
            return Pointer(self(text[:-1]))
        return self._simple(text)

    def _arrays(self, item: str, lengths: str) -> Type:
        read = self(item)
        for length in reversed(re.findall(r"\d+", lengths)):
            read = Array(read, int(length))
        return read

    def _simple(self, text: str) -> Type:
        if text in NUMBERS:
            return NUMBERS[text]
        if text == "string":
            return self._named(text) or STRING
        vector = re.match(r"^(?:vector|initializer_list)<(.*)>$", text)
        if vector:
            return Vector(self(vector.group(1)))
        within = re.match(r"^vector<(.*)>::(iterator|const_iterator|value_type|size_type)$", text)
        if within:
            item = self(within.group(1))
            return {"value_type": item, "size_type": UNSIGNED_LONG}.get(within.group(2), Pointer(item))
        owning = re.match(r"^(?:unique_ptr|shared_ptr|weak_ptr)<(.*)>$", text)
        if owning:
            return Pointer(self(owning.group(1)))
        if "(unnamed enum" in text or "(anonymous enum" in text:
            return INT
        return self._named(text) or Unknown(text)
