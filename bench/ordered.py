"""A source of the language as C++ that g++ takes in any case: in the language a method may use classes that come later,
in C++ only behind them. So all bodies of methods go behind the classes, and nothing else is changed."""

from __future__ import annotations

import re

COMMENT = re.compile(r"//[^\n]*|/\*.*?\*/", re.DOTALL)
CLASS = re.compile(r"\bclass\s+(\w+)\s*(\{|;)")
# What a class holds: a method, up to its body, or else a field or a word of access.
MEMBER = re.compile(r"\s*(?:(\w+[\s*]+)(\w+)\s*(\([^)]*\))\s*\{|[^;:{}]*[;:])", re.DOTALL)


def closing(text: str, opening: int) -> int:
    """Where the bracket that opens at a place is closed."""
    depth = 0
    for at in range(opening, len(text)):
        depth += {"{": 1, "}": -1}.get(text[at], 0)
        if depth == 0:
            return at
    raise ValueError("a bracket isn't closed")


def parted(name: str, inside: str) -> tuple[str, str]:
    """What a class holds with its methods declared alone, and their bodies."""
    held, bodies, at = "", "", 0
    while found := MEMBER.match(inside, at):
        at = found.end()
        if found.group(2) is None:
            held += found.group()
            continue
        kind, method, parameters = found.group(1, 2, 3)
        end = closing(inside, found.end() - 1) + 1
        held += f"\n  {kind}{method}{parameters};"
        bodies += f"inline {kind}{name}::{method}{parameters} {inside[found.end() - 1 : end]}\n"
        at = end
    if inside[at:].strip():
        raise ValueError(f"{inside[at:].strip()!r} isn't understood")
    return held, bodies


def ordered(text: str) -> str:
    """Classes first, then bodies, then what isn't a class."""
    text = COMMENT.sub(" ", text)
    names: list[str] = []
    classes = bodies = rest = ""
    at = 0
    while found := CLASS.search(text, at):
        rest += text[at : found.start()]
        at = found.end()
        if found.group(2) == ";":
            continue
        end = closing(text, found.end() - 1)
        held, more = parted(found.group(1), text[found.end() : end])
        names.append(found.group(1))
        classes += f"class {found.group(1)} {{{held}\n}};\n"
        bodies += more
        at = text.index(";", end) + 1
    forward = "".join(f"class {name};\n" for name in names)
    return forward + classes + bodies + rest + text[at:]
