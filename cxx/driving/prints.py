"""Not proved (../README.md). The sites of a port as C++ for the built program (runtime/prints.h): it writes the
user's bytes itself."""

import re
from dataclasses import dataclass

from porting.port import Ported
from porting.sites import Parts, Sites

from translator import tree

WAYS = {"c": "CHARACTER", "s": "STRING", "b": "TRUTH"}
FORMAT = re.compile(r"^(%[-+0 #]*\d*(?:\.\d+)?)([a-zA-Z])(\d*)$")


def quoted(text: str) -> str:
    """A literal of C++ with exactly these bytes."""
    return (
        '"'
        + "".join(
            chr(it) if 32 <= it < 127 and it not in (34, 92, 63) else f"\\{it:03o}" for it in text.encode("latin-1")
        )
        + '"'
    )


def piece(part: str | tuple[str]) -> str:
    if isinstance(part, str):
        return f"{{Piece::TEXT, {quoted(part)}, {len(part)}, 0}}"
    way = part[0]
    if way in WAYS:
        return f"{{Piece::{WAYS[way]}, nullptr, 0, 0}}"
    if way.startswith("!"):
        return f"{{Piece::WORD, {quoted(way[1:])}, {len(way) - 1}, 0}}"
    found = FORMAT.match(way)
    if found is None:
        return f"{{Piece::{'SIGNED' if way[0] == 'd' else 'UNSIGNED'}, nullptr, 0, {int(way[1:])}}}"
    before, letter, bits = found.groups()
    if before == "%" and letter in "di":
        return f"{{Piece::PLAIN, nullptr, 0, {int(bits)}}}"
    text = before + ("" if letter in "cs" else "l") + letter
    return f"{{Piece::FORMAT, {quoted(text)}, {len(text)}, {int(bits or 64)}}}"


def table(parts: Parts, number: int) -> str:
    pieces = [piece(part) for part in parts if part != ""]
    return f"static const Piece site{number}[] = {{{', '.join([*pieces, '{Piece::END, nullptr, 0, 0}'])}}};"


def literals(name: str, texts: list[str]) -> str:
    return f"const Literal {name}[] = {{{', '.join(f'{{{quoted(text)}, {len(text)}}}' for text in [*texts, ''])}}};"


def before(sites: Sites) -> list[str]:
    """What stands before the text of a program that prints by these sites."""
    numbers = range(len(sites.sites))
    return [
        '#include "prints.h"',
        *(table(parts, number) for number, parts in enumerate(sites.sites)),
        f"const Piece *const sites[] = {{{', '.join(f'site{number}' for number in numbers)}}};",
        literals("strings", ["", *sites.strings]),
        literals("assertions", [f"{stop.place}: Assertion `{stop.text}' failed.\n" for stop in sites.stops]),
        "#define program ported",
    ]


AFTER = ["#undef program", "void program() {", "  ported();", "  leave(0);", "}"]


@dataclass(frozen=True)
class Ends:
    """The methods of a port that stand for an end by a failed assertion: their names in the text, and the stop's
    number."""

    numbers: dict[str, int]


def ends_of(ported: Ported) -> Ends:
    found = [method for method in ported.program.methods() if method.origin.startswith("stop ")]
    return Ends({repr(method): int(method.origin.split()[1]) for method in found})


def with_ends(program: tree.Program, ends: Ends) -> None:
    """Lets these methods end the program as C++ does, in place of a division by zero."""
    for method in program.methods():
        number = ends.numbers.get(repr(method))
        if number is not None:
            method.body = tree.Block((tree.Return(tree.Word(f"stopped({number}L)")),))
