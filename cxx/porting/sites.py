"""Not proved (README.md). Sites of prints, and how the lines of a run become the bytes of the C++ program.

The ported text prints the number of a site and then its values, each in a line. The site says what C++ writes: literal
text, and for each value its way: `%` and a format of printf with the bits of its value, `c` a character, `s` a literal
string by its number, `b` a truth value, `d` or `u` and bits a number of a stream, `!` a word that changes the stream.
Between `!open` and `!close` are the letters of a string that is no literal; behind `!close` stands printf's format of it.
"""

import re
from dataclasses import dataclass, field

from .places import Place

Parts = list[str | tuple[str]]


@dataclass
class Stop:
    """An end of the program other than by `main`: a failed assertion with its text, or an exit."""

    place: Place
    text: str
    assertion: bool


@dataclass
class Sites:
    """The prints of a program. Site 0 isn't a print: its value is the exit code."""

    sites: list[Parts] = field(default_factory=lambda: [[]])
    strings: list[str] = field(default_factory=list)
    stops: list[Stop] = field(default_factory=list)
    # Calls whose arguments change something, in an order that C++ leaves open.
    open_orders: list[Place] = field(default_factory=list)

    def add(self, parts: Parts) -> int:
        if parts in self.sites[1:]:
            return self.sites.index(parts, 1)
        self.sites.append(parts)
        return len(self.sites) - 1

    def know(self, texts: set[str]) -> None:
        """The literal strings of the program: their numbers go as they are compared."""
        self.strings = sorted(texts - {""})

    def string(self, text: str) -> int:
        """The number of a literal string; 0 is none, and an empty one."""
        return self.strings.index(text) + 1 if text else 0


EXIT_SITE = 0
TRUTHS = {"true": 1, "false": 0}


@dataclass
class Written:
    """What a run wrote: the bytes of the C++ program, its exit code, and how the run ended where that isn't it."""

    text: str
    code: int
    end: str | None


@dataclass
class _Stream:
    """What words have set of a stream."""

    width: int = 0
    fill: str = " "
    left: bool = False
    hexadecimal: bool = False
    words: bool = False
    # What was written before the letters of a string that is open.
    before: list[str] | None = None

    def pad(self, text: str) -> str:
        width, self.width = self.width, 0
        return text.ljust(width, self.fill) if self.left else text.rjust(width, self.fill)

    def change(self, word: str, value: int) -> None:
        match word:
            case "setw":
                self.width = value
            case "setfill":
                self.fill = chr(value)
            case "left" | "right":
                self.left = word == "left"
            case "hex" | "dec":
                self.hexadecimal = word == "hex"
            case "boolalpha" | "noboolalpha":
                self.words = word == "boolalpha"


def decoded(lines: list[str], sites: Sites) -> Written:
    """The bytes that the C++ program would have written, from the lines of the run of its port."""
    text: list[str] = []
    stream, code, end = _Stream(), 0, None
    rows = iter(lines)
    for line in rows:
        if line.startswith("#") or line == "":
            break
        if not line.isdigit():
            end = line
            break
        site = int(line)
        if site == EXIT_SITE:
            told = next(rows, "spent")
            if not told.lstrip("-").isdigit():
                end = told
                break
            code = int(told) & 255
            continue
        shown: list[str] = []
        for part in sites.sites[site]:
            if isinstance(part, str):
                shown.append(part)
                continue
            told = next(rows, "spent")
            if told in TRUTHS:
                shown.append(_shown(part[0], TRUTHS[told], stream, sites))
            elif told.lstrip("-").isdigit():
                shown.append(_shown(part[0], int(told), stream, sites))
            else:
                # The values of a print are computed before anything of it is written.
                return Written("".join((stream.before or []) + text), code, told)
        text = _gathered(text, shown, sites.sites[site], stream)
    return Written("".join((stream.before or []) + text), code, end)


def _gathered(text: list[str], shown: list[str], parts: Parts, stream: _Stream) -> list[str]:
    """What is written up to here, where the letters of a string are gathered first."""
    match parts:
        case [("!open",)]:
            stream.before = text
            return []
        case [(word,)] if word.startswith("!close") and stream.before is not None:
            whole, before, stream.before = "".join(text), stream.before, None
            return [*before, _padded(word.removeprefix("!close"), whole) if word != "!close" else stream.pad(whole)]
    text += shown
    return text


def _padded(way: str, text: str) -> str:
    """A string by a format of printf."""
    found = re.match(r"%(-?)[+0 #]*(\d*)(?:\.(\d+))?s", way)
    assert found is not None
    text = text if found.group(3) is None else text[: int(found.group(3))]
    width = int(found.group(2) or 0)
    return text.ljust(width) if found.group(1) else text.rjust(width)


def _shown(way: str, value: int, stream: _Stream, sites: Sites) -> str:
    """What a value is written as."""
    if way.startswith("%"):
        return _formatted(way, value, sites)
    if way.startswith("!"):
        stream.change(way[1:], value)
        return ""
    if way == "c":
        return stream.pad(chr(value & 255)) if stream.before is None else chr(value & 255)
    if way == "s":
        return stream.pad(sites.strings[value - 1] if value else "")
    if way == "b":
        return stream.pad(("false", "true")[value] if stream.words else str(value))
    return stream.pad(
        _number(value, way[0] == "d" and not stream.hexadecimal, int(way[1:]), "x" if stream.hexadecimal else "d")
    )


def _number(value: int, signed: bool, bits: int, letter: str) -> str:
    value %= 1 << bits
    if signed and value >> (bits - 1):
        value -= 1 << bits
    return format(value, letter)


def _formatted(way: str, value: int, sites: Sites) -> str:
    found = re.match(r"%([-+0 #]*)(\d*)(?:\.(\d+))?([a-zA-Z])(\d*)$", way)
    assert found is not None
    flags, width, precision, letter, bits = found.groups()
    width_number = int(width or 0)
    if letter == "c":
        text = chr(value & 255)
    elif letter == "s":
        text = sites.strings[value - 1] if value else ""
        text = text[: int(precision)] if precision is not None else text
    else:
        text = _number(value, letter in "di", int(bits), {"x": "x", "X": "X", "o": "o"}.get(letter, "d"))
        sign, digits = ("-", text[1:]) if text.startswith("-") else ("", text)
        if precision is not None:
            digits = digits.rjust(int(precision), "0")
        if "#" in flags and letter in "xX" and value:
            digits = "0" + letter + digits
        if letter in "di" and not sign:
            sign = "+" if "+" in flags else " " if " " in flags else ""
        if "0" in flags and "-" not in flags and precision is None:
            digits = digits.rjust(width_number - len(sign), "0")
        text = sign + digits
    return text.ljust(width_number) if "-" in flags else text.rjust(width_number)
