"""Not proved (../README.md). Where a loop or function of the user's text ends, by its brackets; and which of them lie
in which."""

import re

from porting.reasons import PASSED_ON, Reason

from .findings import AT, Finding, Findings

# Literals and comments have no brackets; what goes over lines is a comment.
PASSED = re.compile(r'"(?:\\.|[^"\\])*"|' + r"'(?:\\.|[^'\\])'|//[^\n]*|/\*.*?\*/", re.S)


def bare(text: str) -> list[str]:
    """The lines of a text without literals and comments."""
    return PASSED.sub(lambda found: re.sub(r"[^\n]", " ", found[0]), text).split("\n")


def end_of(lines: list[str], line: int, column: int) -> int:
    """The last line of the statement or function that begins at a place; the lines have no literals."""
    depth, has_braces = 0, False
    for at in range(line, len(lines) + 1):
        for letter in lines[at - 1][column - 1 if at == line else 0 :]:
            if letter in "({[":
                depth += 1
                has_braces = has_braces or (letter == "{" and depth == 1)
            elif letter in ")}]":
                depth -= 1
            if depth == 0 and (letter == ";" or (letter == "}" and has_braces)):
                return at
    return line


class Ranges:
    """The lines of what was found, in one file."""

    def __init__(self, text: str, file: str, found: Findings) -> None:
        lines = bare(text)
        mine = [one for one in found.all if one.place.file == file and 0 < one.place.line <= len(lines)]
        self.ends = {id(one): end_of(lines, one.place.line, one.place.column) for one in mine}
        self.mine = mine

    def holds(self, outer: Finding, inner: Finding) -> bool:
        if outer is inner or id(outer) not in self.ends or id(inner) not in self.ends:
            return False
        return outer.place.line <= inner.place.line and self.ends[id(inner)] <= self.ends[id(outer)]

    def innermost(self, line: int) -> Finding | None:
        around = [one for one in self.mine if one.place.line <= line <= self.ends[id(one)]]
        return max(around, key=lambda one: (one.place.line, one.place.column)) if around else None

    def outermost(self, ones: list[Finding]) -> list[Finding]:
        """Those that lie in no other of them."""
        return [one for one in ones if not any(self.holds(other, one) for other in ones)]


def rank(found: Findings, texts: dict[str, str]) -> None:
    """Sorts reasons so that the first says most: what no order can mend (it prints, it makes objects, each call goes on
    from the one before it), then what stands within the loop or function itself, then what has another place, then the
    rest. Those alike stay as they are."""
    for file, text in texts.items():
        ranges = Ranges(text, file, found)
        for one in ranges.mine:
            one.reasons.sort(key=lambda reason: _rank(reason, file, one.place.line, ranges.ends[id(one)]))


def _rank(reason: Reason, file: str, first: int, last: int) -> int:
    place = AT.search(reason.said)
    if PASSED_ON in reason.said:
        return 0
    if place is None:
        return 3
    is_within = place["file"] == file and first <= int(place["line"]) <= last
    if is_within and any(word in reason.said for word in (" make objects", " makes objects", " print ", " prints ")):
        return 0
    return 1 if is_within else 2


def texts_of(files: list[str]) -> dict[str, str]:
    """The texts of files, as far as they can be read."""
    made = {}
    for file in dict.fromkeys(files):
        try:
            with open(file, encoding="utf-8", errors="replace") as text:
                made[file] = text.read()
        except OSError:
            continue
    return made
