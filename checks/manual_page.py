"""The manual pages: share/man/man1/commute.1, made from the page of the commands, docs/reference/commands.md, and
share/man/man1/commute++.1, made from that of the driver, docs/guide/driver.md."""

from __future__ import annotations

import re
from collections.abc import Iterator
from pathlib import Path

from sources import ROOT

PAGE = ROOT / "docs" / "reference" / "commands.md"
MADE = ROOT / "share" / "man" / "man1" / "commute.1"
DRIVER_PAGE = ROOT / "docs" / "guide" / "driver.md"
DRIVER_MADE = ROOT / "share" / "man" / "man1" / "commute++.1"
# What stands in front of the page's sections: the words of the script ./commute, which are no command of the program.
FRONT = r""".\" Made by checks/manual from docs/reference/commands.md: change that page and not this one.
.TH COMMUTE 1 "" "commute %VERSION%" "User Commands"
.SH NAME
commute \- run a serial program over linked objects by several workers, with the output of the serial run
.SH SYNOPSIS
%SYNOPSIS%
.br
.B ./commute \-\-prove
.RI [ WORD " ...]"
.SH DESCRIPTION
.B commute
finds the operations and loops of a program over linked objects whose calls may run in any order, and runs them by
several workers. That a run which returns writes what the serial run writes is proved, for every source, number of workers, budget
and interleaving of the threads. Programs are in a small object-based language in C++ syntax.
.SH OPTIONS
.TP
.B \-\-prove
As the first word of the script, which takes it away: proves every crate of the program, builds the program of what was proved, and then
runs the words behind it, if there are any. From then on the proved program runs, until a source changes.
.SH ENVIRONMENT
.TP
.B COMMUTE_UNCHECKED
Where it is set and not empty, the program whose proofs weren't checked is built without run\-time checks (of indices, sums that wrap,
casts, divisors) as the proved one is, and is as fast.
"""
BACK = r""".SH SEE ALSO
.BR g++ (1)
.PP
The pages of
.I docs/
in the repository: the guide for a program of your own, the language, the analysis, what is proved and how.
"""
DRIVER_FRONT = r""".\" Made by checks/manual from docs/guide/driver.md: change that page and not this one.
.TH COMMUTE++ 1 "" "commute %VERSION%" "User Commands"
.SH NAME
commute++ \- compile serial C++ as g++ does, to a program that runs in parallel where that provably may be
.SH SYNOPSIS
.B commute++
.RI [ "word of g++" " ...] " FILE " ..."
.RB [ \-o
.IR OUT ]
.RI [ OPTION " ...]"
.br
.B commute++ \-\-language
.I FILE
.RI [ OPTION " ...]"
.SH DESCRIPTION
"""
DRIVER_BACK = r""".SH SEE ALSO
.BR g++ (1),
.BR commute (1)
"""
BULLET = r"\(bu"


def escaped(text: str) -> str:
    return text.replace("\\", r"\e").replace("-", r"\-")


def styled(text: str) -> str:
    """A line of the page with its marks as those of the manual: quoted words bold, links as their text."""
    text = re.sub(r"\[([^\]]*)\]\([^)]*\)", r"\1", text)
    parts = re.split(r"(`[^`]*`|\*\*[^*]*\*\*)", text)
    shown = "".join(
        rf"\fB{escaped(part.strip('`*'))}\fR" if part[:1] in ("`", "*") and len(part) > 1 else escaped(part)
        for part in parts
    )
    return r"\&" + shown if shown.startswith((".", "'")) else shown


def cells(row: str) -> list[str]:
    return [cell.strip() for cell in row.strip().strip("|").split("|")]


def table(rows: list[str]) -> Iterator[str]:
    """A paragraph for each row: its first cell in front, and the others behind what their column is called."""
    heads = cells(rows[0])
    for row in rows[2:]:
        first, *others = cells(row)
        yield ".TP"
        yield styled(first if first.startswith("`") or " " in first else f"`{first}`")
        yield "; ".join(f"{head}: {styled(cell)}" for head, cell in zip(heads[1:], others)) + "."


def block(lines: list[str]) -> Iterator[str]:
    yield from (".PP", ".in +4n", ".nf")
    yield from (r"\&" + escaped(line) for line in lines)
    yield from (".fi", ".in")


def paragraph(lines: list[str]) -> Iterator[str]:
    """A paragraph, or the points of a list with the lines that belong to each."""
    for at, line in enumerate(lines):
        point = re.match(r"(-|\d+\.) (.*)", line)
        if point:
            yield f".IP {point[1].replace('-', BULLET)} 4"
        elif at == 0:
            yield ".PP"
        yield styled(point[2] if point else line.strip())


def sections(text: str) -> Iterator[str]:
    """What the page says behind its first heading."""
    for part in re.split(r"\n\n(?=(?:[^`]|`(?!``)|```[^`]*```)*$)", text.strip()):
        lines = part.splitlines()
        if lines[0].startswith("## "):
            yield f".SH {styled(lines[0][3:].replace('`', '')).upper()}"
        elif lines[0].startswith("```"):
            yield from block(lines[1:-1])
        elif lines[0].startswith("|"):
            yield from table(lines)
        elif not lines[0].startswith("# "):
            yield from paragraph(lines)


def word_of_usage(word: str) -> str:
    return word if word.islower() else rf"\fI{word}\fB"


def made() -> str:
    text = PAGE.read_text(encoding="utf-8")
    version = (ROOT / "VERSION").read_text(encoding="utf-8").strip()
    usage = re.search(r"^usage: commute (.*)$", text, re.M)
    ways = usage[1].split(" | ") if usage else []
    synopsis = "\n.br\n".join(f".B commute {' '.join(map(word_of_usage, way.split()))}" for way in ways)
    front = FRONT.replace("%VERSION%", version).replace("%SYNOPSIS%", synopsis)
    return front + ".SH THE PROGRAM\n" + "\n".join(sections(text)) + "\n" + BACK


def made_of_driver() -> str:
    version = (ROOT / "VERSION").read_text(encoding="utf-8").strip()
    text = DRIVER_PAGE.read_text(encoding="utf-8")
    return DRIVER_FRONT.replace("%VERSION%", version) + "\n".join(sections(text)) + "\n" + DRIVER_BACK


def pages() -> list[tuple[Path, Path, str]]:
    """Each manual page, the page that it is made from, and what it should be."""
    return [(MADE, PAGE, made()), (DRIVER_MADE, DRIVER_PAGE, made_of_driver())]


def wrong() -> list[str]:
    """A line for each that isn't what its page makes."""
    return [
        f"{at.relative_to(ROOT)} isn't what {page.relative_to(ROOT)} makes: checks/manual write"
        for at, page, text in pages()
        if not at.is_file() or at.read_text(encoding="utf-8") != text
    ]
