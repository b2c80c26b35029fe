"""Not proved (../README.md). The command line: g++'s words as they stand, and the driver's own, which begin with two
dashes."""

import argparse
import os
import shlex
from dataclasses import dataclass, field

from .judging import Runner

SOURCES = (".cc", ".cpp", ".cxx", ".c++", ".cp", ".C")
# Words of g++ whose value may be the next word.
VALUED = (
    "-o -I -D -U -L -l -x -include -imacros -isystem -iquote -idirafter -iprefix -iwithprefix -isysroot -MF -MT -MQ "
    "-Xlinker -Xpreprocessor -Xassembler -T -u -z -e -B -wrapper -aux-info --param -G"
).split()
# What asks for anything but a program, or for a look at the user's own text: g++ does it alone.
EXACTLY = (
    "-c",
    "-S",
    "-E",
    "-M",
    "-MM",
    "-fsyntax-only",
    "-shared",
    "-r",
    "-###",
    "-x",
    "-pg",
    "--coverage",
    "-O0",
    "-Og",
    "-v",
)
EXACT_BEGINNINGS = (
    "--version",
    "--help",
    "-dump",
    "-print-",
    "-fsanitize",
    "-fprofile",
    "-ftest-coverage",
    "@",
    "--target-help",
    "-Q",
)
# Words that say which text is read, and those that say for which machine it is compiled.
OF_READING = ("-I", "-D", "-U", "-isystem", "-iquote", "-include")
OF_CODE = ("-m", "-g")
SECONDS = 60


@dataclass
class Words:
    """A command line that was read."""

    gxx: list[str] = field(default_factory=list)
    sources: list[str] = field(default_factory=list)
    others: list[str] = field(default_factory=list)
    out: str = "a.out"
    # Of g++'s words those for the reader of the text, and those for the compiler of the built program.
    reading: list[str] = field(default_factory=list)
    code: list[str] = field(default_factory=list)
    is_exact: bool = False
    report: str = ""
    why: int = 0
    remarks: bool = False
    must: bool = False
    check: bool = True
    any_speed: bool = False
    # What the program is called with where it is run.
    arguments: tuple[str, ...] = ()
    json: bool = False
    # A text of the language itself, of which a report is made.
    language: str = ""
    seconds: int = SECONDS

    def has_shares(self) -> bool:
        """Whether somebody reads how much of the run lies where."""
        return bool(self.report) or self.json

    def runner(self) -> Runner:
        return Runner(self.seconds, self.arguments)

    def is_left_to_gxx(self) -> bool:
        return self.is_exact or not self.sources or bool(self.others)


USAGE = (
    "commute++ [word of g++ ..] FILE .. [-o OUT] [--report PAGE] [--remarks] [--why LINE] [--json]\n"
    "                 [--must-parallel] [--check ARGUMENTS] [--no-check] [--any-speed] [--check-seconds N]\n"
    "       commute++ --language FILE [--report PAGE] [--remarks] [--why LINE] [--json]"
)
EPILOG = """example:
  commute++ -O2 galaxy.cc -o galaxy --report galaxy.html
  COMMUTE_THREADS=4 ./galaxy

All other words are g++'s. OUT is there, and the status is 0, whenever g++ makes a
program: where nothing of it can run in parallel, where the built program would write
other bytes or isn't faster, OUT is what g++ makes, and the last line says why. With
-c, -E, -S and their like, and with objects or libraries among the files, it is g++
exactly; so name all files of a program in one command.

Known are classes, templates, vectors, whole numbers and prints; no floating point, no
input and no files. What isn't known is told by its line. The program is run some
times while it is built, so that both can be compared and timed.

OUT runs by as many threads as the process may use processors, or as COMMUTE_THREADS
says.

What is proved is that the marked calls may run in any order, of the ported text. The
rest is checked at each build, by running it.

statuses:
  0  OUT is there
  1  g++ refuses the program; or, with --must-parallel, OUT doesn't run in parallel
  2  the words of the command are wrong
"""


def parser() -> argparse.ArgumentParser:
    made = argparse.ArgumentParser(
        prog="commute++",
        usage=USAGE,
        description="Compiles serial C++ as g++ does; what provably may run in parallel does.",
        epilog=EPILOG,
        formatter_class=argparse.RawDescriptionHelpFormatter,
        allow_abbrev=False,
        add_help=False,
    )
    made.add_argument("--help", action="help", help="says this")
    made.add_argument(
        "--report",
        metavar="PAGE",
        help="writes what runs in parallel, and why the rest doesn't: a page (.html), or text",
    )
    made.add_argument(
        "--remarks", action="store_true", help="says it of each loop and recursion on standard error, as compilers do"
    )
    made.add_argument(
        "--why", metavar="LINE", type=int, help="says all that stands in the way of the loop or recursion at the line"
    )
    made.add_argument(
        "--json", action="store_true", help="says on standard output, as one value of JSON, all that the report has"
    )
    made.add_argument("--must-parallel", action="store_true", help="status 1 where OUT doesn't run in parallel")
    _add_check(made)
    made.add_argument(
        "--language",
        metavar="FILE",
        help="makes the same report of a text of the language of commute; OUT isn't made",
    )
    return made


def _add_check(made: argparse.ArgumentParser) -> None:
    """Adds the words that say how what is built is checked."""
    made.add_argument(
        "--check", metavar="ARGUMENTS", default="", help="what the program is called with where it is run"
    )
    made.add_argument(
        "--no-check", action="store_true", help="neither runs the user's program nor compares or times the built one"
    )
    made.add_argument(
        "--any-speed", action="store_true", help="gives the built program whether or not it is faster; times nothing"
    )
    made.add_argument(
        "--check-seconds",
        metavar="N",
        type=int,
        default=SECONDS,
        help=f"the longest that a run may take; {SECONDS} if not said",
    )


def _split(arguments: str) -> tuple[str, ...]:
    try:
        return tuple(shlex.split(arguments))
    except ValueError as error:
        parser().error(f"argument --check: {error}")


def read(given: list[str]) -> Words:
    """The words of a command line. Those of the driver are read by argparse, which ends the command where they are
    wrong."""
    if not given or "--help" in given:
        parser().parse_args(["--help"])
    own, rest = parser().parse_known_args(given)
    made = Words(
        gxx=rest,
        report=own.report or "",
        why=own.why or 0,
        remarks=own.remarks,
        must=own.must_parallel,
        check=not own.no_check,
        any_speed=own.any_speed,
        arguments=_split(own.check),
        json=own.json,
        language=own.language or "",
        seconds=max(1, own.check_seconds),
    )
    _look_at(made, rest)
    return made


def _look_at(made: Words, rest: list[str]) -> None:
    at = 0
    while at < len(rest):
        word, at = rest[at], at + 1
        value = ""
        if word in VALUED and at < len(rest):
            value, at = rest[at], at + 1
        if word == "-o":
            made.out = value
        elif word.startswith("-o") and len(word) > 2:
            made.out = word[2:]
        elif word in EXACTLY or word.startswith(EXACT_BEGINNINGS):
            made.is_exact = True
        elif word.startswith(OF_READING):
            made.reading += [word, value] if value else [word]
        elif word.startswith(OF_CODE) or word == "-O3":
            made.code.append(word)
        elif not word.startswith("-"):
            (made.sources if os.path.splitext(word)[1] in SOURCES else made.others).append(word.removeprefix("./"))
        elif word == "-":
            made.is_exact = True
