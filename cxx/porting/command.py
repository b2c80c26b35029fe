"""Not proved (README.md). The command lines of `port` and `told`, their statuses, and what they say on standard
error."""

import argparse
import os
import re
import sys
import threading
from typing import Callable

from . import check, map, orders, told
from .capacities import fitted
from .port import Ported, Porter
from .shaping.shaped import shaped
from .refusals import FAULTS, Unported

DONE, REFUSED, USAGE, DIFFERS, UNCHECKED, FAULT = 0, 1, 2, 3, 4, 5
DEEP, STACK = 100000, 512 * 1024 * 1024
STATUSES = """statuses:
  0  done
  1  the program isn't ported: each construct that isn't known is told by its place, with what to write instead
  2  the words of the command are wrong
  3  not ported: the run of the ported text doesn't write what the program writes; the first difference is told
  4  it couldn't be checked: g++ refuses the program, it doesn't end, or it passes a limit of the language
  5  something is missing, or a file can't be read or written
"""


def parser(name: str, what: str) -> argparse.ArgumentParser:
    made = argparse.ArgumentParser(
        prog=name,
        description=what,
        epilog=STATUSES,
        formatter_class=argparse.RawDescriptionHelpFormatter,
        allow_abbrev=False,
    )
    made.add_argument("files", nargs="+", metavar="FILE", help="a file of C++; several files are one program")
    made.add_argument(
        "-I", action="append", default=[], metavar="DIR", dest="folders", help="looks for headers in DIR too"
    )
    made.add_argument(
        "-D", action="append", default=[], type=_macro, metavar="NAME[=VALUE]", dest="macros", help="defines a macro"
    )
    made.add_argument(
        "--plain", action="store_true", help="ports as it stands, without looking for a shape that commutes"
    )
    made.add_argument(
        "--no-check", action="store_true", help="doesn't compare the run of the port with that of the program"
    )
    return made


def _macro(word: str) -> str:
    if not re.match(r"[A-Za-z_]\w*(\([\w, ]*\))?(=|$)", word):
        raise argparse.ArgumentTypeError(f"{word!r} doesn't begin with the name of a macro")
    return word


def files_of(made: argparse.ArgumentParser, given: argparse.Namespace) -> None:
    """Ends where a file is named twice, or the text would be written over one of them."""
    names = [os.path.realpath(file) for file in given.files]
    for file, name in zip(given.files, names):
        if names.count(name) > 1:
            made.error(f"{file} is named twice")
    out = getattr(given, "out", None)
    if out is not None and {os.path.realpath(out), os.path.realpath(out + ".map")} & set(names):
        made.error(f"-o {out} would be written over a file of the program")


def words_of(given: argparse.Namespace) -> list[str]:
    words = [f"-I{folder}" for folder in given.folders] + [f"-D{macro}" for macro in given.macros]
    return words


def ported(given: argparse.Namespace) -> Ported:
    """The port of the files, checked unless that isn't wanted."""
    words = words_of(given)
    porter = Porter(given.files, words, arguments=True)
    made, answer = fitted(porter) if given.no_check else orders.agreed(porter)
    tree = porter.tree()
    if tree.without_arguments:
        print(f"{tree.main.place}: main has arguments; ported is a run without any", file=sys.stderr)
    if given.no_check:
        check.accepted(made, answer)
        print("not checked: whether the port writes what the program writes", file=sys.stderr)
    if porter.backwards:
        shown = check.open_places(made.sites.open_orders)
        print(f"{shown}: C++ leaves open which argument is evaluated first; ported as g++ does it", file=sys.stderr)
    return made if given.plain else shaped(porter, made, answer)


def guarded(action: Callable[[], None]) -> int:
    """The status of a command; no fault is told by a traceback. Trees of programs nest deeply, so it has a stack of
    its own."""
    sys.setrecursionlimit(DEEP)
    threading.stack_size(STACK)
    status = [FAULT]
    thread = threading.Thread(target=lambda: status.append(_status(action)))
    thread.start()
    try:
        thread.join()
    except KeyboardInterrupt:
        os._exit(130)
    return status[-1]


def _status(action: Callable[[], None]) -> int:
    try:
        action()
        return DONE
    except Unported as unported:
        return _failed("\n".join(unported.lines), FAULT if unported.missing else REFUSED)
    except check.Differs as differs:
        return _failed(
            ("not ported: " if differs.checked else "") + differs.said, DIFFERS if differs.checked else UNCHECKED
        )
    except BrokenPipeError:
        # Whoever reads the lines has enough of them.
        os.dup2(os.open(os.devnull, os.O_WRONLY), sys.stdout.fileno())
        return DONE
    except OSError as error:
        return _failed(f"{error.filename}: {error.strerror}", FAULT)
    except RecursionError:
        return _failed("the program nests too deeply", REFUSED)
    except FAULTS as fault:
        return _failed(
            f"not ported, by a fault of the port itself ({type(fault).__name__}: {fault}); please report it", REFUSED
        )


def _failed(said: str, status: int) -> int:
    print(said, file=sys.stderr)
    return status


def port() -> int:
    """`cxx/port`."""
    made = parser("port", "Ports serial C++ to the language of commute, and checks that both write the same.")
    made.add_argument(
        "-o", metavar="TEXT", dest="out", help="where the text goes, and TEXT.map beside it; else FILE.ported.cc"
    )
    given = made.parse_args()
    files_of(made, given)

    def action() -> None:
        result = ported(given)
        out = given.out or os.path.splitext(os.path.basename(given.files[0]))[0] + ".ported.cc"
        with open(out, "w", encoding="utf-8") as text:
            text.write(str(result.text))
        with open(out + ".map", "w", encoding="utf-8") as text:
            text.write(map.text_of(result))

    return guarded(action)


def tell() -> int:
    """`cxx/told`."""
    made = parser(
        "told", "Tells which loops and functions of serial C++ may run in parallel, and what stands in the others' way."
    )
    made.add_argument(
        "--pairs", action="store_true", help="tells each pair of functions whose order was looked at, too"
    )
    given = made.parse_args()
    files_of(made, given)

    def action() -> None:
        result = ported(given)
        lines = told.pair_lines(result) if given.pairs else []
        for line in lines + told.report(result):
            print(line)
        sys.stdout.flush()

    return guarded(action)
