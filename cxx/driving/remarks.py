"""Not proved (../README.md). What the driver says, on standard error, in the form of compilers: `FILE:LINE:COLUMN:
remark: ..`."""

import re
import sys
import threading

NAME = "commute++"
PLACED = re.compile(r"^(?P<place>[^\s:]+:\d+(?::\d+)?): (?P<what>.*)$", re.S)


def remark(where: str, what: str) -> None:
    """`where` is a place, or a file."""
    print(f"{where}: remark: {what}", file=sys.stderr)


def placed(file: str, what: str) -> tuple[str, str]:
    """A text of the kind `PLACE: what` in two; what has no place is of the file."""
    found = PLACED.match(what)
    return (found["place"], found["what"]) if found else (file, what)


# What takes less is over before it is read, in seconds.
SHORT = 2.0


class Progress:
    """What is being done, on a terminal alone, from two seconds on; the next word takes its place."""

    def __init__(self) -> None:
        self._word, self._shows = "", False
        self._timer = threading.Timer(SHORT, self._begin)
        self._timer.daemon = True
        if sys.stderr.isatty():
            self._timer.start()

    def _begin(self) -> None:
        self._shows = True
        self._show()

    def _show(self) -> None:
        print(f"\r\x1b[K{NAME}: {self._word} ..", end="", file=sys.stderr, flush=True)

    def say(self, what: str) -> None:
        self._word = what
        if self._shows:
            self._show()

    def end(self) -> None:
        self._timer.cancel()
        if self._shows:
            self._shows = False
            print("\r\x1b[K", end="", file=sys.stderr, flush=True)
