"""Not proved (README.md). What a program may not have, each with its place and what to write instead."""

from dataclasses import dataclass, field

from .places import Place


# What a construct that nobody thought of may end in; its place is refused.
FAULTS = (KeyError, AttributeError, AssertionError, IndexError, TypeError, ValueError, StopIteration)


NOT_KNOWN = "a construct that isn't known"


class Refused(Exception):
    """One construct that isn't ported: where, what, and what to write instead."""

    def __init__(self, place: Place, what: str, instead: str = "", follows: bool = False) -> None:
        super().__init__(what)
        self.place, self.what, self.instead = place, what, instead
        # Whether it may be the consequence of another refusal, and is told only where there is none.
        self.follows = follows

    def __str__(self) -> str:
        return f"{self.place}: {self.what}" + (f"; {self.instead}" if self.instead else "")


class PutTogether(Refused):
    """A string is put together: the program is read with the other face of the stub header's string."""

    def __init__(self, place: Place) -> None:
        super().__init__(place, "a string that is put together", "print the parts one after the other")


class Unported(Exception):
    """The program isn't ported: the lines that say why, and whether it is because something is missing."""

    def __init__(self, lines: list[str], missing: bool = False) -> None:
        super().__init__("\n".join(lines))
        self.lines, self.missing = lines, missing


@dataclass
class Refusals:
    """The refusals of a program, all of them; each line is told once."""

    found: list[Refused] = field(default_factory=list)

    def add(self, refused: Refused) -> None:
        self.found.append(refused)

    def raise_if_any(self) -> None:
        if self.found:
            told = [one for one in self.found if not one.follows] or self.found
            ordered = sorted(told, key=lambda one: (one.place.file, one.place.line, one.place.column))
            raise Unported(list(dict.fromkeys(map(str, ordered))))
