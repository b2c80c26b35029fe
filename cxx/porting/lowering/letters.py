"""Not proved (README.md). The letters of literal strings, for programs that look at them.

All literals stand one behind the other in one array of `Program`, each with a zero behind it; another array says where
each begins. Both are filled at the start of main, and are there only where a program asks for a letter.
"""

from .. import form
from ..places import Place
from ..sites import Sites
from ..types import NUMBERS
from .context import Body, Container, Out
from .shapes import Shapes

LETTERS, STARTS = "letters_", "starts_"


def of(body: Body, string: form.Expr) -> Container:
    """The letters of a literal string, by its number."""
    body.tables.letters = True
    start = form.Item(form.Root(), STARTS, string, form.LONG)
    return Container(form.Root(), LETTERS, None, NUMBERS["char"], start)


def moved(held: Container) -> tuple[Container, form.Expr]:
    """The array of all letters, and where there the string begins."""
    assert held.offset is not None
    return Container(held.object, held.items, None, held.of), held.offset


def filled(shapes: Shapes, sites: Sites, place: Place) -> Out:
    """The two arrays with the literals of the program."""
    out: Out = []
    at = 0
    for number, text in enumerate(["", *sites.strings]):
        if at:
            out.append(
                form.Put(form.Item(form.Root(), STARTS, form.Number(number), form.LONG), "", form.Number(at), place)
            )
        for letter in text:
            out.append(
                form.Put(
                    form.Item(form.Root(), LETTERS, form.Number(at), form.LONG), "", form.Number(signed(letter)), place
                )
            )
            at += 1
        at += 1
    shapes.program.slots.append(form.Slot(LETTERS, form.LONG, at, "the letters of literal strings"))
    shapes.program.slots.append(form.Slot(STARTS, form.LONG, len(sites.strings) + 1, "where literal strings begin"))
    return out


def signed(letter: str) -> int:
    """A `char` is a number of 8 bits with sign."""
    code = ord(letter)
    return code - 256 if code > 127 else code
