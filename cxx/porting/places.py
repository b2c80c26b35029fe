"""Not proved (README.md). A place in the user's files."""

from dataclasses import dataclass


@dataclass(frozen=True, slots=True)
class Place:
    """A file, and a line and a column that count from 1; line 0 is no place."""

    file: str
    line: int
    column: int

    def __str__(self) -> str:
        return f"{self.file}:{self.line}:{self.column}" if self.line else (self.file or "the program")


NOWHERE = Place("", 0, 0)
