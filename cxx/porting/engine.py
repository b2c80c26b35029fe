"""Not proved (README.md). The program that is asked: what the variable COMMUTE names, or else the project's own."""

import os
import subprocess
from dataclasses import dataclass

from .refusals import Unported

PROJECT = os.path.dirname(os.path.dirname(os.path.dirname(os.path.abspath(__file__))))
BUDGET = 1000000000


@dataclass
class Answer:
    lines: list[str]
    status: int


def ask(text: str, *words: str) -> Answer:
    """What the program answers on the text."""
    program = os.environ.get("COMMUTE") or os.path.join(PROJECT, "commute")
    try:
        done = subprocess.run([program, *words], input=text.encode(), stdout=subprocess.PIPE, check=False)
    except OSError as error:
        raise Unported(
            [f"{program}: {error.strerror}; build the project, or name a program by COMMUTE"], True
        ) from None
    return Answer(done.stdout.decode(errors="replace").splitlines(), done.returncode)
