"""Not proved (README.md). From clang's tree to the typed tree (`tree`).

    declarations   classes, functions, variables, constants and aliases by clang's numbers
    expressions    one expression
    output         what is printed: printf's formats, streams
    statements     one statement, and bodies as they are reached from main
"""

from ..clang import Unit
from ..refusals import Refusals
from ..tree import Program
from .bodies import read_program

__all__ = ["Program", "Refusals", "Unit", "read_program"]
