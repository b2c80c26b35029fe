"""Not proved: how a program of the language becomes C++ over the headers in ../runtime.

The text that `commute emit` writes is read (reading.py) as a tree (tree.py). For what is marked in it the fields get
kinds (extents.py, kinds.py), and everything is written as C++ (unit.py): each method as it stands, and once more so
that it shares its work. building.py asks for the text and compiles the result. Other tools use these:

    text = emitted("program.cc")                 # with marks
    program = read(text)                         # a tree.Program
    unit = written(program, Options(), pairs_of(text))    # C++ that includes program.h
    compiled(unit, "out", Compiler())            # by g++ or clang++
"""

from .building import Compiler, Fault, compiled, emitted, pairs_of
from .options import Options
from .reading import read
from .unit import written

__all__ = ["Compiler", "Fault", "Options", "compiled", "emitted", "pairs_of", "read", "written"]
