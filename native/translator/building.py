"""Not proved: asks the program for its text with marks, and compiles what is made of it."""

from __future__ import annotations

import functools
import os
import pathlib
import shutil
import subprocess
import tempfile
from dataclasses import dataclass, field

NATIVE = pathlib.Path(__file__).resolve().parent.parent
RUNTIME = NATIVE / "runtime"
COMMUTE = NATIVE.parent / "commute"


# Intel's processors from Skylake to Cascade Lake run a short loop at half the speed where its jump lies over a border of 32
# bytes. So assemblers are asked to put none there: the one of binutils, and clang's own.
BORDERS = ("-Wa,-mbranches-within-32B-boundaries", "-mbranches-within-32B-boundaries")


@functools.lru_cache(maxsize=None)
def kept_off_borders(compiler: str) -> tuple[str, ...]:
    """The word for that, where the compiler knows one for its target."""
    for word in BORDERS if shutil.which(compiler) else ():
        asking = [compiler, word, "-x", "assembler", "-c", os.devnull, "-o", os.devnull]
        if subprocess.run(asking, capture_output=True, check=False).returncode == 0:
            return (word,)
    return ()


class Fault(Exception):
    """What is told a user who has no program in the end."""


@dataclass(frozen=True)
class Compiler:
    """How C++ is compiled: the compiler (g++ or clang++) and words of its command line. `first` holds folders that are
    looked into before those of the runtime, where a precompiled header may lie."""

    name: str = field(default_factory=lambda: os.environ.get("CXX", "g++"))
    words: tuple[str, ...] = ()
    first: tuple[str, ...] = ()

    def command(self) -> list[str]:
        folders = [word for folder in (*self.first, str(RUNTIME)) for word in ("-I", folder)]
        borders = kept_off_borders(self.name)
        return [self.name, "-std=c++17", "-O2", "-fwrapv", "-pthread", "-Wno-overflow", *borders, *folders, *self.words]


def asked(command: str, text: bytes) -> tuple[int, str]:
    """The status of a command of the program, and what it writes. The program is ../commute, or what the variable
    COMMUTE names."""
    program = os.environ.get("COMMUTE", str(COMMUTE))
    try:
        done = subprocess.run([program, command], input=text, stdout=subprocess.PIPE, check=False)
    except OSError as error:
        raise Fault(f"{error.filename}: {error.strerror}") from error
    return done.returncode, done.stdout.decode(errors="replace")


def emitted(source: str) -> str:
    """The text of a source with its marks."""
    try:
        text = pathlib.Path(source).read_bytes()
    except OSError as error:
        raise Fault(f"{error.filename}: {error.strerror}") from error
    status, told = asked("emit", text)
    if status != 0:
        raise Fault(f"{source}: {told.strip() or f'emit ended with status {status}'}")
    return told


def pairs_of(text: str) -> str:
    """What `pairs` says of a text that was emitted: nothing, where that passes the limits on texts."""
    status, told = asked("pairs", text.encode())
    return told if status == 0 else ""


def compiled(text: str, out: str, compiler: Compiler) -> None:
    """Makes a program of a text of C++."""
    if shutil.which(compiler.name) is None:
        raise Fault(f"{compiler.name} isn't there: native/build needs a C++17 compiler, such as Debian's package g++")
    with tempfile.TemporaryDirectory() as folder:
        source = pathlib.Path(folder) / "program.cc"
        source.write_text(text, encoding="utf-8")
        # Libraries that nothing is taken from aren't loaded.
        done = subprocess.run([*compiler.command(), str(source), "-o", out, "-Wl,--as-needed"], check=False)
    if done.returncode != 0:
        raise Fault(f"{compiler.name} ended with status {done.returncode}")
