#!/usr/bin/env python3
"""Proves the crates of the repository it is run in, builds the program and runs it, as `rt ci` of the kit does, and spares what proves nothing.

usage: proving.py RT

RT is the path of the kit's command. What is spared: the build of the program by Rattle's own compiler, beside the one by LLVM that is
kept, with its run; a second pass of the front end over the program between its proof and its build; and walks over every path through
the graph of the crates, since each crate's list of those below it is remembered. A kit that names its parts otherwise proves
without that. The gate (`.ci/run`) spares nothing.
"""

from __future__ import annotations

import importlib.machinery
import importlib.util
import inspect
import os
import sys
from types import ModuleType
from typing import Any, Callable


def loaded(path: str) -> ModuleType:
    """The kit's command as a module."""
    sys.dont_write_bytecode = True
    loader = importlib.machinery.SourceFileLoader("rtmain", path)
    spec = importlib.util.spec_from_loader("rtmain", loader)
    assert spec is not None
    made = importlib.util.module_from_spec(spec)
    sys.modules["rtmain"] = made
    loader.exec_module(made)
    return made


def remembered(below: Callable[[Any], list[Any]]) -> Callable[[Any], list[Any]]:
    """The same list of the crates below one, walked once for each crate as long as its own line names the same."""

    def remembering(crate: Any) -> list[Any]:
        known = vars(crate).get("known_below")
        if known is None or known[0] != crate.deps:
            known = crate.known_below = ([*crate.deps], below(crate))
        return [*known[1]]

    return remembering


def in_one_go(ci: Callable[[Any, list[str], bool], int], toolchain: str) -> Callable[[Any, list[str], bool], int]:
    """Proves a program and builds it by LLVM in one call, as the kit does with tests. Where there is no second program the kit runs the
    first alone, and keeps neither for its gate."""

    def proving(crate: Any, flags: list[str], tests: bool) -> int:
        if tests or not crate.is_program:
            return ci(crate, flags, tests)
        made = f"out/{crate.name}"
        words = [*crate.words(flags, keeps=False), "--toolchain", toolchain, "--backend", "llvm", "-o", f"{made}.o"]
        return int(crate.prove(["build", *words]) or crate.link(f"{made}.o", made))

    return proving


def spared(rt: ModuleType) -> None:
    """Puts this in the place of the kit's own parts, where it has them."""
    library, crate = rt.rtlib.Crate, rt.Crate
    if (
        [*inspect.signature(crate.ci).parameters] != ["self", "flags", "tests"]
        or not callable(crate.prove)
        or not callable(crate.link)
    ):
        raise AttributeError("ci")
    library.below = remembered(library.below)
    crate.ci = in_one_go(crate.ci, f"{rt.KIT}/toolchain")


def main(path: str) -> int:
    real = os.path.realpath(path)
    try:
        rt = loaded(real)
        spared(rt)
    except (AttributeError, ImportError, OSError, SyntaxError):
        os.execv(path, [path, "ci"])
    return int(rt.main(["ci"]))


if __name__ == "__main__":
    sys.exit(main(sys.argv[1]) if len(sys.argv) == 2 else __doc__)
