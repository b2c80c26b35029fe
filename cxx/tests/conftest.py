# Not proved (../README.md).
"""What all tests of cxx/ need: the package on the path, and the programs of others."""

import os
import shutil
import sys
from pathlib import Path

import pytest

HERE = Path(__file__).resolve().parent
sys.path[:0] = [str(HERE.parent), str(HERE), str(HERE.parent.parent / "native")]
sys.setrecursionlimit(100000)


def pytest_collection_modifyitems(items: list[pytest.Item]) -> None:
    """Without clang, g++ or a program that is built already nothing can be ported; no test begins a build."""
    missing = [name for name in ("g++",) if shutil.which(name) is None]
    if not any(shutil.which(name) for name in ("clang++-14", "clang++")):
        missing.append("clang++")
    program = os.environ.get("COMMUTE", str(HERE.parent.parent / "crates" / "commute" / "out" / "commute"))
    if not os.access(program, os.X_OK):
        missing.append("a built program of commute (or COMMUTE)")
    os.environ["COMMUTE"] = program
    if missing:
        mark = pytest.mark.skip(reason=f"{', '.join(missing)} isn't there")
        for item in items:
            item.add_marker(mark)
