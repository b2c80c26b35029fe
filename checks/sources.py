"""The files of code that the repository has, or is about to have: what git tracks, and what it doesn't leave out."""

from __future__ import annotations

import os
import pathlib
import subprocess
from collections.abc import Iterator

ROOT = pathlib.Path(__file__).resolve().parent.parent


def tracked() -> list[str] | None:
    """What git says; nothing where it isn't there, or doesn't trust whose folder this is."""
    words = ["git", "ls-files", "-z", "--cached", "--others", "--exclude-standard"]
    try:
        done = subprocess.run(words, cwd=ROOT, stdout=subprocess.PIPE, stderr=subprocess.DEVNULL, check=True)
    except (OSError, subprocess.CalledProcessError):
        return None
    return done.stdout.decode().split("\0")


def walked() -> Iterator[str]:
    """All files but those that are made."""
    for at, folders, names in os.walk(ROOT):
        folders[:] = [it for it in folders if it not in (".git", "out", "__pycache__")]
        yield from (os.path.relpath(os.path.join(at, name), ROOT) for name in names)


def files() -> Iterator[str]:
    """Their names from the top of the repository, in order."""
    for name in sorted({*(tracked() or walked())} - {""}):
        if (ROOT / name).is_file() and not name.startswith("unlanded/"):
            yield name


def is_python(path: pathlib.Path) -> bool:
    """Whether a file is Python by its ending, or a script of Python without one."""
    if path.suffix:
        return path.suffix == ".py"
    with open(path, "rb") as it:
        head = it.readline(100)
    return head.startswith(b"#!") and b"python" in head


def tools() -> Iterator[str]:
    """The Python files among them."""
    return (name for name in files() if not name.startswith("crates/") and is_python(ROOT / name))


def listed(path: pathlib.Path) -> list[str]:
    """The lines of a list that are no comment."""
    lines = path.read_text(encoding="utf-8").splitlines()
    return [line for line in lines if line and not line.startswith("#")]
