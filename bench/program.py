"""The program that is measured by the scripts of this folder, and those of checks/ that tell seconds: a proved one."""

from __future__ import annotations

import os
import subprocess
import sys

HERE = os.path.dirname(os.path.abspath(__file__))
UNCHECKED = ("quick", "quick-unchecked")


def proved_program(words: list[str]) -> str:
    """The path that the first word names, or that of the proved program; where that is none the script ends with a line."""
    out = os.path.realpath(os.path.join(HERE, "..", "crates", "commute", "out"))
    if words:
        folder, name = os.path.split(os.path.realpath(words[0]))
        if folder == out and name in UNCHECKED:
            sys.exit(
                f"{words[0]}: its proofs weren't checked on this machine, and what is measured is a proved program: ./commute --prove makes one"
            )
        return words[0]
    asked = subprocess.run([os.path.join(HERE, "..", "build", "which"), "--proved"], stdout=subprocess.PIPE, text=True)
    if asked.returncode != 0:
        sys.exit(asked.returncode)
    return asked.stdout.rstrip("\n")
