"""How the page of the commands becomes a manual page."""

from __future__ import annotations

import shutil
import subprocess
from pathlib import Path

import pytest
from manual_page import DRIVER_MADE, MADE, made, made_of_driver, sections

PAGE = """# Commands

First, with `code`, **weight** and [a link](other.md).

## One `part`

| words | reads |
|---|---|
| `run` | nothing |

```
a - b

.c
```

- a point
  that goes on
- another
"""


def test_each_form_of_the_page() -> None:
    assert list(sections(PAGE)) == [
        *(".PP", r"First, with \fBcode\fR, \fBweight\fR and a link."),
        *(".SH ONE PART", ".TP", r"\fBrun\fR", "reads: nothing."),
        *(".PP", ".in +4n", ".nf", r"\&a \- b", r"\&", r"\&.c", ".fi", ".in"),
        *(r".IP \(bu 4", "a point", "that goes on", r".IP \(bu 4", "another"),
    ]


def test_each_command_stands_in_the_synopsis() -> None:
    synopsis = made().partition(".SH SYNOPSIS\n")[2].partition(".SH ")[0]
    for word in ("run", "pairs", "plan", "emit", "gen", "load", "trace", "verify"):
        assert f".B commute {word}" in synopsis


def test_each_word_of_the_driver_is_told() -> None:
    text = made_of_driver()
    for word in ("report", "why", "json", "must-parallel", "check", "language"):
        assert rf"\fB\-\-{word.replace('-', chr(92) + '-')}" in text


@pytest.mark.skipif(shutil.which("groff") is None, reason="groff isn't installed")
@pytest.mark.parametrize("page", [MADE, DRIVER_MADE])
def test_it_is_laid_out_without_a_warning(page: Path) -> None:
    done = subprocess.run(["groff", "-man", "-Tutf8", "-ww", page], capture_output=True, text=True)
    assert (done.returncode, done.stderr) == (0, "")
