"""The tutorial, gone through in a folder of its own: its files are written as it says, and each of its commands is run."""

import os
import re
import shutil
import subprocess
import sys
import tempfile
from collections.abc import Iterator
from pathlib import Path

from docs_crates import ROOT
from docs_shown import METHOD, parts

TUTORIAL = ROOT / "docs" / "tutorial.md"
SECONDS = 120
# What a shell tells of times, which is another one each time.
TIMES = re.compile(r"^(?:real|user|sys)\s.*\n", re.M)
FILE = re.compile(r"`(\w+\.cc)`")
WHOLE = re.compile(r"^(class (\w+) \{\n.*?^\};\n|int main\(\) \{\n.*?^\}\n)", re.M | re.S)
# What a command may want that a machine may lack.
NEEDS = {"native/build": "g++", "./many": "g++"}


def with_text(source: str, form: str, text: str) -> str:
    """The source with a text in the place of the first one that has the form."""
    return re.sub(form, lambda _: text, source, count=1, flags=re.M | re.S)


def changed(source: str, fragment: str) -> str:
    """The text with the classes, the `main` or the methods of a fragment in the place of its own of that name."""
    wholes = WHOLE.findall(fragment)
    for text, name in wholes:
        form = rf"^class {name} \{{\n.*?^\}};\n" if name else r"^int main\(\) \{\n.*?^\}\n"
        source = with_text(source, form, text)
    methods = {found.group(1): found.group(0) for found in METHOD.finditer(source)}
    for found in METHOD.finditer("" if wholes else fragment):
        source = source.replace(methods[found.group(1)], found.group(0))
    return source


def put(folder: Path, name: str, block: str) -> None:
    """Writes the file that a block is, or changes the one that it is a part of."""
    path = folder / name
    path.write_text(changed(path.read_text(), block) if path.exists() else block)


def lacking(command: str) -> str | None:
    """The tool that a command needs and this machine hasn't got."""
    return next((tool for word, tool in NEEDS.items() if command.startswith(word) and shutil.which(tool) is None), None)


def gone_through(page: Path, program: str) -> Iterator[tuple[str, bool]]:
    """Each command of the page, and whether it writes what stands below it."""
    with tempfile.TemporaryDirectory() as made:
        folder = Path(made)
        for entry in ROOT.iterdir():
            if entry.name != "commute":
                (folder / entry.name).symlink_to(entry)
        (folder / "commute").symlink_to(program)
        name = None
        for kind, line, text in parts(page.read_text()):
            if kind == "text":
                found = FILE.findall(text)
                name = found[0] if found and text.rstrip().endswith(":") else None
            elif kind == "block" and name and not text.startswith("$ "):
                put(folder, name, text)
            elif kind == "block":
                yield from commands(text, f"{page.name}:{line}", folder, program)


def commands(text: str, where: str, folder: Path, program: str) -> Iterator[tuple[str, bool]]:
    for shown in re.split(r"(?m)^\$ ", text)[1:]:
        command, _, due = shown.partition("\n")
        if tool := lacking(command):
            print(f"{where}: skipped, since {tool} is not there: {command}", file=sys.stderr)
            continue
        words = ["sh", "-c", command.removeprefix("time ")]
        done = subprocess.run(
            words, cwd=folder, env={**os.environ, "COMMUTE": program}, capture_output=True, timeout=SECONDS, check=False
        )
        yield f"{where} {command}", done.stdout.decode() == TIMES.sub("", due)
