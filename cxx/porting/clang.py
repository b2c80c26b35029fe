"""Not proved (README.md). Clang's own tree of one unit: its JSON, with the place of each node.

The user's files are read as one unit by the real preprocessor. Of the standard library there are stub headers
(`include/`), so that the tree stays small and says exactly what of the library is known.
"""

import json
import os
import re
import shutil
import subprocess
import tempfile
from typing import Any, Iterator

from . import lacking as lacking_of
from .places import NOWHERE, Place
from .refusals import Unported

Node = dict[str, Any]

INCLUDE = os.path.join(os.path.dirname(os.path.dirname(os.path.abspath(__file__))), "include")
ASKED = (
    "-fsyntax-only", "-w", "-ferror-limit=0", "-fno-caret-diagnostics", "-Xclang", "-ast-dump=json", "-x", "c++", "-",
)  # fmt: skip
COMPILERS = ("clang++-14", "clang++")
STANDARD = "-std=c++17"


class Unit:
    """The tree of a unit, and where each of its nodes stands."""

    def __init__(self, root: Node) -> None:
        self.root = root
        self._file, self._line = "", 0
        self._places(root)
        self._names: dict[str, str] = {}

    def _places(self, node: Node) -> None:
        """Clang leaves out the file and the line of a place where they are those of the place before it."""
        for key, value in node.items():
            if key in ("loc", "range"):
                self._fill(value)
            elif key == "inner":
                for child in value:
                    self._places(child)

    def _fill(self, where: Node) -> None:
        if "offset" in where:
            self._file = where.get("file", self._file)
            self._line = where.get("line", self._line)
            where["file"], where["line"] = self._file, self._line
        else:
            for value in where.values():
                if isinstance(value, dict):
                    self._fill(value)

    def place(self, node: Node) -> Place:
        """Where the node begins; of a macro where it is used."""
        begin = node.get("range", {}).get("begin", {})
        begin = begin.get("expansionLoc", begin)
        return self._shown(begin) if "line" in begin else NOWHERE

    def name_place(self, node: Node) -> Place:
        """Where the name that the node declares stands."""
        where = node.get("loc", {})
        where = where.get("expansionLoc", where)
        return self._shown(where) if "line" in where else self.place(node)

    def _shown(self, where: Node) -> Place:
        file: str = where["file"]
        return Place(file[2:] if file.startswith("./") else file, where["line"], where.get("col", 1))

    def is_library(self, node: Node) -> bool:
        """Whether the node stands in a stub header."""
        where = node.get("loc", {})
        where = where.get("expansionLoc", where)
        return str(where.get("file", "")).startswith(INCLUDE)


def children(node: Node) -> list[Node]:
    inner: list[Node] = node.get("inner", [])
    return inner


def walk(node: Node) -> Iterator[Node]:
    yield node
    for child in children(node):
        yield from walk(child)


def compiler() -> str:
    for name in COMPILERS:
        if shutil.which(name):
            return name
    raise Unported(["clang++ isn't there: install Debian's clang-14"], True)


def unit(files: list[str], words: list[str]) -> Unit:
    """The unit of the files; `words` are `-I DIR` and `-D NAME` as compilers have them."""
    for file in files:
        _readable(file)
    with tempfile.TemporaryDirectory() as empty:
        # A header of the library of which nothing is used may be empty.
        refused: list[str] = []
        wanted = False
        while True:
            done = _asked(files, [*words, "-isystem", empty])
            told = _lines(done.stderr.decode(errors="replace"))
            lacking = next((found for line in told if (found := lacking_of.header(line))), None)
            if lacking is None or not _emptied(empty, lacking[1]):
                break
            place, name = lacking
            standard = _is_standard(name)
            wanted = wanted or not standard
            refused.append(lacking_of.of_header(place, name, standard))
    if done.returncode or wanted:
        raise Unported(_explained(told, refused, "".join(map(_text, files))))
    # All files are one text here, so a name in a namespace without one is a name like others.
    return Unit(json.loads(done.stdout.replace(b"(anonymous namespace)::", b"")))


def _readable(file: str) -> None:
    if '"' in file or "\n" in file:
        raise Unported([f"{file}: a name with a quotation mark can't be included; give the file another"], True)
    if os.path.isdir(file):
        raise Unported([f"{file}: is a folder, and no file of C++"], True)
    if not os.path.isfile(file):
        raise Unported([f"{file}: no such file"], True)
    if not os.access(file, os.R_OK):
        raise Unported([f"{file}: can't be read"], True)


def _text(file: str) -> str:
    with open(file, encoding="utf-8", errors="replace") as text:
        return text.read()


def mentions(files: list[str], word: str) -> bool:
    """Whether one of the files has the word."""
    return any(word in _text(file) for file in files)


def _asked(files: list[str], words: list[str]) -> "subprocess.CompletedProcess[bytes]":
    text = "".join(f'#include "{file}"\n' for file in files)
    command = [compiler(), STANDARD, "-nostdinc", "-nostdinc++", "-isystem", INCLUDE, *words, *ASKED]
    return subprocess.run(command, input=text.encode(), capture_output=True, check=False)


def _emptied(folder: str, name: str) -> bool:
    """Puts an empty header of the name there, so that what is behind it is looked at too; whether that could be."""
    path = os.path.normpath(os.path.join(folder, name))
    if not path.startswith(folder + os.sep) or os.path.exists(path):
        return False
    os.makedirs(os.path.dirname(path), exist_ok=True)
    with open(path, "w", encoding="utf-8"):
        pass
    return True


def _is_standard(name: str) -> bool:
    """Whether the real compiler's library has the header: g++ is asked, where it is there."""
    if shutil.which("g++") is None:
        return False
    command = ["g++", STANDARD, "-E", "-x", "c++", "-"]
    done = subprocess.run(command, input=f"#include <{name}>\n".encode(), capture_output=True, check=False)
    return done.returncode == 0


def _lines(told: str) -> list[str]:
    """What clang says of the user's files."""
    unsaid = ("generated.", ": note: ", "In file included")
    lines = [line for line in told.splitlines() if line and not any(word in line for word in unsaid)]
    return [line[2:] if line.startswith("./") else line for line in lines]


def _explained(told: list[str], refused: list[str], text: str) -> list[str]:
    """The refusals of what the stub headers lack; where there are none, clang's own lines."""
    found = [
        lacking_of.refusal(line, lambda name: bool(re.search(rf"\b[\w>&*\]]+[ *&]+{name}\b", text))) for line in told
    ]
    lacking = [line for line in found if line is not None]
    if not refused and not lacking:
        return told or ["clang refused the program"]
    known = sorted(name for name in os.listdir(INCLUDE) if not name.endswith(".h"))
    headers = [f"of the standard library these headers are known, in part: {', '.join(known)}"]
    return list(dict.fromkeys(refused or lacking)) + headers * any(": <" in line for line in refused)
