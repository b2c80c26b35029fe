"""Texts taken apart: what stands in backquotes, which of it is a path, and whether that path is there."""

import fnmatch
import re
from collections.abc import Iterator
from functools import cache
from pathlib import Path

from docs_crates import ROOT

QUOTED = re.compile(r"`([^`]+)`")
NAME = re.compile(r"[A-Za-z_]\w*(?:::\w+)*$")
LINK = re.compile(r"\]\(([^)#\s]+)(?:#[^)]*)?\)|^\[\w+\]: (\S+)", re.M)
# Endings of files, folders of the repository, what stands for a name or for a file that is made, and files of the kit and of readers.
ENDINGS = r"\.(?:rt|antt|edit|md|cc|py|c|h|in|svg|txt|pairs|plan|emit|run)"
PATH = re.compile(
    rf"[\w.+*/-]*\w{ENDINGS}$|(?:\.ci|bench|checks|crates|docs|native|samples|ca_\w+|specs|proofs|src|must-fail)/[\w.+*/-]*$"
)
PLACEHOLDER = re.compile(r"\b[A-Z][A-Z_]+\b(?!\.md)|(?:^|/)(?:out|names\.json)(?:/|$)|\.\.")
ELSEWHERE = {
    "START-HERE.md",
    "FORMS.md",
    "FORMS-THREADS.md",
    "CALLING.md",
    "REPOSITORY.md",
    "GUIDELINES.md",
    "program.cc",
    "station.cc",
    "sensors.cc",
}


def without_blocks(text: str) -> str:
    """The text, with an empty line in the place of each line of a block."""
    inside, lines = False, []
    for line in text.splitlines():
        fence = line.lstrip().startswith("```")
        lines.append("" if inside or fence else line)
        inside ^= fence
    return "\n".join(lines)


def quoted(text: str) -> list[str]:
    """What stands in backquotes, with one space where a line ends."""
    return [re.sub(r"\s+", " ", found) for found in QUOTED.findall(text)]


def is_path(word: str) -> bool:
    return bool(PATH.match(word)) and not PLACEHOLDER.search(word) and word.split("/")[-1] not in ELSEWHERE


@cache
def files() -> list[str]:
    """Each file and each folder of the repository, from its root, with a slash in front."""
    kept = []
    for path in ROOT.rglob("*"):
        parts = path.relative_to(ROOT).parts
        if "out" not in parts and parts[0] != ".git":
            kept.append("/" + "/".join(parts))
    return kept


@cache
def endings() -> set[str]:
    """All ends of these paths, from a slash on."""
    return {path[at:] for path in files() for at, letter in enumerate(path) if letter == "/"}


def is_there(word: str, folder: Path) -> bool:
    """Whether a path is there: from the folder of its page, or as the end of any path; a lemma file may lack its ending."""
    word = word.rstrip("/")
    if "*" in word:
        return any(fnmatch.filter(endings(), "/" + word))
    return (folder / word).exists() or "/" + word in endings() or f"/{word}.antt" in endings()


def paths(page: Path) -> Iterator[tuple[str, bool]]:
    """Each path that a page names, with whether it is there."""
    text = without_blocks(page.read_text())
    for word in dict.fromkeys(quoted(text)):
        for part in word.split(" ") if " < " in word else [word]:
            if is_path(part):
                yield part, is_there(part, page.parent)
    for first, second in LINK.findall(text):
        target = first or second
        if "://" not in target:
            yield target, (page.parent / target).exists()
