"""Words of this house that a reader of C++ reads otherwise, on the pages; and links whose heading isn't there."""

import re
from collections.abc import Iterator
from functools import cache
from pathlib import Path

from docs_words import without_blocks

# `stands in the way` and `stands for` are what everybody says.
EVERYWHERE = re.compile(
    r"\b(?:tells?|told|telling|stood|standing|stands?(?! in the way| for\b|-in)|wants? (?:of )?memory"
    r"|memory (?:is|was|were) wanting|(?:is|are|was|were|be|been) handed|beside the heap)\b",
    re.I,
)
# These are names of definitions, so the pages on clauses and engines need them.
DEFINED = re.compile(r"\b(?:light|stuck|loose)\b", re.I)


def words(page: Path, table: str = "") -> tuple[list[str], list[str]]:
    """The house words of a page, but for code and for what a table has that is printed from elsewhere."""
    text = re.sub(r"`[^`]*`", "``", without_blocks(page.read_text().replace(table, "") if table else page.read_text()))
    text = re.sub(r"\s+", " ", text)
    return EVERYWHERE.findall(text), DEFINED.findall(text)


@cache
def headings(page: Path) -> set[str]:
    """The names by which the headings of a page are linked to."""
    lines = [line for line in without_blocks(page.read_text()).splitlines() if re.match(r"#+ ", line)]
    return {re.sub(r"[^\w\- ]", "", line.lstrip("# ").lower()).replace(" ", "-") for line in lines}


ANCHOR = re.compile(r"\]\(([^)#\s]*)#([^)\s]+)\)")


def anchors(page: Path) -> Iterator[tuple[str, bool]]:
    """Each link to a heading, and whether the heading is there."""
    for path, name in ANCHOR.findall(without_blocks(page.read_text())):
        target = (page.parent / path).resolve() if path else page
        if "://" not in path and target.suffix == ".md" and target.exists():
            yield f"{path}#{name}", name in headings(target)
