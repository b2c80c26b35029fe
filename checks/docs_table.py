"""The one table of the crates (crates/README.md): by layer, with what each is for as the head of its code says it, and who uses it."""

import re
from collections.abc import Iterator

from docs_crates import ROOT, stands_on

PAGE = ROOT / "crates" / "README.md"
# Of so many users a row has the names, of more the first ones.
MANY = 6
FIRST = 3
# A longer comment of a layer is cut at its first comma.
LONGEST = 40
HEAD = "| crate | what it is for | used by |\n|---|---|---|\n"


def layers() -> Iterator[tuple[str, list[str]]]:
    """The layers of crates.txt in order: the first words of each one's comment, and its crates."""
    for group in (ROOT / "crates.txt").read_text().split("\n\n"):
        lines = group.strip().splitlines()
        names = [line.split(":")[0].strip() for line in lines if ":" in line and not line.startswith("#")]
        if names:
            title = re.split(r"[:.]", lines[0].lstrip("# "))[0]
            yield title if len(title) <= LONGEST else title.split(",")[0], names


def purpose(name: str) -> str:
    """The first sentence of the head of a crate's root file."""
    source = ROOT / "crates" / name / "src"
    root = source / "lib.rt" if (source / "lib.rt").exists() else source / "main.rt"
    kept = []
    for line in root.read_text().splitlines():
        if not line.startswith("//!") or line == "//!":
            break
        kept.append(line.removeprefix("//!").strip())
    return re.split(r"(?<=\.) (?=[A-Z`])", " ".join(kept))[0].rstrip(".")


def users(name: str) -> str:
    """The crates that name it, but for those of tests."""
    found = [f"`{each}`" for each, libraries in stands_on().items() if name in libraries and not is_of_tests(each)]
    return ", ".join(found) if len(found) <= MANY else f"{', '.join(found[:FIRST])} and others"


def is_of_tests(name: str) -> bool:
    return name.endswith("_tests") or name == "ca_counters"


def table() -> str:
    lines = [HEAD]
    for title, names in layers():
        lines.append(f"| **{title}** | | |\n")
        lines.extend(f"| [`{name}`]({name}/README.md) | {purpose(name)} | {users(name)} |\n" for name in names)
    return "".join(lines)
