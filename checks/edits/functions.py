"""The functions of a crate: where each stands, its name as the check tells it, and the folder of its proof."""

import re
from pathlib import Path

HEAD = re.compile(r"(\s*)(?:pub(?:\([^)]*\))? )?(const )?(?:unsafe )?fn (\w+)")
IMPL = re.compile(r"(?:unsafe )?impl(?:<[^{]*?>)?\s+(?:([\w:]+(?:<.*?>)?)\s+for\s+)?(?:crate::)?(\w+)")
TYPE = re.compile(r"^(?:pub(?:\([^)]*\))? )?(?:struct|enum) (\w+)", re.M)
CYCLE = re.compile(r"#\[cycle\((\w+)\)\]$")


class Function:
    """`first` is the line of its attributes and comments, `head` that of `fn`; `body` the lines of its braces, or None where it has none of its own."""

    def __init__(self, crate, file, lines, head, owner, home):
        self.crate, self.file, self.head, self.owner = crate, file, head, owner
        self.indent, self.is_const, self.name = HEAD.match(lines[head]).groups()
        self.first = head
        while self.first and re.match(r"\s*(#\[|//)", lines[self.first - 1]):
            self.first -= 1
        found = [CYCLE.match(line.strip()) for line in lines[self.first : head]]
        self.cycle = next((it[1] for it in found if it), None)
        self.body = body_of(lines, head, self.indent)
        self.last = self.body[1] if self.body else head
        self.path = [*home, *owner_words(owner), self.name]
        self.text = "\n".join(lines[head : self.last + 1])

    def __str__(self):
        return "::".join([self.crate, *self.path])

    def holds(self, file, line):
        return self.file == file and self.first <= line <= self.last

    def folder(self, proofs):
        """That of its proof, or of the cycle's that it is in."""
        for count in range(len(self.path) - 1, -1, -1) if self.cycle else ():
            folder = proofs.joinpath(*self.path[:count], f"+{self.cycle}")
            if folder.is_dir():
                return folder
        return proofs.joinpath(*self.path)


def owner_words(owner):
    """A type, with the trait whose method it is."""
    return [owner[1] + re.sub(r"\W", "", owner[0] or "")] if owner else []


def body_of(lines, head, indent):
    """The lines of a body's braces: on the line of `fn`, or on lines of their own, as `rt fmt` sets them."""
    if re.search(r"\{.*\}$", lines[head]):
        return (head, head)
    for at in range(head, len(lines)):
        clause = re.match(r"\s*(ensures|requires)", lines[at])
        if lines[at] == indent + "{" or not clause and lines[at].endswith("{") and (at == head or lines[at].startswith(indent + ")")):
            return (at, lines.index(indent + "}", at + 1))
        if lines[at].endswith(";") or lines[at] == indent + "{}" or at > head and HEAD.match(lines[at]):
            return None
    return None


def module_of(file):
    words = file[len("src/") : -len(".rt")].split("/")
    return [] if words == ["lib"] else words


def functions(folder, crate):
    """All but those of traits and tests."""
    texts = {str(it.relative_to(folder)): it.read_text() for it in sorted(Path(folder, "src").rglob("*.rt"))}
    homes = {name: module_of(file) for file, text in texts.items() for name in TYPE.findall(text)}
    for file, text in texts.items():
        lines, owner, inside = text.split("\n"), None, None
        for at, line in enumerate(lines):
            if line.startswith("#[cfg(test)]"):
                break
            if line.startswith(("impl", "unsafe impl")):
                found = IMPL.match(line)
                owner, inside = found.groups() if found else ("", "?"), "impl"
            elif re.match(r"(pub(\([^)]*\))? )?trait ", line):
                inside = "trait"
            elif line == "}":
                owner, inside = None, None
            if HEAD.match(line) and inside != "trait" and (inside or not line.startswith(" ")):
                home = homes.get(owner[1], module_of(file)) if owner else module_of(file)
                yield Function(crate, file, lines, at, owner, home)
