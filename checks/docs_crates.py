"""What the crates have: their calls with the names of clauses, their types, their definitions and lemmas, their edits."""

import pathlib
import re
from functools import cache

ROOT = pathlib.Path(__file__).resolve().parent.parent
FUNCTION = re.compile(r"\s*(pub(?:\(\w+\))? )?(?:const )?fn (\w+)")
CLAUSE = re.compile(r"\s*(?:ensures|requires)\s*(\w*)\s*\{")
OWNER = re.compile(r"(?:pub )?(impl|trait)\b(.*)")
TYPE = re.compile(r"(?:pub )?(?:struct|enum|type|trait|const|static|mod)\s+(\w+)")
VARIANT = re.compile(r"    ([A-Z]\w*)\b(?:[,({ ]|$)")
FIELD = re.compile(r"\s+(?:pub )?(\w+): ")
DECLARED = re.compile(r"\s*(?:(?:abbrev|unfoldable|pub|data|record|lemma)\s+)*(\w+)\s(?:[^=]*\s)?:\s")


@cache
def stands_on():
    """For each crate of crates.txt those that its line names."""
    lines = (line.split("#")[0].strip() for line in (ROOT / "crates.txt").read_text().splitlines())
    return {name.strip(): rest.split() for name, _, rest in (line.partition(":") for line in lines if line)}


def owner_of(line):
    """The type of an `impl`, or the trait, with the trait that an `impl` is of."""
    kind, rest = OWNER.match(line).groups()
    rest = re.sub(r"^<[^>]*(?:<[^>]*>[^>]*)*>", "", rest).strip()
    names = [re.match(r"[&'\w ]*?(\w+)\s*(?:<|\{|:|where|$)", part.strip()) for part in rest.split(" for ")]
    names = [name.group(1) for name in names if name]
    if not names:  # its bounds stand on lines of their own
        return "", None
    if kind == "trait" or len(names) < 2:
        return names[0], None
    return names[1], names[0]


class Crate:
    """The names of a crate. `calls` has for each call, by its own name and by that of its type, the names of its clauses, and
    `public` those of public calls; `traits` has for each type the traits that it has, `open` the traits themselves, `parts`
    variants and fields, and `told` what `specs/` declares."""

    def __init__(self, name):
        self.name, self.path = name, ROOT / "crates" / name
        self.calls, self.traits = {}, {}
        self.public, self.types, self.open, self.parts, self.modules = set(), set(), set(), set(), set()
        for path in sorted((self.path / "src").rglob("*.rt")):
            self.modules.add(path.stem)
            self.read(path)
        self.told = self.declared("specs")
        self.definitions = self.told | self.declared("proofs")

    def read(self, path):
        """Takes up what a file of code has."""
        owner = trait = within = None
        for line in path.read_text().splitlines():
            if line.startswith("}"):
                owner = trait = within = None
            elif found := OWNER.match(line):
                owner, trait = owner_of(line)
                self.types.add(owner)
                self.open.update({owner} if found.group(1) == "trait" else ())
                self.traits.setdefault(owner, set()).update({trait} - {None})
            elif found := FUNCTION.match(line):
                within = self.begin(found, owner, trait)
            elif found := CLAUSE.match(line):
                for clauses in within or ():
                    clauses.add(found.group(1))
            elif found := TYPE.match(line.strip()):
                self.types.add(found.group(1))
            elif found := VARIANT.match(line) or FIELD.match(line):
                self.parts.add(found.group(1))

    def begin(self, found, owner, trait):
        """The sets of clauses that a function has, one for each of its names; what a type's methods have is had by the type."""
        public, name = found.groups()
        names = [name] + ([f"{owner}::{name}", owner] if owner else [])
        if public == "pub " or trait or owner in self.open:
            self.public.update(names)
        return [self.calls.setdefault(each, set()) for each in names]

    def declared(self, folder):
        """The names that the definitions or lemmas of a folder declare, and the names of its files."""
        names = set()
        for path in (self.path / folder).rglob("*.antt"):
            names.add(path.stem)
            names.update(found.group(1) for line in path.read_text().splitlines() if (found := DECLARED.match(line)))
        return names

    def edits(self):
        """The names of the wrong bodies."""
        folders = self.path / "must-fail", ROOT / "checks" / "edits" / self.name
        return {path.stem for folder in folders for path in folder.glob("*.edit")}

    def clauses_of(self, call):
        """The names of the clauses of a call, with those of the trait whose method it is; no set where there is no such call."""
        found = self.calls.get(call)
        if found is None:
            return None
        owner, _, method = call.partition("::")
        for trait in self.traits.get(owner, ()):
            for crate in stands_on():
                other = crate_of(crate).calls
                found = found | other.get(f"{trait}::{method}" if method else trait, set())
        return found

    def all_clauses(self):
        return set().union(*self.calls.values()) - {""}

    def has(self, name):
        """Whether a name is one of the crate's: a call, a type or a part of one, a module, a definition or a lemma."""
        if any(name in names for names in (self.calls, self.types, self.parts, self.modules, self.definitions)):
            return True
        head, _, last = name.rpartition("::")
        return head in self.types | self.modules and (last in self.types | self.parts or last in self.calls)


@cache
def crate_of(name):
    return Crate(name)
