"""The pages of the crates, with those of their wrong bodies: the calls, clauses and edits that they name are those that the crates have."""

import re
from functools import cache

from docs_crates import ROOT, crate_of, stands_on
from docs_words import NAME, QUOTED, is_path, quoted, without_blocks

LIST = r"`[^`]+`(?:(?:,| and|, and) `[^`]+`)*"
CLAUSES = re.compile(rf"(?:`([^`]+)` )?\((?:each |both )?({LIST})\)")
OF = re.compile(r"`([a-z_0-9]+)` of `([^`]+)`")
PART = re.compile(rf"({LIST})(?:: ({LIST}))?$")
# Words of Rust, of the proofs, of std and of the kit.
OTHERS = set("""
    Vec Rc Box Option Some None Ok Err Result String Global Sync Send Drop Copy Ord Model Debug Value self Self u8 u16 u32 u64 i64
    usize bool str mut impl pub fn let loop match requires ensures invariant ghost auto search grind cc omega rw refl subst simp
    compare_exchange for_each_mut parse decimal main rt thiserror itoa arrayvec atomic_table crossbeam_deque crossbeam_utils
    unsafe crates samples bench checks docs
""".split())


REFERENCE = "language", "commands", "analysis", "schedules"


@cache
def words_of_the_language():
    pages = [ROOT / "docs" / "reference" / f"{name}.md" for name in REFERENCE]
    return {word for page in pages for text in quoted(without_blocks(page.read_text())) for word in re.findall(r"\w+", text)}


def below(crates):
    """These crates, and all that they stand on."""
    met = [name for name in dict.fromkeys(crates) if name in stands_on()]
    for name in met:
        met.extend(other for other in stands_on()[name] if other in stands_on() and other not in met)
    return met


class Page:
    """A crate's page, with that of its wrong bodies behind it. Each `check` gives pairs: what was looked at, and whether it holds."""

    def __init__(self, name):
        self.path = ROOT / "crates" / name / "README.md"
        self.bodies = ROOT / "checks" / "edits" / name / "README.md"
        self.crate = crate_of(name)
        texts = [path.read_text() for path in (self.path, self.bodies) if path.exists()]
        self.text = "\n\n".join(without_blocks(text) for text in texts)
        self.words = quoted(self.text)
        self.near = [crate_of(each) for each in below([name, *(word for word in self.words if word in stands_on())])]

    def is_known(self, word):
        """Whether a name is one of the crate, of one below it or of one that the page names, or a word of the language."""
        if word in stands_on() or word in OTHERS or word in words_of_the_language():
            return True
        head, _, rest = word.partition("::")
        if head in stands_on() and rest:
            return crate_of(head).has(rest)
        if (self.crate.path / word).exists():
            return True
        return any(crate.has(word) or word in crate.all_clauses() or word in crate.edits() for crate in self.near)

    def is_call(self, word):
        """A public call or a type; of a crate that has no calls, a definition."""
        return word in self.crate.public or word in self.crate.types or not self.crate.public and word in self.crate.told

    def names(self):
        """Each name in backquotes."""
        for word in dict.fromkeys(self.words):
            if NAME.match(word) and not is_path(word):
                yield f"the name {word}", self.is_known(word)

    def is_clause(self, word, calls):
        """Whether it is a clause of one of the calls; what names no clause of the crate may be another name."""
        of = [self.crate.clauses_of(call) or set() for call in calls]
        if any(word in clauses for clauses in of):
            return True
        return word not in self.crate.all_clauses() and self.is_known(word)

    def bullets(self):
        """What stands in brackets behind a call, or in the line of a list that begins with calls, are clauses of these."""
        for bullet in re.findall(r"(?ms)^- (.*?)(?=^- |^$|\Z)", self.text):
            bullet = re.sub(r"\s+", " ", bullet)
            if not bullet.startswith("`"):
                continue
            heads = [word for word in QUOTED.findall(re.sub(r"\([^)]*\)", "", bullet).split(": ")[0])]
            for head in heads:
                yield f"the call {head}", self.is_call(head)
            for call, inside in CLAUSES.findall(bullet):
                calls = [call] if self.crate.clauses_of(call) else heads
                for word in QUOTED.findall(inside):
                    if NAME.match(word) and not is_path(word):
                        yield f"the clause {word} of {', '.join(calls)}", self.is_clause(word, calls)

    def clauses_told(self):
        """`CLAUSE of CALL`, wherever it stands."""
        for clause, call in OF.findall(re.sub(r"\s+", " ", self.text)):
            for crate in self.near:
                if call in crate.public and clause in crate.all_clauses():
                    yield f"the clause {clause} of {call}", clause in crate.clauses_of(call)

    def rows(self):
        """The table of edits: its calls, their clauses, and the edits."""
        for line in self.text.splitlines():
            cells = [cell.strip() for cell in line.strip("|").split("|")]
            if not line.startswith("|") or len(cells) != 2 or cells[0] in ("clause", "---"):
                continue
            for part in cells[0].split(";"):
                if found := PART.match(part.strip()):
                    yield from self.row(QUOTED.findall(found.group(1)), QUOTED.findall(found.group(2) or ""))
            for edit in [] if cells[1].startswith("none") else QUOTED.findall(cells[1]):
                yield f"the edit {edit}", edit in stands_on() or any(edit in crate.edits() for crate in self.edited(cells[1]))

    def edited(self, cell):
        """The crates of which a cell may name edits: its own, and those that it names."""
        return [self.crate, *(crate_of(word) for word in QUOTED.findall(cell) if word in stands_on())]

    def row(self, calls, clauses):
        for call in calls:
            yield f"the call {call}", self.is_call(call) or not clauses and call in self.crate.all_clauses()
        for clause in clauses:
            yield f"the clause {clause} of {', '.join(calls)}", any(clause in (self.crate.clauses_of(call) or ()) for call in calls)

    def edits(self):
        """Each edit of the crate is named."""
        for edit in sorted(self.crate.edits()):
            yield f"the edit {edit}, which is there", edit in self.words

    def all(self):
        for look in self.names, self.bullets, self.clauses_told, self.rows, self.edits:
            yield from look()


def pages():
    """The page of each crate, or nothing where it is missing."""
    for name in stands_on():
        yield name, Page(name) if (ROOT / "crates" / name / "README.md").exists() else None
