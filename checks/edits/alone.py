"""Has the prover refuse wrong bodies where each changed function is checked alone.

In a copy of its crate every function but the changed ones gives up, and its proof is a hole: what calls it goes by its
contract. So a check takes half a minute, and tries edits of different functions together. An edit is refused where a goal of
its function isn't met. Not refused are those that the check passes, and those whose only fault is a name that proofs cite.
"""

import os
import re
import shutil
import subprocess
import tempfile
from pathlib import Path

from functions import functions

MOST = 12
HOLE = "use Rattle.{crate}.proofs.{path}.Statement.{{statement}}\n\npub {name}_spec : {{M : Type 1}} → statement M\n{name}_spec = ?\n"
NAMES = re.compile(r"has no field|is not in scope|has no `|was not admitted")


class Edit:
    """Its pairs of texts, and the functions of its crate in which they lie."""

    def __init__(self, path, crate, folder, known):
        self.name, self.crate, self.pairs, file, old = path.stem, crate, [], None, None
        for line in path.read_text().split("\n"):
            if line.startswith("file: "):
                file = line[len("file: ") :]
            elif line.startswith("old: "):
                old = line[len("old: ") :]
            elif line.startswith("new: "):
                self.pairs.append((file, old, line[len("new: ") :]))
        places = [(file, Path(folder, file).read_text().partition(old)[0].count("\n")) for file, old, _ in self.pairs]
        self.changed = [it for it in known if any(it.holds(file, line) for file, line in places)]

    def is_beside(self, other):
        """Whether both can be tried in one copy: no function of the one is one of the other, or calls it."""
        return self.changed and other.changed and not any(str(f) == str(g) or calls(f, g) or calls(g, f) for f in self.changed for g in other.changed)

    def make(self, folder):
        """Says whether each text stood once."""
        for file, old, new in self.pairs:
            text = Path(folder, file).read_text()
            if text.count(old) != 1:
                return False
            Path(folder, file).write_text(text.replace(old, new))
        return True


def calls(caller, called):
    return caller.cycle is None and re.search(rf"(?<!fn )\b{called.name}(::<[^>]*>)?\(", caller.text) is not None


def groups(edits):
    """Puts each edit into the first group in which it can be tried."""
    found = []
    for edit in sorted(edits, key=lambda it: any(f.cycle for f in it.changed)):
        for group in found:
            if len(group) < MOST and all(edit.is_beside(it) for it in group):
                group.append(edit)
                break
        else:
            found.append([edit])
    return found


def give_up(folder, crate, changed):
    """Takes the body and the proof of each function that isn't changed, or of a changed one's cycle."""
    proofs = Path(folder, "proofs")
    kept = {it.folder(proofs) for it in functions(folder, crate) if str(it) in changed}
    left = [it for it in functions(folder, crate) if it.body and not it.is_const and not (it.owner and it.owner[0]) and it.folder(proofs) not in kept]
    for it in sorted(left, key=lambda it: -it.head):
        shutil.rmtree(it.folder(proofs), ignore_errors=True)
        own = proofs.joinpath(*it.path)
        own.mkdir(parents=True, exist_ok=True)
        own.joinpath("Proof.antt").write_text(HOLE.format(crate=crate, path=".".join(it.path), name=it.name))
        without_body(Path(folder, it.file), it)


def without_body(path, it):
    lines = path.read_text().split("\n")
    begin, end = it.body
    if begin == end:
        lines[begin] = re.sub(r"\{[^{}]*\}$", "{ unreachable!() }", lines[begin])
    else:
        lines[begin + 1 : end] = [it.indent + "    unreachable!()"]
    for at in range(it.first, it.head):
        if lines[at].strip().startswith("#[cycle("):
            lines[at] = it.indent + "//"
    path.write_text("\n".join(lines))


def said_of(edit, folder, lines):
    """What the check says of goals of the changed functions."""
    now, proofs = {str(it): it for it in functions(folder, edit.crate)}, Path(folder, "proofs")
    for it in (now[str(f)] for f in edit.changed):
        own = "proofs/" + it.folder(proofs).relative_to(proofs).as_posix() + "/"
        for line in lines:
            at = re.match(r"(?:note: )?(?:\./)?([^:]+):(\d+):\d+: (?:error: (?:`([^`]*)`)?)?", line)
            if at and at[1].startswith(own) and (not it.cycle or re.match(rf"{it.name}(-|$)", at[3] or it.name)):
                yield line
            elif at and it.holds(at[1], int(at[2]) - 1):
                yield line


def verdict(edit, folder, lines):
    told = [line for line in lines for it in edit.changed if line.startswith(f"fn {it}: ")]
    return verdict_by(list(said_of(edit, folder, lines))) or f"NOT REFUSED: {' / '.join(told) or 'nothing is said of its functions'}"


def verdict_by(said):
    goals = [it for it in said if not NAMES.search(it)]
    if goals:
        return f"refused, as it must be: {goals[0]}"
    return f"refused by names alone: {said[0]}" if said else ""


def link(one, other):
    try:
        os.link(one, other)
    except OSError:
        shutil.copy2(one, other)


def below(crate, stands_on, found=()):
    """The crates that it stands on, each once."""
    for other in stands_on[crate]:
        if other in stands_on and other not in found:
            found = (*below(other, stands_on, found), other)
    return found


def copy(root, crate, to):
    """Copies a crate, and those below it with their libraries, by links where these can be made."""
    lines = [line.partition("#")[0].split(":") for line in Path(root, "crates.txt").read_text().split("\n")]
    stands_on = {line[0].strip(): line[1].split() for line in lines if len(line) == 2}
    needed = [*below(crate, stands_on), crate]
    for name in needed:
        for part in ("src", "specs", "proofs") if name == crate else ("src", "specs", "proofs", "out/rlib"):
            if Path(root, "crates", name, part).is_dir():
                shutil.copytree(f"{root}/crates/{name}/{part}", f"{to}/crates/{name}/{part}", copy_function=shutil.copy2 if name == crate else link)
    Path(to, "crates.txt").write_text("".join(f"{name}: {' '.join(stands_on[name])}\n" for name in needed))
    shutil.copy2(f"{root}/HANDLES", to)
    Path(to, ".git").mkdir()


def checked(folder, crate, *words):
    ran = subprocess.run(["rt", "check", crate, "--jobs", "1", *words], cwd=folder, stdout=subprocess.PIPE, stderr=subprocess.STDOUT, text=True)
    return ran.stdout.split("\n")


def tried(root, crate, group):
    """Gives what came of each edit of a group. One that lies in no function has its whole crate checked."""
    with tempfile.TemporaryDirectory(prefix="edits-") as room:
        copy(root, crate, room)
        folder = f"{room}/crates/{crate}"
        if not all([edit.make(folder) for edit in group]):
            return {edit.name: "NOT TRIED: a text isn't there once" for edit in group}
        changed = list(dict.fromkeys(str(it) for edit in group for it in edit.changed))
        if not changed:
            return {group[0].name: verdict_of_all(checked(folder, crate))}
        give_up(folder, crate, changed)
        lines = checked(folder, crate, "--allow-holes", *[word for it in changed for word in ("--only", it)])
        if not any(line.startswith("only=") for line in lines):
            return {edit.name: f"NOT TRIED: {next((it for it in lines if 'error' in it), 'the check did not end')}" for edit in group}
        return {edit.name: verdict(edit, folder, lines) for edit in group}


def verdict_of_all(lines):
    said = [line for line in lines if re.match(r"(note: )?\S+:\d+:\d+: ", line)]
    if not any(line.startswith("logic=not-proved") for line in lines):
        return f"NOT REFUSED: {lines[-1]}"
    return verdict_by(said) or "refused, as it must be"


def answers(root, folder, crates):
    """Gives what came of each edit of these crates, by crate and edit."""
    found = {}
    for crate in crates:
        known = list(functions(f"{root}/crates/{crate}", crate))
        edits = [Edit(path, crate, f"{root}/crates/{crate}", known) for path in sorted(Path(folder, crate).glob("*.edit"))]
        for group in groups(edits):
            for name, said in tried(root, crate, group).items():
                found[crate, name] = said
                print(f"{crate}/{name}: {said}", flush=True)
    return found
