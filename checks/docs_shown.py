"""What the pages show of the program: commands with their output, whole programs, small runs, classes with what is told of them."""

import re
import shlex
import subprocess
from collections.abc import Iterator
from functools import cache

from docs_crates import ROOT
from docs_words import QUOTED

SECONDS = 60
# A budget that no sample spends.
BUDGET = "1000000"
TOLD = re.compile(r"\w+::\w+ \w+::\w+ (commutes|unproved .*)$|(op \w+::\w+|loop \d+) (parallel|serial)$|(error|limit) \d+:\d+ E\d\d$")
METHOD = re.compile(r"^  (?:void|long|bool|\w+ \*)\s*(\w+)\((?:.*\}|.*\{\n(?:    .*\n)*  \})$", re.M)


@cache
def run(program, *words, source=""):
    """The bytes and the status of a command of the program; no status where the time is up or it tells errors."""
    try:
        done = subprocess.run([program, *words], input=source.encode(), cwd=ROOT, capture_output=True, timeout=SECONDS)
    except subprocess.TimeoutExpired:
        return "", None
    return done.stdout.decode(), None if done.stderr else done.returncode


def parts(text: str) -> Iterator[tuple[str, int, str]]:
    """The parts of a page in order: its headings, its paragraphs, and its blocks with the line where each begins."""
    lines = text.splitlines()
    kept: list[str] = []
    begun: int | None = None
    for number, line in enumerate(lines, 1):
        if line.lstrip().startswith("```"):
            if begun is None:
                yield from kept and [("text", number, "\n".join(kept))]
                begun, kept = number, []
            else:
                yield "block", begun, "".join(each + "\n" for each in kept)
                begun, kept = None, []
        elif begun is None and (not line.strip() or line.startswith("#")):
            yield from kept and [("text", number, "\n".join(kept))]
            yield from [("heading", number, line)] if line.startswith("#") else []
            kept = []
        else:
            kept.append(line)
    yield from kept and [("text", len(lines), "\n".join(kept))]


def blocks(page):
    return [(line, text) for kind, line, text in parts(page.read_text()) if kind == "block"]


def commands(page, program):
    """Each command of a block that begins with `$`: what it writes is what stands below it."""
    for line, text in blocks(page):
        if not text.startswith("$ "):
            continue
        for shown in re.split(r"(?m)^\$ ", text)[1:]:
            command, _, output = shown.partition("\n")
            found, status = run("sh", "-c", command.replace("./commute", shlex.quote(program)))
            yield f"{page.name}:{line} {command}", status is not None and found == output


def programs(page, program):
    """Each whole program of a page is that of a file of samples/, or the text of `gen` but for its links; the README shows a part of one."""
    samples = {path.read_text() for path in (ROOT / "samples").glob("*.cc")}
    generated, _ = run(program, "gen", "7", "3")
    links = "".join(re.findall(r"  t->link.*\n", generated))
    for line, text in blocks(page):
        if text.startswith("class ") and "\nint main() {\n" in text:
            filled = text.replace("[N]", "[3]").replace("i < N;", "i < 3;").replace("LINKS\n", links)
            yield f"{page.name}:{line} a program", text in samples or filled == generated
        elif page.parent == ROOT and METHOD.match(text):
            yield f"{page.name}:{line} a part of a sample", any(text in sample for sample in samples)


def told_before(page, program):
    """A command that a paragraph tells, which ends with a colon or so, writes the block below it."""
    before = ""
    for kind, line, text in parts(page.read_text()):
        commands_told = re.findall(r"`\./commute ([^`<|]*) < ([^`]*)`.*:$", before) + [
            (command, "samples/first_program.cc") for command in re.findall(r"On the sample `(\w+)` writes:?$", before)]
        for command, path in commands_told if kind == "block" else ():
            found, _ = run(program, *command.split(), source=(ROOT / path).read_text())
            yield f"{page.name}:{line} {command}", found == text
        before = re.sub(r"\s+", " ", text).strip()


# The table of small runs

SOURCES = {"the empty text": "", "a line feed alone": "\n", "whatever is there": "", "whatever is there, since it isn't read": ""}


def written(cell):
    """The bytes that a cell tells."""
    if cell == "the usage line":
        return next(text for _, text in blocks(ROOT / "docs" / "reference" / "commands.md") if text.startswith("usage: "))
    return "".join(line + "\n" for line in QUOTED.findall(cell))


def small_runs(page, program):
    """The rows of a table of texts, words, what they write, and the status."""
    for row in re.findall(r"(?m)^\| (.*) \| `([^`]*)` \| (.*) \| (\d) \|$", page.read_text()):
        source = SOURCES.get(row[0], row[0].strip("`"))
        yield f"{page.name} {row[0]} {row[1]}", run(program, *row[1].split(), source=source) == (written(row[2]), int(row[3]))


# What is refused or unproved, and mended

def refused(page, program):
    """The rows of a table of texts with their refusals; where a whole text mends one, that is accepted."""
    for row in re.findall(r"(?m)^\| `([^`]*)` \| `((?:error|limit) [^`]*)` \| (.*) \|$", page.read_text()):
        status = 1 if row[1].startswith("error") else 8
        yield f"{page.name} {row[0]}", run(program, "plan", source=row[0]) == (row[1] + "\n", status)
        if row[2].startswith("`"):
            yield f"{page.name} {row[2]}", run(program, "plan", source=row[2].strip("`"))[1] == 0


def reasons(page, program):
    """The rows of a table of reasons, with members of a class whose operation `m` gets it with itself, and others with which it commutes."""
    for row in re.findall(r"(?m)^\| `([A-Z][^`]*)` \| `([^`]* m\([^`]*)` \| `([^`]*)` \|$", page.read_text()):
        for members, due in (row[1], "unproved " + row[0]), (row[2], "commutes"):
            text, _ = run(program, "pairs", source="class A { public: " + members + " }; int main() { }")
            yield f"{page.name} {members}", "A::m A::m " + due in text.splitlines()


# Classes

@cache
def answers(program, source):
    """The lines of `pairs` and `plan` that are no headings, or the refusal."""
    texts = [run(program, command, source=source + "int main() { }\n")[0] for command in ("pairs", "plan")]
    return {line for text in texts for line in text.splitlines() if not line.startswith("extent ")}


def told(text):
    return {line for each in QUOTED.findall(text) if TOLD.match(line := re.sub(r"\s+", " ", each))}


def methods(text):
    return {found.group(1): found.group(0) for found in METHOD.finditer(text)}


def mended(source, fragment):
    """The classes with the methods of a fragment: each in the place of the one of its name, or as one more of the last class."""
    there = methods(source)
    for name, text in methods(fragment).items():
        if name in there:
            source = source.replace(there[name], text)
        else:
            source = source[: source.rindex("};")] + text + "\n};\n"
    return source


def unproved(program, source, names):
    """The lines that tell a pair as unproved, of operations of these names if any are given, or the refusal."""
    lines = {line for line in answers(program, source) if " unproved " in line or re.match("(error|limit) ", line)}
    return {line for line in lines if names is None or "::" not in line or line.split()[0].split("::")[1] in names}


def classes(page, program):
    """Of each block of classes `pairs` and `plan` tell the lines that the text below it has; where that has no unproved pair and
    no refusal, all pairs commute. So it is with a block of methods that mends it, of the pairs of these methods."""
    source, where, names, lines = None, "", None, set()
    for kind, line, text in [*parts(page.read_text()), ("heading", 0, "")]:
        is_class = kind == "block" and text.startswith("class ")
        mends = kind == "block" and not is_class and source and methods(text).keys() & methods(source).keys()
        if source and (kind == "heading" or is_class or mends):
            is_wrong = any(" unproved " in each or "error " in each or "limit " in each for each in lines)
            yield where, lines <= answers(program, source) and (is_wrong or not unproved(program, source, names))
            lines = set()
        if kind == "text":
            lines |= told(text)
        elif mends:
            source, where, names = mended(source, text), f"{page.name}:{line} methods", methods(text).keys()
        elif is_class and "int main" not in text:
            source, where, names = text, f"{page.name}:{line} classes", None
        elif is_class or kind == "heading":
            source, lines = None, set()


# Samples

def samples(program):
    """What is stored of each sample, and of each run the same by 4 workers. An application that makes many objects has no `.run`."""
    top = ROOT / "samples"
    for path in sorted([*top.glob("*.cc"), *top.glob("applications/*.cc")]):
        for command in ["plan"], ["pairs"], ["emit"], ["run", "1", BUDGET], ["run", "4", BUDGET]:
            stored = path.with_suffix("." + command[0])
            if command[0] != "run" or path.parent == top or stored.exists():
                found = run(program, *command, source=path.read_text())
                yield f"{stored.relative_to(ROOT)} by {' '.join(command)}", stored.exists() and found == (stored.read_text(), 0)
    for path in sorted(top.glob("*.schedule")):
        for ending, due in (".schedule", ("yes\n", 0)), (".trace", ("yes\n", 0)), (".strays", (path.with_suffix(".verify").read_text(), 9)):
            text = path.with_suffix(".cc").read_text() + path.with_suffix(ending).read_text()
            yield f"samples/{path.stem}{ending} by verify", run(program, "verify", BUDGET, source=text) == due
    for path in sorted({*top.glob("*.*"), *top.glob("applications/*.*")} - {top / "README.md"}):
        yield f"{path.relative_to(ROOT)} has a source", path.with_suffix(".cc").exists()


def shown(page, program):
    for look in commands, programs, told_before, small_runs, refused, reasons, classes:
        yield from look(page, program)
