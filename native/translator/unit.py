"""Not proved: a program as one text of C++ over runtime/program.h."""

from __future__ import annotations

from .apart import apart
from .fusing import fuse
from .options import Options
from .plain import Lines, Plain, braced, of_type, parameters
from .regions import Regions, counter_of
from .tree import Class, Program

# The order of `Kind` in runtime/workers.h.
COPIED = ("SUM", "PRODUCT", "MAX", "MIN", "AND", "OR", "XOR")


def written(program: Program, options: Options = Options(), pairs: str = "") -> str:
    """The text, which begins with the header that it needs. `pairs` is what the command of this name says of the text
    that was read: without it no loop is shared that isn't marked."""
    different = {counter_of(it) for it in apart(program, pairs)} if options.shares_apart else set()
    fuse(program)
    regions = Regions(program, options, different)
    members: dict[str, Lines] = {name: [] for name in program.classes}
    bodies: Lines = []
    for method in program.methods():
        declared = parameters(method)
        result = of_type(method.result)
        members[method.owner].append(f"{result}{method.name}_({declared});")
        plain = Plain(program, method.owner, regions if method.result == "void" and not method.is_fused else None)
        bodies += braced(
            f"inline {result}{method.owner}_class::{method.name}_({declared})", plain.statements(method.body.items)
        )
    main = braced("void program()", Plain(program, "", regions).statements(program.main.body.items))
    for owner, declaration, lines in regions.methods():
        members[owner.name].append(declaration)
        bodies += lines
    copies = sum(1 << COPIED.index(kind) for kind in regions.kinds())
    heads = [
        '#include "program.h"',
        f"const unsigned COPIES = {copies};",
        *(f"struct {name}_class;" for name in program.classes),
    ]
    classes = [
        line
        for number, each in enumerate(program.classes.values(), 1)
        for line in of_class(each, number, members[each.name])
    ]
    return "".join(line + "\n" for line in [*heads, *classes, *bodies, *main, *objects_written(program)])


def of_class(it: Class, number: int, members: Lines) -> Lines:
    fields = [
        f"{of_type(each.type)}{name}_{'' if each.length is None else f'[{each.length}]'};"
        for name, each in it.fields.items()
    ]
    return braced(
        f"struct {it.name}_class : Object", [f"static const unsigned CLASS = {number};", *fields, *members], "};"
    )


def objects_written(program: Program) -> Lines:
    """The sizes of objects by their class, and what writes their fields."""
    sizes = ", ".join(f"sizeof({name})" for name in ["Object", *(f"{name}_class" for name in program.classes)])
    cases: Lines = []
    for number, it in enumerate(program.classes.values(), 1):
        fields = [f'out.field("{name}", of.{name}_);' for name in it.fields]
        of = [f"auto &of = static_cast<const {it.name}_class &>(it);"] if it.fields else []
        cases += braced(f"case {number}:", [f'out.head(it, "{it.name}");', *of, *fields, "break;"])
    lines = braced("void write_fields(Out &out, const Object &it)", braced("switch (it.kind)", cases))
    return [f"const std::size_t SIZES[] = {{{sizes}}};", *lines]
