"""Schedules of a program: those that a run can have, and what `verify` says of any, from docs/reference/schedules.md."""

import re
from contextlib import suppress

from reference.orders import Over, Section, Trap
from reference.programs import BOOL, LONG
from reference.reference import start_of, text_of

HEADER = "/*schedule\n"
FIXED = ("block", "end", "declined", "*/")
KINDS = ("NullPointer", "OutOfRange", "ZeroDivisor", "HeapFull")
NUMBER = "(0|[1-9][0-9]*)"
# More steps than any run of these programs takes.
ENOUGH = 10**9


def copied(fields):
    return {f: list(v) if isinstance(v, list) else v for f, v in fields.items()}


class Serial(Section):
    """A serial run that notes what it hands on: the heap, the operations and the steps that are left.

    It changes the heap itself. Where it is quiet nothing is noted.
    """

    def __init__(self, plan, heap, left, is_quiet):
        super().__init__(heap, None, None, left)
        self.plan, self.is_quiet, self.lists = plan, is_quiet, []
        self.method, self.locals = None, []

    def main(self):
        self.method = self.plan.program.main
        self.locals = [start_of(ty) for ty in self.method.locals]
        self.body(self.method.body)

    def body(self, statements):
        for s in statements:
            if s[0] == "for" and not self.is_quiet and self.plan.is_marked_loop(s):
                self.marked_loop(s)
            else:
                getattr(self, f"{s[0]}_statement")(*s[2:])

    def marked_loop(self, s):
        listing = Section(self.heap, self.receiver, self.own, self.left)
        listing.locals = list(self.locals)
        with suppress(Trap, Over):
            listing.body([s])
            self.note(listing.listed, listing.left)
        self.quietly(lambda: self.for_statement(*s[2:]))

    def note(self, operations, left):
        self.lists.append(([copied(fields) for fields in self.heap], operations, left))

    def quietly(self, run):
        was, self.is_quiet = self.is_quiet, True
        run()
        self.is_quiet = was

    def invoke_statement(self, e, method, arguments):
        receiver, given = self.value(e), tuple(self.value(a) for a in arguments)
        self.object(receiver)
        if not self.is_quiet and method in self.plan.marked_ops:
            self.note([(receiver, method, given)], self.left)
            self.quietly(lambda: self.operation(receiver, method, given))
        else:
            self.operation(receiver, method, given)

    def operation(self, receiver, method, given):
        was = self.receiver, self.own, self.method, self.locals
        self.receiver, self.own, self.method = receiver, self.heap[receiver], method
        self.run(method, given)
        self.receiver, self.own, self.method, self.locals = was

    def create(self, name):
        fields = self.plan.program.fields[name].values()
        self.heap.append({f: start_of(f.ty) if f.length is None else [start_of(f.ty)] * f.length for f in fields})
        return len(self.heap) - 1

    def put_statement(self, local, op, right):
        if right is None:
            self.locals[local] = self.create(self.method.locals[local])
        else:
            super().put_statement(local, op, right)

    def put_field_statement(self, field, op, right):
        if right is None:
            self.own[field] = self.create(field.ty)
        else:
            super().put_field_statement(field, op, right)

    def put_item_statement(self, field, index, op, right):
        if right is None:
            self.own[field][self.checked(self.value(index), field)] = self.create(field.ty)
        else:
            super().put_item_statement(field, index, op, right)

    def print_statement(self, e):
        self.value(e)


def is_done(plan, heap, operations, left):
    """Whether the serial run of these operations is done."""
    run = Serial(plan, [copied(fields) for fields in heap], left, True)
    with suppress(Trap, Over):
        for operation in operations:
            run.operation(*operation)
        return True
    return False


class Schedules:
    """The schedules of a program within a budget. `told` is what a run writes, and `status` and `steps` how it ends."""

    def __init__(self, plan, budget, status, told, steps):
        self.plan = plan
        run = Serial(plan, [], budget, False)
        with suppress(Trap, Over):
            run.main()
        self.lists = [(heap, ops, left, is_done(plan, heap, ops, left)) for heap, ops, left in run.lists]
        end = f"done {steps}" if status == 0 else told.splitlines()[-1]
        self.last = [end, "*/"]

    def any_order(self, rng):
        """The lines of a run in some order."""
        lines = []
        for heap, operations, _, done in self.lists:
            lines += ["block", *self.some_order(rng, heap, operations), "end"] if done else ["declined"]
        return lines + self.last

    def some_order(self, rng, heap, operations):
        waiting, own, way = list(operations), {}, rng.choice(("first", "last", "any"))
        while waiting:
            at = {"first": 0, "last": -1, "any": rng.randrange(len(waiting))}[way]
            operation = waiting.pop(at)
            waiting += self.ran(heap, own, operation, ENOUGH).listed
            yield self.line(operation)

    def ran(self, heap, own, operation, left):
        """The section of an operation on its object as it is now."""
        receiver, method, given = operation
        section = Section(heap, receiver, own.setdefault(receiver, copied(heap[receiver])), left)
        section.run(method, given)
        return section

    def line(self, operation):
        receiver, method, given = operation
        values = ",".join(text_of(v, ty) for v, ty in zip(given, method.locals))
        return f"#{receiver} {method.title()}({values})"

    def first_bad(self, lines):
        """The place of the first bad line, or None where they follow."""
        at = 0
        for heap, operations, left, done in self.lists:
            at, is_bad = self.past(lines, at, heap, operations, left) if done else (at, lines[at : at + 1] != ["declined"])
            if is_bad:
                return at
            at += not done
        for due in self.last:
            if lines[at : at + 1] != [due]:
                return at
            at += 1
        return at if at < len(lines) else None

    def past(self, lines, at, heap, operations, left):
        """The place behind a block, or that of the line that is bad."""
        if lines[at : at + 1] != ["block"]:
            return at, True
        waiting, own = [(self.line(it), it) for it in operations], {}
        for at in range(at + 1, len(lines)):
            if lines[at] == "end":
                return (at, True) if waiting else (at + 1, False)
            found = next((pair for pair in waiting if pair[0] == lines[at]), None)
            try:
                section = found and self.ran(heap, own, found[1], left)
            except (Trap, Over):
                section = None
            if section is None:
                return at, True
            waiting.remove(found)
            waiting += [(self.line(it), it) for it in section.listed]
            left = section.left
        return len(lines), True

    def is_formed(self, line):
        """Whether it is one of the forms."""
        if line in FIXED:
            return True
        end = re.fullmatch(f"(?:done|spent) {NUMBER}", line)
        if end:
            return int(end[1]) < 2**64
        trap = re.fullmatch(f"trap {NUMBER} ({'|'.join(KINDS)})", line)
        if trap:
            return int(trap[1]) < 2**32
        call = re.fullmatch(rf"#{NUMBER} (\w+::\w+)\((.*)\)", line)
        return bool(call) and int(call[1]) < 2**32 and self.suits(call[2], call[3])

    def suits(self, title, text):
        method = next((op for op in self.plan.program.ops if op.title() == title), None)
        if method is None:
            return False
        types, values = method.locals[: method.params], text.split(",") if text else []
        return len(types) == len(values) and all(is_value(v, ty) for v, ty in zip(values, types))

    def reply(self, text):
        """The status and the bytes that `verify` has for a schedule text behind the source, without its first line."""
        lines = text.split("\n")
        for at, line in enumerate(lines):
            if not (self.is_formed(line) if at < len(lines) - 1 else line == ""):
                return 1, f"error {at + 2}:1 E61\n"
        bad = self.first_bad(lines[:-1])
        return (0, "yes\n") if bad is None else (9, f"no {bad + 2}\n")


def is_value(text, ty):
    if ty == BOOL:
        return text in ("true", "false")
    if ty == LONG:
        return bool(re.fullmatch("0|-?[1-9][0-9]*", text)) and -(2**63) <= int(text) < 2**63
    found = re.fullmatch(f"#{NUMBER}", text)
    return text == "null" or bool(found) and int(found[1]) < 2**32


def changed(rng, lines):
    """The lines with one changed, dropped, exchanged or added."""
    lines, at = list(lines), rng.randrange(len(lines))
    way = rng.choice(("other", "number", "letter", "drop", "exchange", "add"))
    if way == "other":
        lines[at] = rng.choice([*lines, *FIXED, "done 1", "spent 1", "trap 1 NullPointer"])
    elif way == "number":
        numbers = list(re.finditer("[0-9]+", lines[at]))
        if numbers:
            it = rng.choice(numbers)
            other = rng.choice((str(int(it[0]) + 1), str(max(0, int(it[0]) - 1)), "0" + it[0], str(2**rng.choice((32, 63, 64)))))
            lines[at] = lines[at][: it.start()] + other + lines[at][it.end() :]
    elif way == "letter":
        letter = rng.randrange(len(lines[at]))
        lines[at] = lines[at][:letter] + rng.choice((" ", "", "x", "#", ",")) + lines[at][letter + 1 :]
    elif way == "drop":
        del lines[at]
    elif way == "exchange":
        other = rng.randrange(len(lines))
        lines[at], lines[other] = lines[other], lines[at]
    else:
        lines.insert(at, rng.choice(lines))
    return lines


def texts_of(rng, schedules, count):
    """Texts of schedules, without their first line: one that follows, and others with something changed."""
    for number in range(count):
        lines = schedules.any_order(rng)
        text = "".join(line + "\n" for line in (changed(rng, lines) if number else lines))
        yield text[:-1] if number and rng.random() < 0.02 else text
