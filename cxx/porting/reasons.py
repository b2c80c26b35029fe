"""Not proved (README.md). What stands in the way of a loop or recursion, in the user's lines and names, and what
usually mends it."""

import os
import re
from dataclasses import dataclass
from typing import Callable

from . import form
from .clang import INCLUDE
from .places import Place
from .port import Ported

PAIR = re.compile(r"^(\S+) (\S+) (commutes|unproved (.*))$")
# What the operation is called that adds an item to a vector.
PUSH = "vector's push"
# So many containers are looked at that are within another one.
NESTED = 4
# What forbids that an operation first works on its object and then calls: what is said of it, and what mends it.
CAUSES = {
    "AccessAfterCall": (
        "{op} uses {own} members behind a call that may change them",
        "do all that concerns the object itself before the calls",
    ),
    "ForeignRead": (
        "{op} reads a member of another object, which the same calls change",
        "keep what is read in a member that these calls don't change",
    ),
    "FunctionRead": (
        "{op} asks a function for what the same calls change",
        "compute it from what these calls don't change",
    ),
    "Creates": ("{op} makes objects", "make them before; where they are values, pass their numbers"),
    "Prints": ("{op} prints", "print behind the loop"),
    "DividesByVariable": (
        "{op} divides by a value that may be zero",
        "divide in a const function, and call that",
    ),
}


# What no order mends, and is said of a member.
PASSED_ON = "from what the call before it left there"


@dataclass
class Reason:
    """A sentence, and what usually mends it."""

    said: str
    mended: str

    def __str__(self) -> str:
        return f"{self.said}; {self.mended}" if self.mended else self.said


class Namer:
    """The user's names and lines of what the program answers."""

    def __init__(self, ported: Ported) -> None:
        self.ported = ported
        self.methods = {repr(method): method for method in ported.program.methods()}

    def operation(self, name: str) -> str:
        method = self.methods.get(name)
        return (method.origin or method.name) if method is not None else name

    def is_users(self, name: str) -> bool:
        """Whether it is a function of the user's."""
        method = self.methods.get(name)
        return method is not None and method.user

    def place(self, line: int) -> Place:
        return self.ported.text.places[line - 1]

    def field(self, method: str, name: str) -> tuple[str, str]:
        """A member in the user's words, and behind it where it is declared."""
        cls = self.methods[method].cls if method in self.methods else None
        slot = next((one for one in cls.slots if one.name == name), None) if cls is not None else None
        if slot is None:
            return name, ""
        return slot.origin or slot.name, f" ({short(slot.place)})" if slot.place.line else ""

    def _asked(self, op: str, at: form.Statement | None) -> Reason | None:
        """Which function is asked for what the same calls change: where that are members of the object itself, they can
        be passed."""
        method = self.methods.get(op)
        if method is None or at is None:
            return None
        exprs = form.own_expressions(at)
        changed = {
            one.target.name
            for one in form.statements(method.body)
            if isinstance(one, form.Put) and isinstance(one.target, (form.Field, form.Item))
        }
        for call in (part for expr in exprs for part in form.within(expr)):
            if not isinstance(call, form.Apply) or not isinstance(call.receiver, form.This):
                continue
            read = [name for name in _own_reads(call.method, set()) if name in changed]
            if read:
                names = " and ".join(read)
                said = f"{self.operation(op)} asks {call.method.origin} for {names}, which it changes itself"
                return Reason(said, f"pass {names} to it as arguments, or write what it computes here")
        return None

    def _own(self, first: str, name: str) -> str | None:
        """What mends a write to a part that each object has by value, and whose calls thus never meet."""
        method = self.methods.get(first)
        if method is None:
            return None
        to = form.Pointer(method.cls.name)
        found = [(cls, slot) for cls in self.ported.program.classes.values() for slot in cls.slots if slot.type == to]
        if len(found) != 1 or not found[0][1].owned or found[0][0].name == "Program":
            return None
        owner, slot = found[0]
        where = owner.origin or owner.name
        return f"each {where} has its own {slot.origin or slot.name}: let {name} be a member of {where} itself, which it changes"

    def _container(self, name: str) -> Reason | None:
        """What is said of an operation of the library: that a container is changed, and which one, if that can be
        told."""
        method = self.methods.get(name)
        cls = method.cls if method is not None else None
        if method is None or method.user or cls is None or not cls.place.file.startswith(INCLUDE):
            return None
        held, named = cls, "a container of the library"
        for _ in range(NESTED):
            to = form.Pointer(held.name)
            owners = {
                one: slot for one in self.ported.program.classes.values() for slot in one.slots if slot.type == to
            }
            if len(owners) != 1:
                break
            ((held, slot),) = owners.items()
            if not held.place.file.startswith(INCLUDE):
                where = f" ({short(slot.place)})" if slot.place.line else ""
                named = f"{slot.origin or slot.name}{where}, a container of the library,"
                break
        return Reason(
            f"{named} is changed, and the order of the calls decides where its items are",
            "change it in a loop of its own, and do what takes long in another one",
        )

    def _differs(self, first: str, pushes: bool, both: str, name: str) -> Reason:
        """Why calls that leave other values in a member don't commute."""
        method = self.methods.get(first)
        slots = method.cls.slots if method is not None else []
        if pushes or any(slot.grows and name in (slot.name, f"{slot.name}_n") for slot in slots):
            vector = "a vector" if pushes else "".join(self.field(first, name.removesuffix("_n")))
            return Reason(
                f"each adds an item to {vector}, behind those that are there, and the order of the calls decides where",
                "add them in a loop of its own, and do what takes long in another one",
            )
        field, where = self.field(first, name)
        who = f"{both} write {field}"
        if self.operation(first).startswith("a write of "):
            who = f"{field} is written from outside its object"
        mended = self._own(first, name) or "add to it, or keep the greatest or least, in place of the last"
        return Reason(f"{who}, and the order decides what it has at last{where}", mended)

    def weight(self, line: str) -> int:
        """How much a reason says, the least first: what no order can mend, what is the user's own, the rest, and what
        comes of a result that the port keeps in a member."""
        words = line.split()
        if words[3:4] == ["NotSeparable"] and words[-1] in ("Creates", "Prints"):
            return 0
        if words[3:4] == ["NotSeparable"] and self._reads_result(words[4], int(words[5])):
            return 3
        first = self.methods.get(words[0])
        return (
            1 if first is not None and not first.origin.startswith("a ") and "first values" not in first.origin else 2
        )

    def _reads_result(self, op: str, line: int) -> bool:
        """Whether the statement at a line reads what a call has given back, which the port keeps in a member."""
        method, one = self.methods.get(op), self.ported.text.statements[line - 1]
        if method is None or one is None:
            return False
        results = {slot.name for slot in method.cls.slots if slot.origin.startswith("the result of ")}
        parts = (part for expr in form.own_expressions(one) for part in form.within(expr))
        return any(isinstance(part, form.Field) and part.name in results for part in parts)

    def passed_on(self, line: str) -> Reason | None:
        """Of a pair of one function of the user with itself that isn't shown to commute: whether it makes a member from
        what the member was, otherwise than by adding to it or keeping the greatest or least. Then no order mends it."""
        words = line.split()
        method = self.methods.get(words[0])
        if words[0] != words[1] or words[2] != "unproved" or method is None or not method.user:
            return None
        for one in form.statements(method.body):
            if (
                isinstance(one, form.Put)
                and isinstance(one.target, form.Field)
                and isinstance(one.target.object, form.This)
            ):
                if _goes_on(one):
                    field, where = self.field(words[0], one.target.name)
                    said = f"each call of {self.operation(words[0])} makes {field} {PASSED_ON}{where}"
                    return Reason(said, "give each object that calls it one of its own")
        return None

    def reason(self, line: str) -> Reason | None:
        """The reason of a line of `pairs`; none where the pair commutes."""
        found = PAIR.match(line)
        if found is None or found.group(3) == "commutes":
            return None
        first, second, words = found.group(1), found.group(2), found.group(4).split()
        one, other = self.operation(first), self.operation(second)
        both = f"two calls of {one}" if one == other else f"a call of {one} and one of {other}"
        container = self._container(words[1] if words[0] == "NotSeparable" else first) or self._container(second)
        if container is not None:
            return container
        match words:
            case ["NotSeparable", op, at, why]:
                return self._inseparable(op, int(at), why)
            case ["LoopForm", at]:
                loop, where = self.ported.text.statements[int(at) - 1], f"the loop at {short(self.place(int(at)))}"
                if isinstance(loop, (form.Loop, form.Count)):
                    inner = unlisted(loop)
                    return Reason(f"of {where}: {inner.said}", inner.mended)
                return Reason(f"{where} does more than call functions of objects", BODY)
            case ["Large"]:
                return Reason(
                    f"what {one} computes is too large to be compared",
                    "compute parts of it in const functions, which get the members that these calls change as arguments",
                )
            case ["FieldDiffers", name]:
                return self._differs(first, PUSH in (one, other), both, name)
            case ["DemandsDiffer"]:
                return Reason(
                    f"{both} call or check other things in another order", "pass values that these calls don't change"
                )
        return Reason(line, "")

    def _inseparable(self, op: str, at: int, why: str) -> Reason:
        """What forbids that an operation first works on its object and then calls."""
        said, mended = CAUSES[why]
        where = f" ({short(self.place(at))})"
        asked = self._asked(op, self.ported.text.statements[at - 1]) if why == "FunctionRead" else None
        if asked is not None:
            return Reason(asked.said + where, asked.mended)
        return Reason(said.format(op=self.operation(op), own="its own") + where, mended)


def _goes_on(put: form.Put) -> bool:
    """Whether a member is made from what it was, so that the order of two such puts can be seen."""
    if put.operator:
        return False
    if isinstance(put.value, form.Binary) and put.value.operator in ("+", "-", "max", "min", "|", "&", "^"):
        if put.target in (put.value.left, put.value.right):
            return False
    return put.target in form.within(put.value)


def short(place: Place) -> str:
    """A place without its column; of the stub headers the header."""
    if place.file.startswith(INCLUDE):
        return f"<{os.path.basename(place.file)}>"
    return f"{place.file}:{place.line}" if place.line else "the port"


BODY = "make the body a member function of the object that it works on"


def unlisted(loop: form.Loop | form.Count) -> Reason:
    """Why a loop isn't one whose turns are calls."""
    walked = isinstance(loop, form.Count) and isinstance(loop.counter.type, form.Pointer)
    if isinstance(loop, form.Loop) or walked:
        said = "it follows links" if walked else "its iterations aren't counted"
        return Reason(
            f"{said}, so that one has to end before it is known whether there is another",
            "where each is about an object of its own, keep these in a vector and write for (.. : vector); else it stays serial",
        )
    assert isinstance(loop, form.Count)
    inside = list(form.statements(loop.body))
    declared = {one.local for one in inside if isinstance(one, (form.Let, form.Make))} | {loop.counter}
    declared |= {one.counter for one in inside if isinstance(one, form.Count)}
    return (
        _first(inside, lambda one: isinstance(one, form.Tell), "its iterations print", "print behind the loop")
        or _first(
            inside,
            lambda one: isinstance(one, form.Make),
            "its iterations make objects",
            "make them in a loop of its own before",
        )
        or _left(loop)
        or _shared(inside, declared)
        or _summed(loop)
        or _first(
            loop.body,
            lambda one: not isinstance(one, form.Do),
            "its body does more than call functions of objects",
            BODY,
        )
        or Reason("it doesn't count up by one to a bound", "write for (int i = ..; i < n; i++)")
    )


def _own_reads(method: form.Method, seen: set[form.Method]) -> list[str]:
    """The members of its own object that a function asks for, also by other functions of it."""
    if method in seen:
        return []
    seen.add(method)
    found: list[str] = []
    for one in form.expressions(method.body):
        for part in form.within(one):
            if isinstance(part, (form.Field, form.Item)) and isinstance(part.object, form.This):
                found.append(part.name)
            elif isinstance(part, form.Apply) and isinstance(part.receiver, form.This):
                found += _own_reads(part.method, seen)
    return list(dict.fromkeys(found))


def _first(
    body: list[form.Statement], wanted: Callable[[form.Statement], bool], said: str, mended: str
) -> Reason | None:
    found = next((one for one in body if wanted(one)), None)
    return Reason(f"{said} ({short(found.place)})", mended) if found is not None else None


def _summed(loop: form.Count) -> Reason | None:
    """A loop that calls nothing and only changes members of the object itself."""
    puts = [one for one in form.statements(loop.body) if isinstance(one, form.Put) and one is not loop.step]
    own = all(isinstance(one.target, form.Field) and isinstance(one.target.object, form.This) for one in puts)
    if not puts or not own or any(isinstance(one, form.Do) for one in form.statements(loop.body)):
        return None
    names = ", ".join(dict.fromkeys(one.target.name for one in puts))
    return Reason(
        f"it computes {names} itself ({short(puts[0].place)})",
        "compute it in a const member function with a local, and add what that gives",
    )


def _left(loop: form.Count) -> Reason | None:
    """A loop that a turn may end."""
    flags = {
        one.operand
        for one in form.within(loop.condition)
        if isinstance(one, form.Not) and isinstance(one.operand, form.Local)
    }
    for one in form.statements(loop.body):
        if isinstance(one, form.Put) and one.target in flags:
            said = f"an iteration may end it ({short(one.place)}), so that those behind it don't come"
            return Reason(said, "let all of them run, and keep what they find in a member")
    return None


def _kept(put: form.Put, name: str, inside: list[form.Statement]) -> str:
    """What mends a local that iterations pass on: by what they make of it."""
    target, value = put.target, put.value
    if isinstance(target.type, form.Pointer):
        return f"let an object keep {name} as a member, and let each iteration call a member function of it"
    parts = list(form.within(value))
    if (
        put.operator in ("+", "-")
        or isinstance(value, form.Binary)
        and value.operator == "+"
        and target in (value.left, value.right)
    ):
        return "let each add to a member of an object"
    compared = any(
        isinstance(one, form.If)
        and put in list(form.statements(one.yes))
        and target in list(form.within(one.condition))
        for one in inside
    )
    if compared or any(isinstance(one, form.Binary) and one.operator in ("max", "min") for one in parts):
        return "let an object keep the greatest or the least as a member, which each iteration puts by std::max or std::min"
    return "let each leave what it finds in a member, where that may be a sum, the greatest or the least"


def _shared(inside: list[form.Statement], declared: set[form.Local]) -> Reason | None:
    """A local that the turns hand on from one to the next."""
    for one in inside:
        if isinstance(one, form.Put) and isinstance(one.target, form.Local) and one.target not in declared:
            name = one.target.name.rstrip("_")
            return Reason(
                f"its iterations pass {name} on from one to the next ({short(one.place)})", _kept(one, name, inside)
            )
    return None
