"""Random programs that run what they mark: as those for the analysis, over objects that `main` links.

An operation calls those that stand before it in the text; under a mark, which is set once on each object, it may
call any.
"""

from reference.objects import FreeWriter, Objects, put
from reference.programs import LONG, Method
from reference.texts import Writer

SIZES = [2, 3, 5, 8, 15, 16, 17, 40]


def apart(it):
    """The same statements, no two of which are one tuple, since lines are kept by what is one."""
    if isinstance(it, (tuple, list)):
        return type(it)(apart(part) for part in it)
    return it


class Linked(Objects):
    at, is_once = 0, False

    def operation(self, params):
        body = apart(super().operation(params))
        self.at += 1
        return body

    def value_body(self, m):
        body = super().value_body(m)
        self.at += 1
        return body

    def callees(self, result):
        found = super().callees(result)
        if self.within is None or self.is_once or self.chance(0.05):
            return found
        return [pair for pair in found if self.callable.index(pair) < self.at]

    def once(self):
        self.is_once = True
        found = super().once()
        self.is_once = False
        return found

    def main_body(self):
        """Objects, what no operation writes in them, and then calls and loops of calls."""
        for c in self.classes:
            c.methods.append(self.tie(c))
        made = [(f"o{i}", self.rng.choice(self.classes).name) for i in range(self.rng.choice(SIZES))]
        body = [("local", name, ty, ("new", ty)) for name, ty in made]
        for name, ty in made:
            c = next(c for c in self.classes if c.name == ty)
            arguments = [self.leaf(t, made, 0) for _, t in c.methods[-1].params]
            body.append(("call", ("local", name), c.methods[-1], arguments))
        return body + self.calls(made, self.rng.randint(1, 8))

    def tie(self, c):
        """The operation that puts all fields which others only read."""
        params, body = [], []
        for name, ty, length in c.fields:
            if name[0] == "k":
                for index in range(length or 1):
                    params.append((f"q{len(params)}", ty))
                    place = None if length is None else ("number", index)
                    body.append(put(name, "=", ("local", params[-1][0]), place, length))
        tie = Method("tie", None, params)
        tie.body = body
        return tie

    def call_loop(self, names):
        """In `main` a loop has some turns more."""
        _, first, bound, step, body = super().call_loop(names)
        if self.within is None and self.chance(0.7):
            first = (*first[:3], ("number", 0))
            bound = (*bound[:3], ("number", self.rng.randint(1, 40)))
        return ("for", first, bound, step, body)


class LinkedWriter(FreeWriter):
    """Writes no fields but those of the program, since a run writes them."""

    def fields(self, fields):
        Writer.fields(self, fields)
