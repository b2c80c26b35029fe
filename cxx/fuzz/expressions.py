# Not proved: a part of the fuzzer of cxx/, which compares the front with g++ by tests alone.
"""Random expressions whose value C++17 fixes: no two effects without an order, and few signed overflows.

A program in which a sanitizer of g++ finds undefined behaviour is thrown away; the bounds here (small literals, remainders at
assignments) only make that rare.
"""

from __future__ import annotations

from random import Random

from shapes import Method, Scope, Variable

COMPARISONS = ("==", "!=", "<", "<=", ">", ">=")


def may_call(scope: Scope, method: Method) -> bool:
    """Whether a place may call a method and has what its parameters want."""
    if scope.constant and not method.constant:
        return False
    if method.object and all(it.to != method.object for it in scope.pointers):
        return False
    wanted = [kind[:-2] for _, kind in method.parameters if kind.endswith("&")]
    return all(any(it.writable and it.type == kind for it in scope.numbers) for kind in wanted)


class Expressions:
    """Writes expressions of a scope from one source of random numbers."""

    def __init__(self, random: Random) -> None:
        self.random = random

    def literal(self, kind: str) -> str:
        """A literal that the type can hold."""
        value = self.random.choice((0, 1, 2, 3, 5, 7, 10, 17, 100, 255))
        if kind == "unsigned":
            return f"{self.random.choice((value, 1664525, 4294967295))}u"
        if kind == "bool":
            return self.random.choice(("true", "false"))
        return str(value) if self.random.random() < 0.7 else f"(-{value})"

    def leaf(self, scope: Scope, kind: str) -> str:
        """A literal, a variable, an item at a safe index, or a field behind a pointer that is tested."""
        random = self.random
        near = [it for it in scope.numbers if it.type == kind] or scope.numbers
        choice = random.random()
        if near and choice < 0.6:
            return random.choice(near).text
        if scope.items and choice < 0.75:
            return self.item(scope)
        return self.literal(kind)

    def item(self, scope: Scope) -> str:
        """An item of an array at an index that is inside."""
        items = self.random.choice(scope.items)
        return f"{items.text}[{self.index(scope, items.size)}]"

    def index(self, scope: Scope, size: int) -> str:
        """An index from 0 to below the size, without an effect."""
        if not scope.numbers or self.random.random() < 0.5:
            return str(self.random.randrange(size))
        variable = self.random.choice(scope.numbers)
        if variable.type == "unsigned":
            return f"{variable.text} % {size}"
        if variable.type == "bool":
            return f"({variable.text} ? {size - 1} : 0)"
        return f"(({variable.text} % {size} + {size}) % {size})"

    def number(self, scope: Scope, kind: str, depth: int = 2) -> str:
        """An expression without an effect."""
        random = self.random
        if depth == 0 or random.random() < 0.2:
            return self.leaf(scope, kind)
        left, right = self.number(scope, kind, depth - 1), self.number(scope, kind, depth - 1)
        forms = [
            f"({left} {random.choice('+-')} {right})",
            f"({left} {random.choice('&|^')} {right})",
            f"({left} * {random.choice((2, 3, 5))})",
            f"({left} {random.choice('/%')} {random.choice((2, 3, 7, 8, 16))})",
            f"({self.condition(scope, depth - 1)} ? {left} : {right})",
            f"({self.condition(scope, depth - 1)})",
            f"-({left})" if kind != "unsigned" else f"(~({left}))",
            f"std::{random.choice(('min', 'max'))}<{kind}>({left}, {right})",
        ]
        if kind == "unsigned":
            forms += [
                f"({left} << {random.randrange(1, 31)})",
                f"({left} >> {random.randrange(1, 31)})",
                f"({left} * {right})",
            ]
        else:
            forms += [
                f"(({left} & 1023) << {random.randrange(1, 8)})",
                f"(({left} & 65535) >> {random.randrange(1, 8)})",
                f"({left} >> {random.randrange(1, 31)})",
                f"({left} {random.choice('/%')} (-{random.choice((2, 3, 7))}))",
            ]
            forms += [f"({kind})({right})", f"(unsigned char)({left})", f"(int)(short)({left})"]
        return random.choice(forms)

    def condition(self, scope: Scope, depth: int = 1) -> str:
        """A truth value without an effect."""
        random = self.random
        if scope.pointers and random.random() < 0.2:
            pointer = random.choice(scope.pointers)
            return random.choice((f"!{pointer.text}", f"{pointer.text} != nullptr", f"({pointer.text} ? true : false)"))
        kind = random.choice(("int", "long"))
        plain = f"{self.signed(scope, depth)} {random.choice(COMPARISONS)} {self.signed(scope, depth)}"
        if depth > 0 and random.random() < 0.4:
            other = self.condition(scope, depth - 1)
            return random.choice((f"({plain}) && ({other})", f"({plain}) || ({other})", f"!({plain})"))
        return plain if random.random() < 0.8 else f"({kind})({self.leaf(scope, kind)})"

    def signed(self, scope: Scope, depth: int) -> str:
        """A number that compares as signed, so that no comparison mixes signs."""
        return f"(long)({self.number(scope, 'int', depth)})"

    def with_effect(self, scope: Scope, kind: str) -> str:
        """An expression with effects that C++17 puts in an order."""
        random = self.random
        places = [it for it in scope.numbers if it.writable and it.type != "bool"]
        if not places or scope.constant:
            return self.number(scope, kind)
        place = random.choice(places)
        step = random.choice((f"{place.text}++", f"++{place.text}", f"{place.text}--", f"--{place.text}"))
        rest = self.number(scope, kind, 1)
        forms = [
            step,
            f"({self.condition(scope)} ? {step} : {rest})",
            f"({step}, {rest})",
            f"({place.text} = {self.narrow(scope, place)}, {place.text} + {self.literal(kind)})",
            f"(({self.condition(scope)}) && {step} > 3)",
            f"(({step}) < 5 || ({self.condition(scope)}))",
            f"({place.text} += {random.choice((1, 2, 3))})",
        ]
        call = self.call(scope, kind)
        return random.choice(forms + [call] * 3 if call else forms)

    def narrow(self, scope: Scope, place: Variable) -> str:
        """A value for a place that keeps it small, so that sums of places rarely overflow."""
        value = self.number(scope, place.type)
        if place.type == "unsigned" or place.type == "bool":
            return value
        return f"({value}) % {self.random.choice((97, 997, 1009))}"

    def call(self, scope: Scope, kind: str) -> str:
        """A call of a method of a lower level that gives a number, with at most one effect in its arguments; or nothing."""
        able = [(text, it) for text, it in scope.calls if it.result != "void" and may_call(scope, it)]
        if not able:
            return ""
        receiver, method = self.random.choice(able)
        return self.call_of(scope, receiver, method)

    def call_of(self, scope: Scope, receiver: str, method: Method) -> str:
        """A call with arguments; a receiver behind a pointer is tested by who calls this."""
        objects = [it.text for it in scope.pointers if it.to == method.object]
        first = [self.random.choice(objects)] if method.object else []
        arguments = first + [self.argument(scope, kind) for _, kind in method.parameters]
        return f"{receiver}{method.name}({', '.join(arguments)})"

    def argument(self, scope: Scope, kind: str) -> str:
        """An argument without an effect; the type of a reference asks for a place."""
        if kind.endswith("&"):
            places = [it.text for it in scope.numbers if it.writable and f"{it.type} &" == kind]
            return self.random.choice(places)
        value = self.number(scope, kind, 1)
        return value if kind in ("unsigned", "bool") else f"({value}) % 1000"
