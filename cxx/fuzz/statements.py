# Not proved: a part of the fuzzer of cxx/, which compares the front with g++ by tests alone.
"""Random statements: assignments, jumps, loops that end, prints and calls."""

from __future__ import annotations

from random import Random

from expressions import Expressions, may_call
from shapes import FORMATS, INTEGERS, Pointer, Scope, Variable

Lines = list[str]


def indented(lines: Lines) -> Lines:
    """The lines one step further in."""
    return ["  " + line for line in lines]


class Statements:
    """Writes statements of a scope from one source of random numbers."""

    def __init__(self, random: Random) -> None:
        self.random = random
        self.expressions = Expressions(random)
        self.locals = 0
        self.budget = 0

    def fresh(self, stem: str) -> str:
        """A name for a local that nothing else in the program has."""
        self.locals += 1
        return f"{stem}{self.locals}"

    def block(self, scope: Scope, most: int, depth: int) -> Lines:
        """Some statements in a scope of their own."""
        inner = scope.inner()
        lines: Lines = []
        for _ in range(self.random.randint(1, most)):
            self.budget -= 1
            if self.budget < 0:
                break
            lines += self.statement(inner, depth)
        return lines or [";"]

    def statement(self, scope: Scope, depth: int) -> Lines:
        """One statement; what it declares is added to the scope."""
        random = self.random
        simple = [self.declaration, self.assignment, self.assignment, self.compound, self.printed, self.effect]
        if scope.items and not scope.constant:
            simple += [self.put_item]
        if scope.calls:
            simple += [self.called, self.called]
        if not scope.constant and random.random() < 0.12:
            return self.extra(scope)
        if scope.in_loop and random.random() < 0.15:
            return self.jump(scope)
        if depth > 0 and random.random() < 0.4:
            nested = (self.branch, self.branch, self.counted, self.countdown, self.do_loop, self.switch, self.guarded)
            return random.choice(nested)(scope, depth)
        return random.choice(simple)(scope)

    def place(self, scope: Scope) -> Variable | None:
        """A variable that may be written here."""
        able = [it for it in scope.numbers if it.writable]
        return self.random.choice(able) if able else None

    def declaration(self, scope: Scope) -> Lines:
        """A local number, sometimes two of them in one declaration."""
        kind = self.random.choice(INTEGERS)
        name = self.fresh("v")
        made = Variable(name, kind)
        value = self.expressions.narrow(scope, made)
        if kind == "bool":
            value = self.expressions.condition(scope)
        elif self.random.random() < 0.2 and kind in ("int", "long"):
            value = f"({self.expressions.with_effect(scope, kind)}) % 1009"
        line = f"{kind} {name} = {self.cast(kind, value)};"
        if self.random.random() < 0.2 and kind != "bool":
            second = self.fresh("v")
            line = f"{kind} {name} = {self.cast(kind, value)}, {second} = {self.expressions.literal(kind)};"
            scope.numbers.append(Variable(second, kind))
        scope.numbers.append(made)
        return [line]

    def cast(self, kind: str, value: str) -> str:
        """The value as the type has it, said where the text would narrow it without a word."""
        return f"({kind})({value})" if kind == "short" else value

    def assignment(self, scope: Scope) -> Lines:
        """`x = e;`, with an effect on its right side or chained now and then."""
        place = self.place(scope)
        if place is None:
            return self.printed(scope)
        if place.type == "bool":
            return [f"{place.text} = {self.expressions.condition(scope)};"]
        if self.random.random() < 0.2:
            other = self.place(scope)
            if other is not None and other.type == place.type and other.text != place.text:
                return [
                    f"{place.text} = {other.text} = {self.cast(place.type, self.expressions.narrow(scope, place))};"
                ]
        value = self.expressions.narrow(scope, place)
        if self.random.random() < 0.3:
            value = self.expressions.with_effect(scope, place.type)
            value = value if place.type == "unsigned" else f"({value}) % 997"
        return [f"{place.text} = {self.cast(place.type, value)};"]

    def compound(self, scope: Scope) -> Lines:
        """`x += e;` and its like, `x++;`."""
        place = self.place(scope)
        if place is None or place.type == "bool":
            return self.printed(scope)
        value = self.expressions.narrow(scope, place)
        sign = self.random.choice(("+=", "-=", "^=", "&=", "|=", "*=", "/=", "%=", "++", "--"))
        if sign in ("++", "--"):
            return [f"{place.text}{sign};" if self.random.random() < 0.5 else f"{sign}{place.text};"]
        if sign in ("/=", "%="):
            value = str(self.random.choice((2, 3, 8, 10)))
        if sign == "*=":
            return [f"{place.text} *= {self.random.choice((2, 3))};"] + self.kept_small(place)
        return [f"{place.text} {sign} {value};"] + self.kept_small(place)

    def kept_small(self, place: Variable) -> Lines:
        """What keeps a signed place small behind an assignment that may let it grow."""
        return [] if place.type == "unsigned" else [f"{place.text} %= 4001;"]

    def effect(self, scope: Scope) -> Lines:
        """An expression statement."""
        if scope.constant and not any(it.writable for it in scope.numbers):
            return self.printed(scope)
        return [f"(void)({self.expressions.with_effect(scope, 'long')});"]

    def put_item(self, scope: Scope) -> Lines:
        """A put at an index that is inside, or at an index with an effect behind the right side."""
        items = self.random.choice(scope.items)
        index = self.expressions.index(scope, items.size)
        value = self.expressions.narrow(scope, Variable("", items.type))
        if items.type == "bool":
            value = self.expressions.condition(scope)
        sign = self.random.choice(("=", "=", "+=")) if items.type not in ("bool", "short") else "="
        line = f"{items.text}[{index}] {sign} {self.cast(items.type, value)};"
        small = [] if items.type in ("unsigned", "bool") or sign == "=" else [f"{items.text}[{index}] %= 4001;"]
        return [line] + (small if not any(it.text in index for it in scope.numbers if "++" in it.text) else [])

    def called(self, scope: Scope) -> Lines:
        """A call for its effect; references get places."""
        able = [(text, it) for text, it in scope.calls if may_call(scope, it)]
        if not able:
            return self.printed(scope)
        receiver, method = self.random.choice(able)
        call = self.expressions.call_of(scope, receiver, method)
        if method.result in ("int", "long") and self.random.random() < 0.5:
            name = self.fresh("r")
            scope.numbers.append(Variable(name, method.result))
            return [f"{method.result} {name} = {call} % 1009;"]
        return [f"{call};" if method.result == "void" else f"(void){call};"]

    def printed(self, scope: Scope) -> Lines:
        """A line of output by printf or by cout."""
        if scope.constant and self.random.random() < 0.7:
            return [";"]
        kinds = [self.random.choice(INTEGERS) for _ in range(self.random.randint(1, 3))]
        values = [
            self.expressions.number(scope, it, 1) if it != "bool" else self.expressions.condition(scope) for it in kinds
        ]
        cast = [f"({it})({value})" for it, value in zip(kinds, values)]
        word = self.random.choice(("a", "sum", "x=", "-", "100%"))
        if self.random.random() < 0.5:
            form = " ".join(FORMATS[it] for it in kinds)
            return [f'printf("{word.replace("%", "%%")} {form}\\n", {", ".join(cast)});']
        return [
            f'std::cout << "{word} " << '
            + " << ' ' << ".join(cast)
            + self.random.choice((" << std::endl;", ' << "\\n";'))
        ]

    def jump(self, scope: Scope) -> Lines:
        """A jump out of the loop or of the method, under a condition."""
        able = ["break;", "continue;"] if not scope.in_switch else ["continue;"]
        if scope.result == "void":
            able.append("return;")
        elif scope.result != "main":
            able.append(f"return {self.result(scope)};")
        return [f"if ({self.expressions.condition(scope)}) {self.random.choice(able)}"]

    def result(self, scope: Scope) -> str:
        """A value of the type that the method gives."""
        if scope.result == "bool":
            return self.expressions.condition(scope)
        return self.cast(scope.result, self.expressions.narrow(scope, Variable("", scope.result)))

    def branch(self, scope: Scope, depth: int) -> Lines:
        """An if, with an else now and then."""
        lines = [f"if ({self.expressions.condition(scope)}) {{", *indented(self.block(scope, 3, depth - 1))]
        if self.random.random() < 0.5:
            lines += ["} else {", *indented(self.block(scope, 3, depth - 1))]
        return lines + ["}"]

    def counted(self, scope: Scope, depth: int) -> Lines:
        """A for loop whose counter its body reads alone."""
        name, kind = self.fresh("i"), self.random.choice(("int", "long", "unsigned"))
        inner = scope.inner()
        inner.numbers.append(Variable(name, kind, writable=False))
        inner.in_loop, inner.in_switch = scope.in_loop + 1, 0
        most, step = self.random.randint(1, 6), self.random.choice((1, 1, 1, 2, 3))
        bound = (
            f"{name} {self.random.choice(('<', '<='))} {most}"
            if step > 1
            else f"{name} {self.random.choice(('<', '!='))} {most}"
        )
        forward = f"{name}++" if step == 1 else f"{name} += {step}"
        return [f"for ({kind} {name} = 0; {bound}; {forward}) {{", *indented(self.block(inner, 3, depth - 1)), "}"]

    def countdown(self, scope: Scope, depth: int) -> Lines:
        """A while loop with its own counter, which goes down in its condition."""
        name = self.fresh("n")
        inner = scope.inner()
        inner.numbers.append(Variable(name, "int", writable=False))
        inner.in_loop, inner.in_switch = scope.in_loop + 1, 0
        head = self.random.choice((f"while ({name}-- > 0)", f"while (--{name} >= 0)", f"for (; {name}; --{name})"))
        return [
            f"int {name} = {self.random.randint(1, 5)};",
            f"{head} {{",
            *indented(self.block(inner, 3, depth - 1)),
            "}",
        ]

    def do_loop(self, scope: Scope, depth: int) -> Lines:
        """A do loop, which runs once at least."""
        name = self.fresh("d")
        inner = scope.inner()
        inner.numbers.append(Variable(name, "int", writable=False))
        inner.in_loop, inner.in_switch = scope.in_loop + 1, 0
        body = self.block(inner, 3, depth - 1)
        return [f"int {name} = {self.random.randint(0, 4)};", "do {", *indented(body), f"}} while ({name}-- > 0);"]

    def switch(self, scope: Scope, depth: int) -> Lines:
        """A switch over small numbers, in which a case falls through now and then."""
        inner = scope.inner()
        inner.in_switch = 1
        lines = [f"switch ({self.expressions.index(scope, 5)}) {{"]
        for case in self.random.sample(range(5), self.random.randint(1, 4)):
            ends = self.random.random() < 0.7
            lines += [f"case {case}: {{", *indented(self.block(inner, 2, depth - 1)), "}" + (" break;" if ends else "")]
        if self.random.random() < 0.6:
            lines += ["default: {", *indented(self.block(inner, 2, depth - 1)), "}"]
        return lines + ["}"]

    def guarded(self, scope: Scope, depth: int) -> Lines:
        """Work on an object behind a pointer that isn't null."""
        if not scope.pointers:
            return self.branch(scope, depth)
        return self.behind(scope, self.random.choice(scope.pointers), depth)

    def extra(self, scope: Scope) -> Lines:
        """A statement over what stands in front of the program; the program's writer has them."""
        raise NotImplementedError

    def behind(self, scope: Scope, pointer: Pointer, depth: int) -> Lines:
        """Statements that may name the members behind the pointer; the program's writer says which."""
        raise NotImplementedError
