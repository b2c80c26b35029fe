# Not proved: a part of the fuzzer of cxx/, which compares the front with g++ by tests alone.
"""Whole random programs: classes, functions, globals and a main, from one seed."""

from __future__ import annotations

from random import Random

from shapes import INTEGERS, Class, Items, Method, Pointer, Scope, Variable
import extras
from statements import Lines, indented

HEAD = [
    "#include <algorithm>",
    "#include <cstdio>",
    "#include <cstdlib>",
    "#include <iostream>",
    "#include <vector>",
    "",
]
ARRAY = 4


class Program(extras.Extras):
    """One program; `text` writes it."""

    def __init__(self, seed: int) -> None:
        super().__init__(Random(seed))
        self.classes: list[Class] = []
        self.functions: list[Method] = []
        self.globals: list[Variable] = []
        self.budget = 150

    def text(self) -> str:
        """The program's text, the same for the same seed."""
        names = [f"C{it}" for it in range(self.random.randint(1, 3))]
        lines = HEAD + extras.HEAD + [f"class {it};" for it in names]
        for at in range(self.random.randint(0, 3)):
            kind = self.random.choice(INTEGERS)
            self.globals.append(Variable(f"g{at}", kind))
            lines.append(f"static {kind} g{at} = {self.expressions.literal(kind)};")
        for name in names:
            lines += self.class_text(self.shape(name, names)) + [""]
        for at in range(self.random.randint(0, 2)):
            lines += self.function_text(at) + [""]
        return "\n".join(lines + self.main_text()) + "\n"

    def shape(self, name: str, names: list[str]) -> Class:
        """A class with its fields and the heads of its methods."""
        random = self.random
        made = Class(name)
        if self.classes and random.random() < 0.4:
            made.base = random.choice(self.classes)
        lower = name.lower()
        made.numbers = [(f"{lower}_n{it}", random.choice(INTEGERS)) for it in range(random.randint(1, 4))]
        if random.random() < 0.5:
            made.arrays = [(f"{lower}_a", random.choice(INTEGERS), ARRAY)]
        if random.random() < 0.4:
            made.vectors = [(f"{lower}_v", random.choice(("int", "long", "unsigned")))]
        made.pointers = [(f"{lower}_p{it}", random.choice(names)) for it in range(random.randint(0, 2))]
        self.classes.append(made)
        level = 10 * len(self.classes)
        for at in range(random.randint(1, 4)):
            made.methods.append(self.head(f"{lower}_m{at}", level + at))
        self.shared_method(made, level + 5)
        return made

    def shared_method(self, made: Class, level: int) -> None:
        """A virtual method, which a class that has a base overrides now and then."""
        inherited = [it for it in made.base.all_methods() if it.virtual] if made.base else []
        if inherited:
            if self.random.random() < 0.7:
                made.methods.append(inherited[0])
        elif self.random.random() < 0.5:
            head = self.head(f"{made.name.lower()}_w", 0)
            made.methods.append(Method(head.name, head.result, head.parameters, False, 0, True))

    def head(self, name: str, level: int) -> Method:
        """A method's name, result and parameters."""
        random = self.random
        count = random.randint(0, 2)
        kinds = [random.choice(INTEGERS[:3]) for _ in range(count)]
        constant = random.random() < 0.3
        result = random.choice(INTEGERS) if constant else random.choice(("void", "void", "int", "long", "unsigned"))
        return Method(name, result, tuple((f"{name}_x{it}", kind) for it, kind in enumerate(kinds)), constant, level)

    def class_text(self, made: Class) -> Lines:
        """The class with its members, its constructors and the bodies of its methods."""
        lines = [f"class {made.name}" + (f" : public {made.base.name}" if made.base else "") + " {", "public:"]
        body = [f"{kind} {name} = {self.expressions.literal(kind)};" for name, kind in made.numbers]
        body += [f"{kind} {name}[{size}] = {{{self.expressions.literal(kind)}}};" for name, kind, size in made.arrays]
        body += [f"std::vector<{kind}> {name};" for name, kind in made.vectors]
        body += [f"{to} *{name} = nullptr;" for name, to in made.pointers]
        body += self.constructor(made)
        for method in made.methods:
            body += self.method_text(made, method)
        return lines + indented(body) + ["};"]

    def constructor(self, made: Class) -> Lines:
        """A constructor that takes a start value, with an initialiser, and fills the vectors."""
        name, kind = made.numbers[0]
        base = f"{made.base.name}(start + 1), " if made.base else ""
        first = f"{name}(start % 2 == 0)" if kind == "bool" else f"{name}(({kind})(start * 2))"
        fills = [f"for (int k = 0; k < {ARRAY}; k++) {it}.push_back(start + k);" for it, _ in made.vectors]
        head = f"{made.name}(int start) : {base}{first} {{"
        return [head, *indented(fills), "}"] if fills else [head + "}"]

    def method_text(self, made: Class, method: Method) -> Lines:
        """A method with its body."""
        scope = self.inside(made)
        scope.level, scope.constant, scope.result = method.level, method.constant, method.result
        if method.constant:
            scope.numbers = [Variable(it.text, it.type, it.text[0] == "v") for it in scope.numbers]
        scope.numbers += [Variable(name, kind) for name, kind in method.parameters]
        able = [it for it in made.all_methods() if it.level < method.level and not it.virtual and it.level]
        scope.calls = [("", it) for it in able if it.constant or not method.constant]
        head = f"{method.result} {method.name}({', '.join(f'{kind} {name}' for name, kind in method.parameters)})"
        head = ("virtual " if method.virtual else "") + head + (" const" if method.constant else "")
        lines = self.block(scope, 5, 2)
        if method.result != "void":
            lines = lines + [f"return {self.result(scope)};"]
        return [head + " {", *indented(lines), "}"]

    def inside(self, made: Class) -> Scope:
        """What a body of a method of the class can name."""
        scope = Scope(numbers=list(self.globals))
        at: Class | None = made
        while at is not None:
            scope.numbers += [Variable(name, kind) for name, kind in at.numbers]
            scope.items += [Items(name, kind, size) for name, kind, size in at.arrays]
            scope.items += [Items(name, kind, ARRAY) for name, kind in at.vectors]
            scope.pointers += [Pointer(name, to) for name, to in at.pointers]
            at = at.base
        return scope

    def behind(self, scope: Scope, pointer: Pointer, depth: int) -> Lines:
        """Work on the object behind a pointer: its fields, and calls of its methods of lower levels."""
        shape = next((it for it in self.classes if it.name == pointer.to and it.methods), None)
        if shape is None:
            return self.branch(scope, depth)
        inner = scope.inner()
        reach = f"{pointer.text}->"
        known = self.inside(shape)
        own = [Variable(reach + it.text, it.type, not scope.constant) for it in known.numbers if it not in self.globals]
        inner.numbers += own
        inner.items += [Items(reach + it.text, it.type, it.size) for it in known.items]
        able = [it for it in shape.all_methods() if it.level < scope.level and (it.constant or not scope.constant)]
        inner.calls = inner.calls + [(reach, it) for it in able if it.level]
        test = self.random.choice(
            (pointer.text, f"{pointer.text} != nullptr", f"{pointer.text} && {self.expressions.condition(scope)}")
        )
        return [f"if ({test}) {{", *indented(self.block(inner, 3, depth - 1)), "}"]

    def function_text(self, at: int) -> Lines:
        """A free function over an object by reference and a number by reference."""
        random = self.random
        name, level = f"f{at}", 1000 + at
        shape = random.choice(self.classes)
        parameters: list[tuple[str, str]] = [(f"{name}_x", random.choice(("int", "long")))]
        if random.random() < 0.4:
            parameters.append((f"{name}_out", "long &"))
        method = Method(
            name, random.choice(("void", "int", "long")), tuple(parameters), False, level, False, shape.name
        )
        scope = Scope(numbers=list(self.globals), level=level, result=method.result)
        scope.numbers += [Variable(it, kind.replace(" &", "")) for it, kind in parameters]
        scope.calls = [("", it) for it in self.functions]
        scope.pointers = [Pointer(f"{name}_p", shape.name)]
        lines = self.block(scope, 5, 2)
        if method.result != "void":
            lines = lines + [f"return {self.result(scope)};"]
        heads = ", ".join(
            [f"{shape.name} *{name}_p"] + [f"{kind}{'' if kind.endswith('&') else ' '}{it}" for it, kind in parameters]
        )
        self.functions.append(method)
        return [f"static {method.result} {name}({heads}) {{", *indented(lines), "}"]

    def main_text(self) -> Lines:
        """main: objects, their links, work on them, and all fields printed at the end."""
        self.budget = max(self.budget, 0) + 40
        scope = Scope(numbers=list(self.globals), level=10_000, result="main")
        scope.calls = [("", it) for it in self.functions]
        lines: Lines = []
        for at in range(self.random.randint(2, 5)):
            shape = self.random.choice(self.classes)
            lines.append(f"{shape.name} *o{at} = new {shape.name}({self.random.randint(0, 9)});")
            scope.pointers.append(Pointer(f"o{at}", shape.name))
        for pointer in list(scope.pointers):
            lines += self.links(scope, pointer)
        for _ in range(self.random.randint(3, 8)):
            lines += self.statement(scope, 3) if self.random.random() < 0.4 else self.guarded(scope, 3)
        for pointer in scope.pointers:
            lines += self.shown(pointer)
        return ["int main() {", *indented(lines), "  return 0;", "}"]

    def links(self, scope: Scope, pointer: Pointer) -> Lines:
        """Puts pointers to made objects into the pointers of one."""
        shape = next(it for it in self.classes if it.name == pointer.to)
        lines: Lines = []
        for link in self.inside(shape).pointers:
            able = [it.text for it in scope.pointers if self.is_a(it.to, link.to)]
            if able and self.random.random() < 0.8:
                lines.append(f"{pointer.text}->{link.text} = {self.random.choice(able)};")
        return lines

    def is_a(self, name: str, wanted: str) -> bool:
        """Whether an object of the class `name` is one of the class `wanted`."""
        at: Class | None = next((it for it in self.classes if it.name == name), None)
        while at is not None:
            if at.name == wanted:
                return True
            at = at.base
        return False

    def shown(self, pointer: Pointer) -> Lines:
        """Prints all numbers of an object."""
        shape = next(it for it in self.classes if it.name == pointer.to)
        known = self.inside(shape)
        lines = [f'printf("%ld ", (long){pointer.text}->{it.text});' for it in known.numbers if it not in self.globals]
        lines += [
            f"for (int k = 0; k < {it.size}; k++) std::cout << {pointer.text}->{it.text}[k] << ' ';"
            for it in known.items
        ]
        return lines + ['printf("\\n");']
