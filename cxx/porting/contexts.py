"""Not proved (README.md). Which loops and methods are run by nothing but what runs in parallel: what is serial in
them costs no thread its work."""

from typing import Callable

from . import form
from .port import Ported


class Contexts:
    """All that a program leads to, with whether it is within a marked loop or a marked recursion there."""

    def __init__(self, ported: Ported, is_marked: Callable[[str], bool]) -> None:
        self._marked = is_marked
        self._lines = {id(one): at for at, one in enumerate(ported.text.statements, 1) if one is not None}
        # What is reached in each of the two ways: methods, and loops by their identity.
        self._methods: dict[bool, set[form.Method]] = {True: set(), False: set()}
        self._loops: dict[bool, set[int]] = {True: set(), False: set()}
        self._block(ported.program.main.body, False)

    def has_method(self, method: form.Method) -> bool:
        return method in self._methods[True] and method not in self._methods[False]

    def has_loop(self, loop: form.Statement) -> bool:
        return id(loop) in self._loops[True] and id(loop) not in self._loops[False]

    def _block(self, body: list[form.Statement], inside: bool) -> None:
        for one in body:
            now = inside
            if isinstance(one, (form.Loop, form.Count)):
                self._loops[inside].add(id(one))
                now = inside or self._marked(f"loop {self._lines.get(id(one), 0)}")
            for expr in form.own_expressions(one):
                for part in form.within(expr):
                    if isinstance(part, form.Apply):
                        self._method(part.method, now)
            if isinstance(one, form.Do):
                self._method(one.method, now or self._marked(f"op {one.method!r}"))
            for block in form.blocks(one):
                self._block(block, now)

    def _method(self, method: form.Method, inside: bool) -> None:
        if method not in self._methods[inside]:
            self._methods[inside].add(method)
            self._block(method.body, inside)
