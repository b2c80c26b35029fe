"""Not proved (README.md). A local that only the next statement asks for, and once: its value stands there itself.

No expression has an effect, and a statement computes all its expressions before it does anything; so the value is the
same. `for (Body *b : bodies) b->move();` becomes a loop whose turns are calls.
"""

from collections import Counter

from .. import form
from .walking import map_statement


def finish(program: form.Program) -> None:
    for method in program.methods():
        uses = Counter(one for one in form.expressions(method.body) if isinstance(one, form.Local))
        _block(method.body, uses)


def _block(body: list[form.Statement], uses: Counter[form.Local]) -> None:
    at = len(body) - 2
    for one in body:
        for block in form.blocks(one):
            _block(block, uses)
    while at >= 0:
        one, following = body[at], body[at + 1]
        # The declaration is one use, the read in the next statement the other.
        if (
            isinstance(one, form.Let)
            and one.value is not None
            and uses[one.local] == 2
            and _asks_once(following, one.local)
        ):
            local, value = one.local, one.value
            map_statement(following, lambda expr: form.mapped(expr, lambda part: value if part == local else None))
            del body[at]
        at -= 1


def _asks_once(statement: form.Statement, local: form.Local) -> bool:
    if not isinstance(statement, (form.Let, form.Put, form.Do, form.Tell, form.If, form.Return)):
        return False
    if isinstance(statement, form.Put) and statement.target == local:
        return False
    return any(part == local for expr in form.own_expressions(statement) for part in form.within(expr))
