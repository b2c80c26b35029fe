"""Not proved (README.md). A loop or recursion asked about alone, in a program that has nothing but it and what it reaches.

Whether it is marked depends on what it reaches and on nothing else; so what isn't marked alone isn't marked in the whole program, which is
asked only where it is. The smaller text is answered sooner, and it is the same one where changes elsewhere don't touch it.
"""

from .. import form
from ..finishing import reached
from ..places import NOWHERE
from ..words import unique
from . import facts
from .building import Shape, own_copies, this
from .marks import Plans, Site, ended, marked


def may_be_marked(trial: Shape, wanted: set[Site], plans: Plans) -> bool:
    """Whether one of the sites is marked alone; the program can't be used afterwards."""
    heads: list[form.Method] = []
    for site in sorted(wanted, key=lambda one: (one[0], one[1].line, one[1].column, one[1].file)):
        heads += _loops(trial, site) if site[0] == "loop" else _recursions(trial, site)
    if not heads:
        return False
    root = trial.program.classes["Program"]
    main = form.Method(unique("alone", trial.names(root)), root, place=NOWHERE)
    for at, head in enumerate(heads):
        receiver: form.Expr = this(root)
        if head.cls is not root:
            receiver = form.Local(f"object_{at}", form.Pointer(head.cls.name))
            main.body.append(form.Make(receiver, NOWHERE))
        main.body.append(form.Do(head, receiver, [form.zero(one.type) for one in head.parameters], None, NOWHERE))
    root.methods.append(main)
    alone = Shape(form.Program(trial.program.classes, main), loops=trial.loops)
    reached.finish(alone.program)
    got = marked(alone, ended(alone)[0], plans)
    return got is not None and bool(wanted & got.sites)


def _recursions(trial: Shape, site: Site) -> list[form.Method]:
    here = [one for one in trial.program.methods() if one.place == site[1] and not one.pure]
    return [one for one in here if facts.recursive(one)]


def _loops(trial: Shape, site: Site) -> list[form.Method]:
    """An operation for each loop of the site: the loop alone, or the recursion that it became."""
    heads: list[form.Method] = []
    for method in trial.program.methods():
        if trial.loops.get(method) == site[1]:
            heads.append(method)
        elif not method.pure:
            for one in form.statements(method.body):
                if isinstance(one, (form.Loop, form.Count)) and one.user and one.place == site[1]:
                    heads.append(_around(trial, method, one))
    for head in heads:
        if head not in head.cls.methods:
            head.cls.methods.append(head)
    return heads


def _around(trial: Shape, method: form.Method, loop: form.Loop | form.Count) -> form.Method:
    given = facts.free([loop])
    made = form.Method(
        unique("alone", trial.names(method.cls)), method.cls, None, given, [loop], place=NOWHERE, origin="a loop alone"
    )
    own_copies(made)
    return made
