"""Not proved (README.md). Only what main may call stays: the language has room for 256 operations."""

from .. import form


def finish(program: form.Program) -> None:
    seen, waiting = {program.main}, [program.main]
    while waiting:
        method = waiting.pop()
        called = [one.method for one in form.statements(method.body) if isinstance(one, form.Do)]
        called += [one.method for one in form.expressions(method.body) if isinstance(one, form.Apply)]
        for one in called:
            if one not in seen:
                seen.add(one)
                waiting.append(one)
    for cls in program.classes.values():
        cls.methods = [one for one in cls.methods if one in seen]
    used = {"Program"}
    growing = True
    while growing:
        before = len(used)
        for cls in program.classes.values():
            if cls.methods or cls.name in used:
                used.add(cls.name)
                used |= {one.type.cls for one in cls.slots if isinstance(one.type, form.Pointer)}
        for method in seen:
            types = [one.type for one in method.parameters] + [one.type for one in form.expressions(method.body)]
            used |= {one.cls for one in types if isinstance(one, form.Pointer)}
        growing = len(used) > before
    program.classes = {name: cls for name, cls in program.classes.items() if name in used}
