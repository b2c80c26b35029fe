"""What `run` writes of a text whose run is done: the prints of its serial run and its heap, from docs/reference/language.md."""

from reference.programs import BOOL, LONG
from reference.reference import text_of
from reference.schedules import ENOUGH, Serial


class Written(Serial):
    """A serial run that keeps its prints, and the class of each object."""

    def __init__(self, plan):
        super().__init__(plan, [], ENOUGH, is_quiet=True)
        self.prints, self.classes = [], []
        self.main()

    def create(self, name):
        self.classes.append(name)
        return super().create(name)

    def print_statement(self, e):
        value = self.value(e)
        self.prints.append(text_of(value, BOOL if isinstance(value, bool) else LONG))

    def steps(self):
        return ENOUGH - self.left

    def text(self):
        return "".join(line + "\n" for line in [*self.prints, *self.heap_lines()])

    def heap_lines(self):
        for number, (name, values) in enumerate(zip(self.classes, self.heap)):
            fields = self.plan.program.fields[name].values()
            yield " ".join([f"#{number} {name}", *(f"{f.name}={field_text(values[f], f)}" for f in fields)])


def field_text(value, field):
    if field.length is None:
        return text_of(value, field.ty)
    return "[" + ",".join(text_of(item, field.ty) for item in value) + "]"
