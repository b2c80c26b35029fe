"""Not proved (README.md). Which class, field or array each type and variable of C++ becomes.

- A class hierarchy is one class, whose field `kind_` tells the class of an object.
- An array or vector that is a member or global is an array field of its owner, a vector with a count beside it; a
  local one, one in a container, and one whose address goes elsewhere is an object: `Array_long`, `Vector_long`. An
  array of arrays is one array.
- A pointer to numbers or to pointers points to such an array, at its first item.
- What a reference to a number may be bound to lives in an object of its own, `Box_long`.
"""

from .. import form
from .. import tree as t
from ..places import NOWHERE, Place
from ..refusals import Refused
from ..types import BOOL, NULL, STRING, VOID, Array, Int, Object, Pointer, Reference, Type, Vector, bare, is_scalar
from ..words import unique

FIRST_CAPACITY = 8
# How often a capacity grows until it is enough.
GREATEST_CAPACITY = 1000000


class Shapes:
    """The classes of the middle form, made as they are asked for."""

    def __init__(self, program: t.Program, capacities: dict[str, int]) -> None:
        self.capacities = capacities
        self.classes: dict[str, form.Class] = {}
        # The classes of the port's own, by what they hold: their names are free, whatever the user's are.
        self._added: dict[str, form.Class] = {}
        self._boxes: set[str] = set()
        self._used: set[str] = {"Program"}
        self.names: dict[form.Class, set[str]] = {}
        self._records: dict[t.Record, form.Class] = {}
        self._slots: dict[t.Member | t.Variable, str] = {}
        self.kinds: dict[t.Record, int] = {}
        self.program = self._class("Program", "the program", NOWHERE, False)
        for record in program.records:
            if record.base is None:
                self._family(record)
        for record in program.records:
            for member in record.members:
                self._member(self.class_of(record), member)
        for variable in program.globals:
            self._member(self.program, variable)

    # Classes ----------------------------------------------------------------------------------------------------------

    def _class(self, name: str, origin: str, place: Place, fresh: bool = True) -> form.Class:
        made = form.Class(unique(name, self._used) if fresh else name, place=place, origin=origin)
        self.classes[made.name] = made
        self.names[made] = set()
        return made

    def _family(self, root: t.Record) -> None:
        made = self._class(root.name, root.name, root.place)
        family = root.family()
        for number, record in enumerate(family):
            self._records[record] = made
            if len(family) > 1:
                self.kinds[record] = number
        if len(family) > 1:
            self._slot(made, "kind_", form.LONG, origin="the class of the object")

    def class_of(self, record: t.Record) -> form.Class:
        return self._records[record]

    def _slot(
        self,
        cls: form.Class,
        name: str,
        type_: form.Type,
        length: int | None = None,
        origin: str = "",
        place: Place = NOWHERE,
    ) -> form.Slot:
        slot = form.Slot(unique(name, self.names[cls]), type_, length, origin, place=place)
        cls.slots.append(slot)
        return slot

    def _member(self, cls: form.Class, member: t.Member | t.Variable) -> None:
        """The fields of a member or global."""
        type_, name, at = member.type, member.name, member.place
        if member.lent and is_scalar(type_):
            slot = self._slot(cls, name, form.Pointer(self.box(type_).name), origin=name, place=at)
        elif isinstance(type_, Array) and not member.whole:
            slot = self._slot(cls, name, self.of(self.item(type_)), self.length(type_), name, at)
        elif isinstance(type_, Vector) and not member.whole:
            slot = self._slot(cls, name, self.of(type_.of), 1, name, at)
            self._grow(cls, slot)
            self._slot(cls, slot.name + "_n", form.LONG, origin=name, place=at)
        else:
            slot = self._slot(cls, name, self.parameter(type_), origin=name, place=at)
            slot.owned = isinstance(type_, Object)
        self._slots[member] = slot.name

    def _grow(self, cls: form.Class, slot: form.Slot) -> None:
        slot.grows = True
        slot.length = self.capacities.get(f"{cls.name}.{slot.name}", FIRST_CAPACITY)

    def slot_of(self, member: t.Member | t.Variable) -> str:
        return self._slots[member]

    # Types ------------------------------------------------------------------------------------------------------------

    def of(self, type_: Type) -> form.Type:
        """What holds a value of the type; of an object, an array or a vector it is a pointer."""
        type_ = bare(type_)
        if isinstance(type_, Int) or type_ == STRING:
            return form.LONG
        if type_ == BOOL:
            return form.BOOL
        if isinstance(type_, Object):
            return form.Pointer(self.class_of(type_.record).name)
        if isinstance(type_, Pointer):
            to = type_.to
            return self.of(to) if isinstance(to, (Object, Vector)) else form.Pointer(self.array(self.item(to)).name)
        if isinstance(type_, Array):
            return form.Pointer(self.array(self.item(type_)).name)
        if isinstance(type_, Vector):
            return form.Pointer(self.vector(type_.of).name)
        if type_ == NULL:
            return form.Pointer("Program")
        if type_ == VOID:
            raise Refused(NOWHERE, "a pointer to void", "let the pointer have the type of its object")
        raise Refused(NOWHERE, f"the type {type_}", "write it another way")

    def parameter(self, type_: Type) -> form.Type:
        """What holds a parameter or member: of a reference to a number its box."""
        if isinstance(type_, Reference) and not type_.constant and is_scalar(type_.to):
            return form.Pointer(self.box(type_.to).name)
        return self.of(type_)

    def item(self, type_: Type) -> Type:
        """What stands in an array of arrays at last."""
        while isinstance(type_, Array):
            type_ = type_.of
        return type_

    def length(self, type_: Type) -> int:
        """The items of an array of arrays, all together."""
        return type_.length * self.length(type_.of) if isinstance(type_, Array) else 1

    def _word(self, type_: form.Type) -> str:
        return type_.name if isinstance(type_, form.Scalar) else type_.cls

    def array(self, item: Type) -> form.Class:
        """The class of arrays that pointers to such items point to."""
        of = self.of(item)
        name = "Array_" + self._word(of)
        if name not in self._added:
            self._added[name] = cls = self._class(name, "an array", NOWHERE)
            self._grow(cls, self._slot(cls, "at", of, 1, "the items"))
        return self._added[name]

    def need(self, cls: form.Class, length: int) -> None:
        """Arrays of the class have at least so many items."""
        slot = cls.slot("at")
        slot.length = max(slot.length or 1, length)

    def exact_array(self, type_: Array) -> form.Class:
        """The class of arrays of just this length, which nothing points to but their own name."""
        of, length = self.of(self.item(type_)), self.length(type_)
        name = f"Array_{self._word(of)}_{length}"
        if name not in self._added:
            self._added[name] = cls = self._class(name, "an array", NOWHERE)
            self._slot(cls, "at", of, length, "the items")
        return self._added[name]

    def vector(self, item: Type) -> form.Class:
        of = self.of(item)
        name = "Vector_" + self._word(of)
        if name not in self._added:
            self._added[name] = cls = self._class(name, "a vector", NOWHERE)
            self._grow(cls, self._slot(cls, "at", of, 1, "the items"))
            self._slot(cls, "n", form.LONG, origin="the size")
        return self._added[name]

    def box(self, type_: Type) -> form.Class:
        """The class of objects that hold one value which references are bound to."""
        of = self.of(type_)
        name = "Box_" + self._word(of)
        if name not in self._added:
            self._added[name] = cls = self._class(name, "a variable that references are bound to", NOWHERE)
            self._slot(cls, "value", of, origin="its value")
            self._boxes.add(cls.name)
        return self._added[name]

    def is_box(self, type_: form.Type) -> bool:
        """Whether it is a pointer to such an object."""
        return isinstance(type_, form.Pointer) and type_.cls in self._boxes
