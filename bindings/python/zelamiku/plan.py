"""What an opening declares, numbered as in the file: objects in the order of their names, and each one's fields in the order of its class."""
from __future__ import annotations

from collections.abc import Iterator, Mapping, Sequence
from dataclasses import dataclass
from typing import Union

from .declare import MOST, Member, Object

Declared = Union[type[Object], Sequence[type[Object]]]
"""What a name of :func:`zelamiku.open` stands for: an object of a class, or several."""


@dataclass(frozen=True)
class PlannedObject:
    """An object: its name, its class, and the number of each member's first field."""

    name: str
    cls: type[Object]
    numbers: Mapping[str, int]


@dataclass(frozen=True)
class PlannedField:
    """A field: its name, the numbers of the objects that have and guard it, and the bits with which it begins."""

    name: str
    owner: int
    guard: int
    first: int
    is_transient: bool


class Plan:
    """The objects and fields that are declared."""

    def __init__(self, declared: Mapping[str, Declared]) -> None:
        self.objects: list[PlannedObject] = []
        self.fields: list[PlannedField] = []
        self.places: dict[str, int | range] = {}
        """Of each name: the number of its object, or those of its objects."""
        self._count = 0
        for name, one_or_more in declared.items():
            first = len(self.objects)
            if isinstance(one_or_more, type):
                self.places[name] = first
                self._add_object(name, one_or_more)
                continue
            for index, cls in enumerate(one_or_more):
                self._add_object(f"{name}[{index}]", cls)
            self.places[name] = range(first, len(self.objects))
        for number, planned in enumerate(self.objects):
            for member in planned.cls._members.values():
                self.fields.extend(self._planned(number, member))

    def _add_object(self, name: str, cls: type[Object]) -> None:
        if not (isinstance(cls, type) and issubclass(cls, Object)):
            raise TypeError(f"{name}: a subclass of zelamiku.Object is wanted, and not {cls!r}")
        numbers = {}
        for key, member in cls._members.items():
            numbers[key] = self._count
            self._count += member.size
        self.objects.append(PlannedObject(name, cls, numbers))

    def _planned(self, number: int, member: Member) -> Iterator[PlannedField]:
        guard = number if member.guard is None else self._guard(number, member)
        for name, first in zip(member.names(self.objects[number].name), member.firsts()):
            yield PlannedField(name, number, guard, first, member.is_transient)

    def _guard(self, number: int, member: Member) -> int:
        place = self.places.get(member.guard or "")
        if not isinstance(place, int):
            raise ValueError(f"{self.objects[number].name}.{member.name}: its guard {member.guard!r} is the name of no single object")
        return place

    def fingerprint(self) -> int:
        """The number of the names of all objects and then of all fields, in their order; 0: the heap has no room for it.

        It is FNV-1a of 64 bits, over the names in UTF-8 with a byte ff between two; 1 for names that give 0.
        """
        if len(self.fields) >= _MOST_FIELDS:
            return 0
        number = 0xCBF29CE484222325
        for byte in b"\xff".join(each.name.encode(errors="surrogatepass") for each in [*self.objects, *self.fields]):
            number = (number ^ byte) * 0x100000001B3 & MOST
        return number or 1

    def difference(self, what: int, field: int, has: int, planned: int) -> str:
        """How the file's heap differs, by name. The numbers are those of a zelamiku_report."""
        if what == _LANES:
            return f"it has {has} lanes, and {planned} are asked for"
        if what == _OBJECTS:
            return f"it has {has} objects, and {planned} are declared"
        if what == _COUNT:
            return f"it has {has} fields (a fingerprint counts as one), and {planned} are declared"
        if what == _FINGERPRINT:
            return f"it was made with other names or in another order, of fingerprint {has:#x} and not {planned:#x}"
        return f"{self.fields[field].name} (field {field}): {self._row_difference(what, has, planned)}{self._hint(what, field, has)}"

    def _row_difference(self, what: int, has: int, planned: int) -> str:
        if what == _OWNER:
            return f"it has it in {self._object(has)}, and declared is {self._object(planned)}"
        if what == _GUARD:
            return f"there {self._object(has)} guards it, and declared is {self._object(planned)}"
        kinds = ("durable", "transient")
        return f"there it is {kinds[has != 0]}, and declared as {kinds[planned != 0]}"

    def _hint(self, what: int, field: int, has: int) -> str:
        """A fingerprint is the last field of its heap: transient, and of object 0, which guards it."""
        is_like_one = field + 1 == len(self.fields) and (what == _MARK) == (has != 0)
        return f", or it is the fingerprint of a heap of {field} fields" if is_like_one else ""

    def cure(self, what: int, has: int) -> str:
        """What to do about a difference."""
        if what == _LANES:
            asked = f"ask for {has - 1}, since the last one is the helper's" if has > 1 else "ask for 1"
            return f"{asked}; or make a heap of more: python -m zelamiku migrate FILE MODULE --lanes N"
        if what == _FINGERPRINT:
            return f"declare the same names in the same order; if you have only renamed some, open it with fingerprint={has:#x}"
        return "declare what the file has, or choose another path"

    def _object(self, number: int) -> str:
        return f"object {number} ({self.objects[number].name})" if number < len(self.objects) else f"object {number}"


# ZELAMIKU_DIFFERENT_..
_LANES, _OBJECTS, _COUNT, _OWNER, _GUARD, _MARK, _FINGERPRINT = range(1, 8)

_MOST_FIELDS = 16_384
"""A heap's, of which a fingerprint takes one."""
