"""How a program declares its objects and their fields: by classes, whose fields are loaded and stored as attributes."""
from __future__ import annotations

import operator
import struct
from collections.abc import Iterator, Mapping
from typing import TYPE_CHECKING, Any, Generic, TypeVar, overload

from .errors import OutOfRange

if TYPE_CHECKING:
    from .session import Own

V = TypeVar("V")

MOST = 2**64 - 1
_MOST_SIGNED = 2**63 - 1
_DOUBLE = struct.Struct("<d")
_WORD = struct.Struct("<Q")


class Member:
    """What a class declares: a field, an array of fields, or a pool."""

    name = ""
    size: int
    """How many of the heap's fields it takes."""
    guard: str | None = None
    is_transient = False

    def names(self, of: str) -> list[str]:
        """The names of its fields, for errors and the fingerprint; ``of`` is the object's."""
        raise NotImplementedError

    def firsts(self) -> list[int]:
        """The bits with which its fields begin."""
        raise NotImplementedError


class Value(Member, Generic[V]):
    """A field that stores values of one kind in its 64 bits. Its kinds are :class:`Field`, :class:`Signed`, :class:`Bool`, .."""

    size = 1

    def __init__(self, first: V, *, transient: bool = False, guard: str | None = None) -> None:
        self.first = first
        self.is_transient = transient
        self.guard = guard
        try:
            self._first_bits = self.encode(first)
        except OverflowError as error:
            raise ValueError(f"first can't be {first!r}: {error}") from None

    def encode(self, value: V) -> int:
        """The value's bits, 0 to 2**64 - 1. TypeError; OverflowError: it doesn't fit."""
        raise NotImplementedError

    def decode(self, bits: int) -> V:
        """The value of these bits."""
        raise NotImplementedError

    def names(self, of: str) -> list[str]:
        return [f"{of}.{self.name}"]

    def firsts(self) -> list[int]:
        return [self._first_bits]

    @overload
    def __get__(self, of: None, owner: type) -> Value[V]: ...
    @overload
    def __get__(self, of: Object, owner: type) -> V: ...
    def __get__(self, of: Object | None, owner: type) -> Value[V] | V:
        if of is None:
            return self
        return self.decode(of._own.lane.load(of._numbers[self.name]))

    def __set__(self, of: Object, value: V) -> None:
        try:
            bits = self.encode(value)
        except OverflowError as error:
            raise _out_of_range(of, self.name, value, error) from None
        of._own.lane.store(of._numbers[self.name], bits)


class Field(Value[int]):
    """A whole number from 0 to 2**64 - 1.

    ``first`` is its value when the heap is made. A ``transient`` field is never durable: stores cost the log nothing, and each opening begins
    with ``first`` again. ``guard`` is the name of another object, in :func:`zelamiku.open`, whose monitor guards the field instead of its own.
    TypeError, ValueError: a field of this kind doesn't have ``first``.
    """

    def __init__(self, first: int = 0, *, transient: bool = False, guard: str | None = None) -> None:
        super().__init__(first, transient=transient, guard=guard)

    def encode(self, value: int) -> int:
        bits = operator.index(value)
        if not 0 <= bits <= MOST:
            raise OverflowError("it isn't from 0 to 2**64 - 1")
        return bits

    def decode(self, bits: int) -> int:
        return bits


class Signed(Value[int]):
    """A whole number from -2**63 to 2**63 - 1, as two's complement. Its options are those of :class:`Field`."""

    def __init__(self, first: int = 0, *, transient: bool = False, guard: str | None = None) -> None:
        super().__init__(first, transient=transient, guard=guard)

    def encode(self, value: int) -> int:
        number = operator.index(value)
        if not -_MOST_SIGNED - 1 <= number <= _MOST_SIGNED:
            raise OverflowError("it isn't from -2**63 to 2**63 - 1")
        return number & MOST

    def decode(self, bits: int) -> int:
        return bits if bits <= _MOST_SIGNED else bits - MOST - 1


class Bool(Value[bool]):
    """True or False, as 1 or 0. Its options are those of :class:`Field`."""

    def __init__(self, first: bool = False, *, transient: bool = False, guard: str | None = None) -> None:
        super().__init__(first, transient=transient, guard=guard)

    def encode(self, value: bool) -> int:
        if not isinstance(value, bool):
            raise TypeError(f"True or False is wanted, and not {value!r}")
        return int(value)

    def decode(self, bits: int) -> bool:
        return bits != 0


class Float(Value[float]):
    """A float, by the bits of its IEEE 754 double: each comes back as it was stored. Its options are those of :class:`Field`."""

    def __init__(self, first: float = 0.0, *, transient: bool = False, guard: str | None = None) -> None:
        super().__init__(first, transient=transient, guard=guard)

    def encode(self, value: float) -> int:
        if not isinstance(value, (float, int)):
            raise TypeError(f"a number is wanted, and not {value!r}")
        bits: int = _WORD.unpack(_DOUBLE.pack(float(value)))[0]
        return bits

    def decode(self, bits: int) -> float:
        value: float = _DOUBLE.unpack(_WORD.pack(bits))[0]
        return value


class Ref(Value["int | None"]):
    """A link: the number of an object or of a pool's slot, or None. It stores the number plus one, and 0 for None.

    An object may be stored too, and is loaded as its number: its place in :attr:`Heap.objects`. The options are those of :class:`Field`.
    """

    def __init__(self, first: int | None = None, *, transient: bool = False, guard: str | None = None) -> None:
        super().__init__(first, transient=transient, guard=guard)

    def encode(self, value: int | Object | None) -> int:
        if value is None:
            return 0
        number = value._number if isinstance(value, Object) else operator.index(value)
        if not 0 <= number < MOST:
            raise OverflowError("it is neither None nor a number from 0 to 2**64 - 2")
        return number + 1

    def decode(self, bits: int) -> int | None:
        return bits - 1 if bits else None

    if TYPE_CHECKING:

        def __set__(self, of: Object, value: int | Object | None) -> None: ...


class Array(Member, Generic[V]):
    """So many fields of one kind: ``Array(Signed(first=-1), 64)``. Its attribute is an :class:`Items`, with indexes as in a list.

    ValueError: the count is below 1. TypeError: the kind is none of one field.
    """

    def __init__(self, kind: Value[V], count: int) -> None:
        if not isinstance(kind, Value):
            raise TypeError(f"an array is of a kind of field, as Field(), and not of {kind!r}")
        if count < 1:
            raise ValueError(f"an array has 1 field or more, and not {count}")
        self.kind = kind
        self.size = count
        self.guard = kind.guard
        self.is_transient = kind.is_transient

    def names(self, of: str) -> list[str]:
        return [f"{of}.{self.name}[{index}]" for index in range(self.size)]

    def firsts(self) -> list[int]:
        return self.kind.firsts() * self.size

    @overload
    def __get__(self, of: None, owner: type) -> Array[V]: ...
    @overload
    def __get__(self, of: Object, owner: type) -> Items[V]: ...
    def __get__(self, of: Object | None, owner: type) -> Array[V] | Items[V]:
        return self if of is None else Items(of, self)

    def __set__(self, of: Object, value: object) -> None:
        raise AttributeError(f"{of._name}.{self.name} is an array: store to one of its items")


class Items(Generic[V]):
    """The fields of an :class:`Array` of one object."""

    __slots__ = ("_of", "_array", "_kind", "_numbers")

    def __init__(self, of: Object, array: Array[V]) -> None:
        self._of = of
        self._array = array
        self._kind = array.kind
        first = of._numbers[array.name]
        self._numbers = range(first, first + array.size)

    def __len__(self) -> int:
        return len(self._numbers)

    def __getitem__(self, index: int) -> V:
        return self._kind.decode(self._of._own.lane.load(self._numbers[index]))

    def __setitem__(self, index: int, value: V) -> None:
        number = self._numbers[index]
        try:
            bits = self._kind.encode(value)
        except OverflowError as error:
            raise _out_of_range(self._of, f"{self._array.name}[{index}]", value, error) from None
        self._of._own.lane.store(number, bits)

    def __iter__(self) -> Iterator[V]:
        return (self[index] for index in range(len(self)))


class Pool(Member):
    """Slots, numbered from 0, that sections take and free. Its attribute is a :class:`Slots`. ValueError: they aren't 1 to 16,383.

    A crash that drops a section undoes what it took and freed. A slot's contents lie in arrays beside the pool, at the slot's index, and link to
    others by a :class:`Ref`: this makes lists and trees.
    """

    def __init__(self, slots: int) -> None:
        if not 1 <= slots <= 16_383:
            raise ValueError(f"a pool has 1 to 16,383 slots, and not {slots}")
        self.slots = slots
        self.size = slots + 1

    def names(self, of: str) -> list[str]:
        """The first is the head's."""
        return [f"{of}.{self.name}"] + [f"{of}.{self.name}[{slot}]" for slot in range(self.slots)]

    def firsts(self) -> list[int]:
        """All slots are free: the head and each slot have the next slot's number plus one, and the last one has 0."""
        return [*range(1, self.size), 0]

    @overload
    def __get__(self, of: None, owner: type) -> Pool: ...
    @overload
    def __get__(self, of: Object, owner: type) -> Slots: ...
    def __get__(self, of: Object | None, owner: type) -> Pool | Slots:
        return self if of is None else Slots(of, self)

    def __set__(self, of: Object, value: object) -> None:
        raise AttributeError(f"{of._name}.{self.name} is a pool: call its take() and give()")


class Slots:
    """The slots of a :class:`Pool` of one object, whose monitor is held for each call."""

    __slots__ = ("_of", "_pool")

    def __init__(self, of: Object, pool: Pool) -> None:
        self._of = of
        self._pool = pool

    def __len__(self) -> int:
        """How many there are, taken and free."""
        return self._pool.slots

    def take(self) -> int | None:
        """Takes a free slot and returns its number; None: no slot is free. It costs the section two records, and up to two for a revert.

        :class:`NotHeld`, :class:`SectionFull`, :class:`DamagedPool`, :class:`Reverted`, :class:`Stopped`: nothing was taken.
        """
        return self._of._own.lane.take(self._of._numbers[self._pool.name], self._pool.slots)

    def give(self, slot: int) -> None:
        """Frees a slot: it is the next one to be taken. It costs as much as :meth:`take`.

        :class:`NotTaken`, IndexError, and those of :meth:`take`: nothing was freed.
        """
        number = operator.index(slot)
        if not 0 <= number < self._pool.slots:
            raise IndexError(f"{self._of._name}.{self._pool.name} has slots 0 to {self._pool.slots - 1}, and no {number}")
        self._of._own.lane.give(self._of._numbers[self._pool.name], self._pool.slots, number)


def _out_of_range(of: Object, name: str, value: object, error: OverflowError) -> OutOfRange:
    return OutOfRange(of._own.link.path, f"{of._name}.{name} can't be {value!r}: {error}", "store a value of its kind, or declare it as another")


class ObjectType(type):
    """The type of :class:`Object` and its subclasses. It collects what they declare, in order, the bases' first."""

    _members: Mapping[str, Member]

    def __new__(mcls, name: str, bases: tuple[type, ...], namespace: dict[str, Any]) -> ObjectType:
        # Without a __dict__ a name that isn't declared can't be stored to.
        namespace.setdefault("__slots__", ())
        cls = super().__new__(mcls, name, bases, namespace)
        members: dict[str, Member] = {}
        for base in reversed(cls.__mro__[1:]):
            if isinstance(base, ObjectType):
                members.update(base._members)
        for key, value in namespace.items():
            if isinstance(value, Member):
                if key in dir(Object):
                    raise TypeError(f"{name}.{key}: {key} is a name of zelamiku.Object's own: choose another")
                if value.name not in ("", key):
                    raise TypeError(f"{name}.{key}: it is declared as {value.name} before: declare each by a call of its own")
                value.name = key
                members[key] = value
        cls._members = members
        return cls


class Object(metaclass=ObjectType):
    """An object of a heap: a monitor, and the fields that its subclass declares. :func:`zelamiku.open` makes it.

    A thread that holds the monitor (:meth:`Heap.synchronized`) loads and stores fields as attributes. :class:`NotHeld`: it doesn't.
    :class:`OutOfRange`, TypeError: the field's kind doesn't have the value. :class:`SectionFull`: the section has 1,000 records.
    :class:`Reverted`, :class:`Stopped`. After each of them nothing was stored.
    """

    __slots__ = ("_own", "_name", "_number", "_numbers")

    _own: Own
    _name: str
    _number: int
    _numbers: Mapping[str, int]

    def __init__(self) -> None:
        raise TypeError(f"objects are made by an opening: zelamiku.open(PATH, NAME={type(self).__name__})")

    def __repr__(self) -> str:
        return f"<{type(self).__name__} {self._name}, object {self._number} of {self._own.link.path}>"

    def wait(self) -> None:
        """Frees this monitor, which the thread holds, sleeps until another thread notifies it, and takes the monitor again.

        Nothing else wakes it, and no signal is handled meanwhile. If no other monitor is held the section ends here, and the next one begins
        afterwards: fields may have changed by then. Hold no other monitor: it would stay held, so two threads may wait for each other for ever
        (:meth:`Heap.waits`), and a section that has stored under this one can't be reverted any more.

        :class:`NotHeld`, :class:`SectionFull`, :class:`Refused`, :class:`WriteFailed`: the monitor is held as before. :class:`Stopped`: it
        isn't held.
        """
        self._own.lane.wait(self)

    def notify(self) -> int | None:
        """Wakes one thread that waits for this monitor, which the calling thread holds, and returns its lane. None: no thread waits.

        If several wait, any of them may be chosen. A lane may be 0, so compare with None. :class:`NotHeld`, :class:`Reverted`, :class:`Stopped`:
        no thread was woken.
        """
        return next(iter(self._own.lane.notify(self, False)), None)

    def notify_all(self) -> tuple[int, ...]:
        """Wakes all threads that wait for this monitor, and returns their lanes. They go on in any order. Errors are those of :meth:`notify`."""
        return self._own.lane.notify(self, True)


def bind(cls: type[Object], own: Own, name: str, number: int, numbers: Mapping[str, int]) -> Object:
    """An object of an open heap: its number, and the number of each member's first field."""
    made = object.__new__(cls)
    made._own = own
    made._name = name
    made._number = number
    made._numbers = numbers
    return made
