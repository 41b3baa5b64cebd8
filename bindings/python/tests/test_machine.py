"""A heap beside a dictionary: random sections, nested and reverted, over openings and ends. The heap has what the dictionary says.

    python3 bindings/python/tests/test_machine.py [LIVES [SEED]]

A failure prints the seed, which the environment's SEED chooses too.
"""
from __future__ import annotations

import os
import random
import sys
import unittest
from typing import Any

import zelamiku
from support import OnFile

LIVES = 40
SEED = int(os.environ.get("SEED", random.randrange(2**32)))
SLOTS, MANY = 4, 600


class Account(zelamiku.Object):
    balance = zelamiku.Field(first=100)
    debts = zelamiku.Array(zelamiku.Signed(first=-1), 3)
    seen = zelamiku.Field(first=9, transient=True)


class Seats(zelamiku.Object):
    slots = zelamiku.Pool(SLOTS)


class Many(zelamiku.Object):
    values = zelamiku.Array(zelamiku.Field(), MANY)


NAMES = ["alice", "bob", "seats", "carol", "many"]
FIRSTS = {"balance": 100, "debts": -1, "seen": 9, "values": 0}


class Planned(Exception):
    """One that a life raises in a section itself."""


FAILURES = (Planned, KeyboardInterrupt, zelamiku.OutOfRange, zelamiku.SectionFull)


class Model:
    """What the heap has: the values by object, member and index that aren't the first ones, and the free slots, the next one first."""

    def __init__(self, values: dict[str, int], free: list[int]) -> None:
        self.values = dict(values)
        self.free = list(free)

    def copy(self) -> Model:
        return Model(self.values, self.free)

    def reopened(self) -> Model:
        return Model({name: value for name, value in self.values.items() if not name.endswith("seen")}, self.free)

    def get(self, name: str) -> int:
        return self.values.get(name, FIRSTS[name.split(".")[1]])

    def set(self, name: str, value: int) -> None:
        self.values[name] = value


def place(heap: zelamiku.Heap, name: str) -> tuple[Any, str, list[int]]:
    of, member, *index = name.split(".")
    return getattr(heap, of), member, [int(each) for each in index]


def load(heap: zelamiku.Heap, name: str) -> int:
    of, member, index = place(heap, name)
    return getattr(of, member)[index[0]] if index else getattr(of, member)


def store(heap: zelamiku.Heap, name: str, value: int) -> None:
    of, member, index = place(heap, name)
    if index:
        getattr(of, member)[index[0]] = value
    else:
        setattr(of, member, value)


def fields(of: str) -> list[str]:
    if of == "many":
        return [f"many.values.{index}" for index in range(MANY)]
    return [] if of == "seats" else [f"{of}.balance", f"{of}.seen", *(f"{of}.debts.{index}" for index in range(3))]


class Machine(OnFile):
    def test_the_heap_is_what_the_dictionary_says(self):
        self.model = Model({}, list(range(SLOTS)))
        for life in range(LIVES):
            self.be_patient()
            self.chance = random.Random(f"{SEED} {life}")
            try:
                self.live()
            except BaseException:
                print(f"seed {SEED}, life {life}")
                raise

    def live(self) -> None:
        """An opening, sections, and the heap's end."""
        objects = dict(alice=Account, bob=Account, seats=Seats, carol=Account, many=Many)
        self.heap = zelamiku.open(self.path, **objects, lanes=2, capacity=4_096, ring=4_096)
        self.is_over = False
        self.model = self.model.reopened()
        with self.heap.synchronized(*self.heap.objects):
            self.compare(NAMES)
            self.assertEqual(list(iter(self.heap.seats.slots.take, None)), self.model.free)
            self.heap.session.revert()
        for _ in range(self.chance.randrange(60)):
            self.turn()
            if self.is_over:
                with self.assertRaises(zelamiku.Abandoned):
                    self.heap.close()
                return
        self.chance.choice([self.heap.close, self.heap.stop])()

    def compare(self, names: list[str]) -> None:
        for name in [name for of in names for name in fields(of)]:
            self.assertEqual(load(self.heap, name), self.model.get(name), name)

    # ---- a section ----

    def turn(self) -> None:
        """One section, and then perhaps the wait for it."""
        self.before = self.model.copy()
        self.has_stored = False
        self.under: set[str] = set()
        """Under which monitors it has stored."""
        self.is_lost = False
        """It has freed one of these, so that it can't be reverted."""
        self.is_reverted = self.has_ended = False
        try:
            self.section(frozenset())
        except zelamiku.Reverted:
            self.assertTrue(self.is_reverted)
        except FAILURES:
            self.assertFalse(self.has_ended)
        except zelamiku.Abandoned:
            self.assertTrue(self.is_over)
        if self.is_over:
            # The next opening drops it.
            self.model = self.before
        elif self.chance.random() < 0.3:
            self.heap.durable()

    def section(self, held: frozenset[str]) -> None:
        last = max((NAMES.index(name) for name in held), default=-1)
        may = [name for place, name in enumerate(NAMES) if name in held or place > last]
        inside = self.chance.sample(may, self.chance.randint(1, min(3, len(may))))
        with self.heap.synchronized(*[getattr(self.heap, name) for name in inside]):
            try:
                for _ in range(self.chance.randrange(6)):
                    self.act(held.union(inside))
                if self.chance.random() < 0.15:
                    raise self.chance.choice([Planned, KeyboardInterrupt])
                if self.chance.random() < 0.03:
                    store(self.heap, "alice.balance", -1)
            except (*FAILURES, zelamiku.Reverted):
                # It leaves the `with`.
                if self.has_stored and self.is_lost:
                    self.is_over = True
                elif self.has_stored:
                    self.is_reverted = True
                    self.put_back()
                raise
            self.has_ended = not held
        self.assertFalse(self.is_reverted, "the end of a section that was reverted was accepted")
        self.is_lost = self.is_lost or bool(self.under.intersection(inside) - held)

    def put_back(self) -> None:
        self.model = self.before.copy()
        self.has_stored = False
        self.under.clear()

    def stored(self, under: str) -> None:
        self.has_stored = True
        self.under.add(under)

    def act(self, held: frozenset[str]) -> None:
        steps = [self.store, self.look, self.pool, self.fill, self.nested, self.revert]
        self.chance.choices(steps, [9, 4, 6, 0.3, 4, 1])[0](held, self.chance.choice(sorted(held)))

    def store(self, held: frozenset[str], of: str) -> None:
        for name in self.chance.sample(fields(of), min(len(fields(of)), self.chance.randint(1, 3))):
            value = self.chance.choice([0, 1, 2**62, self.chance.randrange(1_000)])
            store(self.heap, name, value)
            self.model.set(name, value)
            self.stored(of)

    def fill(self, held: frozenset[str], of: str) -> None:
        """More than a section has room for: sometimes that is caught."""
        if "many" not in held:
            return
        try:
            for index in range(self.chance.randrange(MANY)):
                store(self.heap, f"many.values.{index}", 7)
                self.model.set(f"many.values.{index}", 7)
                self.stored("many")
        except zelamiku.SectionFull:
            if self.chance.random() < 0.5:
                raise

    def look(self, held: frozenset[str], of: str) -> None:
        self.compare([of])

    def pool(self, held: frozenset[str], of: str) -> None:
        if "seats" not in held:
            return
        slots = self.heap.seats.slots
        taken = [slot for slot in range(SLOTS) if slot not in self.model.free]
        if taken and self.chance.random() < 0.5:
            slot = self.chance.choice(taken)
            slots.give(slot)
            self.model.free.insert(0, slot)
            self.stored("seats")
            return
        slot = slots.take()
        self.assertEqual(slot, self.model.free[0] if self.model.free else None)
        if slot is not None:
            del self.model.free[0]
            self.stored("seats")

    def nested(self, held: frozenset[str], of: str) -> None:
        if len(held) > 4:
            return
        try:
            self.section(held)
        except (*FAILURES, zelamiku.Reverted) as error:
            if self.is_over or self.chance.random() < 0.5:
                raise
            self.assertTrue(self.is_reverted or not isinstance(error, zelamiku.Reverted))
        if self.is_reverted:
            # It was caught here.
            for call in (self.heap.alice.notify, lambda: store(self.heap, "alice.balance", 1), self.heap.session.revert):
                self.assertRaises(zelamiku.Reverted, call)
            # Now it is caught again, or the section goes on to its end.
            if self.chance.random() < 0.5:
                raise Planned

    def revert(self, held: frozenset[str], of: str) -> None:
        if self.is_lost:
            self.assertRaises(zelamiku.NotReverted, self.heap.session.revert)
        else:
            self.heap.session.revert()
            self.put_back()


if __name__ == "__main__":
    if len(sys.argv) > 2:
        SEED = int(sys.argv.pop())
    if len(sys.argv) > 1:
        LIVES = int(sys.argv.pop())
    unittest.main()
