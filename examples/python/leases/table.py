"""Named leases with fencing tokens, kept in a heap.

A holder, a number that the client chooses, has a lease until it releases it or its time is over, and gets a token. No token is given twice, and
each is greater than all before it. What a holder writes elsewhere carries the token, and so an old holder is recognized there. A crash loses
nothing but the clock: after an opening each lease has its whole time again.
"""
from __future__ import annotations

import time
from dataclasses import dataclass

import zelamiku

SLOTS = 1_000
NAME_WORDS = 6
NAME_BYTES = 8 * NAME_WORDS
# A section has 1,000 records. A slot that it frees costs three, and three more if the section is reverted.
MOST_SWEPT = 100


class Table(zelamiku.Object):
    """All leases. One that is held has a slot, and its fields are at the slot's index."""

    last_token = zelamiku.Field()
    slots = zelamiku.Pool(SLOTS)
    name = zelamiku.Array(zelamiku.Field(), SLOTS * NAME_WORDS)
    token = zelamiku.Array(zelamiku.Field(), SLOTS)
    """0 if the slot is free."""
    holder = zelamiku.Array(zelamiku.Field(), SLOTS)
    time = zelamiku.Array(zelamiku.Field(), SLOTS)
    """Nanoseconds for which it is held."""
    until = zelamiku.Array(zelamiku.Field(transient=True), SLOTS)
    """By time.monotonic_ns(), which begins anew with the machine."""


@dataclass(frozen=True)
class Lease:
    """A lease that is held."""

    name: str
    token: int
    seconds: float
    """How long it is held from now on, unless it is renewed."""


class Full(Exception):
    """All slots are taken."""

    def __str__(self) -> str:
        return "all leases are held"


class Leases:
    """The leases of a heap. Threads share it. What a call has done or seen is durable once :meth:`durable` has returned."""

    def __init__(self, heap: zelamiku.Heap) -> None:
        self._heap = heap
        self._table: Table = heap.table
        # The slot of each name, for the thread that has the monitor. A section changes it last: an exception reverts what the section has stored
        # in the heap, but no dictionary.
        self._slot_of: dict[str, int] = {}
        with heap.synchronized(self._table):
            now = time.monotonic_ns()
            for slot, token in enumerate(self._table.token):
                if token:
                    self._slot_of[self._name(slot)] = slot
                    self._table.until[slot] = now + self._table.time[slot]

    def acquire(self, name: str, holder: int, seconds: float) -> Lease | None:
        """The lease, or None while another holder has it. A holder that has it already keeps its token.

        ValueError: the name has no bytes, or more than 48. :class:`Full`.
        """
        words = _words(name)
        table = self._table
        with self._heap.synchronized(table):
            slot = self._slot_of.get(name)
            if slot is not None and self._is_held(slot):
                return self._extended(name, slot, seconds) if table.holder[slot] == holder else None
            over: list[str] = []
            if slot is None:
                slot, over = self._taken()
                for index, word in enumerate(words):
                    table.name[slot * NAME_WORDS + index] = word
            table.last_token += 1
            table.token[slot] = table.last_token
            table.holder[slot] = holder
            lease = self._extended(name, slot, seconds)
            for each in over:
                del self._slot_of[each]
            self._slot_of[name] = slot
            return lease

    def renew(self, name: str, token: int, seconds: float) -> Lease | None:
        """The lease, for so long from now on; None if this token doesn't hold it."""
        with self._heap.synchronized(self._table):
            slot = self._slot_of.get(name)
            if slot is None or self._table.token[slot] != token or not self._is_held(slot):
                return None
            return self._extended(name, slot, seconds)

    def release(self, name: str, token: int) -> bool:
        """Releases the lease; whether this token held it."""
        with self._heap.synchronized(self._table):
            slot = self._slot_of.get(name)
            if slot is None or self._table.token[slot] != token:
                return False
            self._free(slot)
            del self._slot_of[name]
            return True

    def all(self) -> list[Lease]:
        """The leases that are held."""
        with self._heap.synchronized(self._table):
            return [self._lease(name, slot) for name, slot in self._slot_of.items() if self._is_held(slot)]

    def durable(self) -> None:
        """Sleeps until no crash can lose what this thread has done, and seen."""
        self._heap.durable()

    # ---- the thread has the monitor ----

    def _name(self, slot: int) -> str:
        words = (self._table.name[slot * NAME_WORDS + index] for index in range(NAME_WORDS))
        return b"".join(word.to_bytes(8, "big") for word in words).rstrip(b"\0").decode()

    def _is_held(self, slot: int) -> bool:
        return self._table.until[slot] > time.monotonic_ns()

    def _extended(self, name: str, slot: int, seconds: float) -> Lease:
        length = round(seconds * 1e9)
        # A value that stays costs the log nothing.
        if self._table.time[slot] != length:
            self._table.time[slot] = length
        self._table.until[slot] = time.monotonic_ns() + length
        return self._lease(name, slot)

    def _lease(self, name: str, slot: int) -> Lease:
        return Lease(name, self._table.token[slot], (self._table.until[slot] - time.monotonic_ns()) / 1e9)

    def _taken(self) -> tuple[int, list[str]]:
        """A slot, and the names of the leases that were freed for it, whose time was over."""
        slot = self._table.slots.take()
        if slot is not None:
            return slot, []
        over = [name for name, slot in self._slot_of.items() if not self._is_held(slot)][:MOST_SWEPT]
        if not over:
            raise Full
        for name in over:
            self._free(self._slot_of[name])
        slot = self._table.slots.take()
        assert slot is not None
        return slot, over

    def _free(self, slot: int) -> None:
        self._table.token[slot] = 0
        self._table.slots.give(slot)


def _words(name: str) -> list[int]:
    encoded = name.encode()
    if not 0 < len(encoded) <= NAME_BYTES or b"\0" in encoded:
        raise ValueError(f"a name has 1 to {NAME_BYTES} bytes of UTF-8, none of them zero")
    padded = encoded.ljust(NAME_BYTES, b"\0")
    return [int.from_bytes(padded[begin : begin + 8], "big") for begin in range(0, NAME_BYTES, 8)]
