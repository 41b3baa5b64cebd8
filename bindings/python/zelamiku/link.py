"""An open heap of the library: its handle, and the exceptions for what its calls return."""
from __future__ import annotations

import queue
import time
from typing import Any

from .errors import MONITOR, Abandoned, Error, NotHeld
from .library import ABANDONED, CLOSED, NO_NUMBER, NONE_LEFT, NOT_HELD, NOTHING, OK, FailureRow, Library
from .plan import Plan


class Link:
    """What threads share of an open heap."""

    def __init__(self, calls: Library, handle: int, path: str, plan: Plan, hook: object) -> None:
        self.calls = calls
        self.handle = handle
        self.path = path
        self._hook = hook
        """What the library calls for the log, until the heap has ended."""
        self._plan = plan
        self._reason = ""
        self._awaiting_lanes = 0
        self._freed_lanes: queue.SimpleQueue[None] = queue.SimpleQueue()

    def begin(self, place: Any, deadline: int) -> int:
        """Begins a thread's use of a lane. While none is free it sleeps, until the deadline at most."""
        status: int = self.calls.thread_begin(place, self.handle)
        if status != NONE_LEFT or not deadline:
            return status
        self._awaiting_lanes += 1
        try:
            # It asks again, because a lane may have been freed before this thread was counted.
            while (status := self.calls.thread_begin(place, self.handle)) == NONE_LEFT and (left := deadline - time.monotonic_ns()) > 0:
                try:
                    # After the heap has ended nobody may be left who frees a lane.
                    self._freed_lanes.get(timeout=min(left / 1e9, 1))
                except queue.Empty:
                    pass
        finally:
            self._awaiting_lanes -= 1
        return status

    def has_freed_lane(self) -> None:
        """A lane is free. A finalizer may call this anywhere, so it takes no lock."""
        if self._awaiting_lanes:
            self._freed_lanes.put(None)

    def name(self, number: int) -> str:
        """An object's name."""
        return self._plan.objects[number].name

    def error(self, status: int) -> Error:
        """The exception for this thread's last call, which has returned this status. The cause names the field, or the object."""
        if status in (ABANDONED, NOTHING) and self._reason:
            return Abandoned(self.path, self._reason, "close the heap and open it again")
        row = self.calls.failure(CLOSED if status == NOTHING else status)
        if row.field != NO_NUMBER:
            return self.field_error(row.field, row)
        if row.object != NO_NUMBER:
            return self.object_error(row.object, row)
        return self.calls.error(self.path, row)

    def field_error(self, number: int, row: FailureRow | None = None) -> Error:
        """The exception for a failure of a call on this field; without one, of a thread that holds no monitor."""
        field = self._plan.fields[number]
        if row is None or row.status == NOT_HELD:
            return self._not_held(field.name, field.guard)
        return self.calls.error(self.path, row, about=f"{field.name}: ")

    def object_error(self, number: int, row: FailureRow | None = None) -> Error:
        """The same of a call on an object's monitor."""
        if row is None or row.status == NOT_HELD:
            return self._not_held(self.name(number), number)
        return self.calls.error(self.path, row, MONITOR, f"{self.name(number)}: ")

    def _not_held(self, name: str, guard: int) -> NotHeld:
        monitor = self.name(guard)
        return NotHeld(self.path, f"{name}: the thread doesn't hold the monitor of {monitor}", f"take it: `with heap.synchronized(heap.{monitor})`")

    def abandon(self, reason: str) -> Error:
        """Stops the heap as a crash would, so that the next opening drops the sections that are open. Threads that sleep return at once.

        What has ended is made durable first. Returns what each later call raises: the reason, or why the heap had ended before.
        """
        # Before others are woken, since they ask for it.
        self._reason = self._reason or f"{reason}: the heap has stopped"
        status = self.calls.heap_stop(self.handle, ABANDONED)
        return self.error(ABANDONED if status in (OK, NOTHING) else status)
