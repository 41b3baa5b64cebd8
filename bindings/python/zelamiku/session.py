"""What a thread has of a heap: a lane, the sections that it is in, and the calls that it makes there.

A signal's handler may raise an exception in the main thread after any call that Python makes, and where a function begins or a loop goes on.
So what may not be interrupted is one call: :func:`any` over a :class:`map` makes calls of the library with no step of Python between. And a
loop's first step over a map makes one call of the library, after which no handler is called.
"""
from __future__ import annotations

import functools
import threading
import time
import weakref
from collections.abc import Generator, Sequence
from ctypes import byref, c_bool, c_uint32, c_uint64
from itertools import repeat
from types import TracebackType
from typing import TYPE_CHECKING, Any, NoReturn

from .declare import Object
from .errors import Error, InSection, NotHeld, OutOfOrder, Refused, Reverted, TimedOut
from .library import ABANDONED, ALL_SECTIONS, BEHIND, HELD, NO_DEADLINE, OK, POOL_EMPTY, RUNNING, ProgressRow
from .link import Link

if TYPE_CHECKING:
    from .tasks import Tasks

# Nanoseconds after which the main thread, while it sleeps until its sections are durable, handles signals, as that of Ctrl-C.
_TICK = 200_000_000

Hold = Generator[None, "BaseException | None", None]
"""Holds the monitors of a `with`: :func:`hold`."""


class NoLane:
    """A thread without a lane: everything that needs a monitor is refused."""

    handle = 0
    held: Sequence[int] = ()
    failure = ""
    number: int | None = None
    earlier = 0

    def __init__(self, link: Link, is_settled: bool = True) -> None:
        self._link = link
        self._is_settled = is_settled
        """Whether all is durable that the thread has ended, as far as is known."""

    def progress(self) -> ProgressRow:
        """It has ended no section."""
        return ProgressRow()

    def durable(self, timeout: float | None) -> bool:
        """Whether all that the thread has ended is durable."""
        if not self._is_settled:
            raise Refused(self._link.path, "the thread has freed its lane before all that it had ended was durable", "call durable() before session.end()")
        return True

    def revert(self) -> None:
        """Is refused."""
        raise _in_no_section(self._link)

    def _refuse_field(self, field: int, *_: int) -> NoReturn:
        raise self._link.field_error(field)

    def _refuse_object(self, of: Object, *_: bool) -> NoReturn:
        raise self._link.object_error(of._number)

    load = store = take = give = _refuse_field
    wait = notify = _refuse_object


class Lane:
    """A thread's lane, from its first section on. It is freed when the thread ends, and with it this object."""

    _begun: c_uint64 | None = None

    def __init__(self, link: Link, deadline: int) -> None:
        self._link = link
        self._calls = link.calls
        self.held: list[int] = []
        """The monitors that the thread holds, by the `with` that has taken them. In a section there is one."""
        self.stores = 0
        """How many stores the section has begun that weren't refused or reverted: at least as many as there were."""
        self.failure = ""
        """What has left a `with` inside the section, which was reverted then. The section can do nothing more."""
        self._thread = threading.current_thread()
        # What the library loads to. Each load takes one for itself, since a signal's handler may make others before it has been read.
        self._cells: list[tuple[c_uint64, Any]] = []
        # Before the lane begins, since a signal's handler may raise an exception right after it.
        self._begun = c_uint64()
        status = link.begin(byref(self._begun), deadline)
        if status != OK:
            raise link.error(status)
        self.handle = self._begun.value
        self.reverts = map(self._calls.thread_revert, repeat(self.handle))
        """Each step reverts the section, and is what the library has returned."""
        self.exit = functools.partial(self._calls.thread_exit, self.handle)
        # Kept for the time after the heap has ended.
        now = self.progress()
        self.number: int | None = now.lane
        self.earlier: int = now.earlier

    def __del__(self) -> None:
        if self._begun is None:
            return
        if self._calls.thread_end(self._begun.value) == RUNNING:
            self.abandon("a thread has ended inside a section")
        self._link.has_freed_lane()

    def abandon(self, reason: str) -> Error:
        """Stops the heap, for what this thread has done."""
        return self._link.abandon(f"{reason}, in the thread {self._thread.name}")

    def progress(self) -> ProgressRow:
        """How many sections the thread has ended, and how many of them are durable, from the first on. Any thread may ask."""
        row = ProgressRow()
        self._calls.thread_progress(self.handle, byref(row))
        return row

    # ---- sections ----

    def admit(self, numbers: list[int]) -> list[int]:
        """Which of these monitors have to be taken for a `with` inside the section: those that aren't held."""
        self.check()
        last = max(self.held)
        missing = [number for number in numbers if number not in self.held]
        for number in missing:
            if number < last:
                cause = f"{self._link.name(number)} comes before a monitor that the thread holds already"
                raise OutOfOrder(self._link.path, cause, "take all of them by one synchronized(..), or declare it after")
        return missing

    def await_monitor(self, number: int, status: int, deadline: int) -> None:
        """Takes a monitor after a try has returned this status."""
        if status in (HELD, BEHIND) and deadline:
            status = self._calls.thread_enter_until(self.handle, number, deadline)
        if status in (HELD, BEHIND):
            cause = "another thread has its monitor" if status == HELD else "the lane has no room for a section's records"
            raise TimedOut(self._link.path, f"{self._link.name(number)}: {cause}, still after the timeout", "try again")
        if status:
            raise self._link.error(status)

    def stop_unreverted(self, status: int, error: BaseException) -> None:
        """Stops the heap, because an exception has left a section that can't be reverted: a revert has returned this status."""
        why = self._link.calls.failure(status).cause.decode(errors="replace")
        self.failure = ""
        self.abandon(f"an exception has left a section that had stored ({_text(error)}) and can't be reverted: {why}")

    def revert(self) -> None:
        """Reverts what the section has stored. Its monitors stay held."""
        if not self.held:
            raise _in_no_section(self._link)
        self.check()
        status = next(self.reverts)
        if status:
            raise self._link.error(status)
        self.stores = 0

    def check(self) -> None:
        """Refuses all that a section does after it was reverted by an exception."""
        if self.failure:
            raise self.reverted()

    def reverted(self) -> Reverted:
        """Why the section can do nothing more."""
        cause = f"an exception has left a `with` inside this section, which was reverted ({self.failure})"
        return Reverted(self._link.path, cause, "let the exception leave the outermost `with` too, or catch it in the inner one")

    # ---- in a section ----

    def load(self, field: int) -> int:
        """The bits of a field."""
        if self.failure:
            raise self.reverted()
        if self._cells:
            cell = self._cells.pop()
        else:
            value = c_uint64()
            cell = value, byref(value)
        status = self._calls.thread_load(self.handle, field, cell[1])
        bits: int = cell[0].value
        self._cells.append(cell)
        if status:
            raise self._link.error(status)
        return bits

    def store(self, field: int, bits: int) -> None:
        """Stores the bits of a field."""
        if self.failure:
            raise self.reverted()
        # Before it is done, since a signal's handler may raise an exception right after it.
        self.stores += 1
        status = self._calls.thread_store(self.handle, field, bits)
        if status:
            self.stores -= 1
            raise self._link.error(status)

    def take(self, head: int, slots: int) -> int | None:
        """Takes a slot of the pool with this head; None: no slot is free."""
        self.check()
        slot = c_uint32()
        self.stores += 1
        status = self._calls.thread_take(self.handle, head, slots, byref(slot))
        if not status:
            return slot.value
        self.stores -= 1
        if status == POOL_EMPTY:
            return None
        raise self._link.error(status)

    def give(self, head: int, slots: int, slot: int) -> None:
        """Frees a slot of the pool with this head."""
        self.check()
        self.stores += 1
        status = self._calls.thread_give(self.handle, head, slots, slot)
        if status:
            self.stores -= 1
            raise self._link.error(status)

    def wait(self, of: Object) -> None:
        """Waits for a notification of the object's monitor."""
        self.check()
        # With the only monitor the section ends, and the next one has stored nothing.
        ended = 0 if any(number != of._number for number in self.held) else self.stores
        self.stores -= ended
        status = self._calls.thread_wait(self.handle, of._number)
        if status:
            self.stores += ended
            raise self._link.error(status)

    def notify(self, of: Object, wakes_all: bool) -> tuple[int, ...]:
        """Wakes one or all of the threads that wait for the object's monitor, and returns their lanes."""
        self.check()
        lanes = c_uint64()
        status = self._calls.thread_notify(self.handle, of._number, wakes_all, byref(lanes))
        if status:
            raise self._link.error(status)
        return tuple(lane for lane in range(lanes.value.bit_length()) if lanes.value >> lane & 1)

    # ---- outside of sections ----

    def durable(self, timeout: float | None) -> bool:
        """Sleeps until what the thread has ended is durable, or until the timeout; whether it is."""
        if self.held:
            raise InSection(self._link.path, "this section hasn't ended, so it can't be durable", "leave it first")
        deadline = _deadline(timeout)
        while self._thread is threading.main_thread() and (tick := time.monotonic_ns() + _TICK) < deadline:
            if self.is_durable(tick):
                return True
        return self.is_durable(deadline)

    def is_durable(self, deadline: int) -> bool:
        """Requests a round, and sleeps until then at most; 0 is past. Whether all that the thread has ended is durable."""
        is_durable = c_bool()
        status = self._calls.thread_await_until(self.handle, ALL_SECTIONS, deadline, byref(is_durable))
        if status != OK:
            raise self._link.error(status)
        return is_durable.value

    def has_all_durable(self) -> bool:
        """Whether all that the thread has ended was durable a moment ago."""
        now = self.progress()
        return now.durable >= now.sections


class Own(threading.local):
    """What each thread has of a heap by itself."""

    def __init__(self, link: Link) -> None:
        self.link = link
        self.lane: Lane | NoLane = NoLane(link)
        self.tasks: Tasks | None = None


def hold(own: Own, numbers: list[int], timeout: float | None) -> Hold:
    """Takes these objects' monitors by its first step, and frees them by the next, which gets the exception that leaves the `with`.

    It is a generator, because Python always goes on inside its ``try``: at a step; at an exception that a signal's handler raises there; or when
    its last reference is gone, because such an exception has interrupted the `with` itself. It keeps no lane, which goes with its thread.
    """
    lane = own.lane
    deadline = NO_DEADLINE if timeout is None else _deadline(timeout)
    if not lane.handle:
        # Without a timeout it doesn't wait for a lane, which another thread may keep for ever.
        own.lane = lane = Lane(own.link, 0 if timeout is None else deadline)
    handle, held, try_enter = lane.handle, lane.held, own.link.calls.try_enter
    before = len(held)
    if before:
        mine = lane.admit(numbers)
    else:
        lane.stores, lane.failure, mine = 0, "", numbers
    # The exit of a monitor that wasn't taken is refused. So it needn't be known how far the taking has come.
    exits = map(lane.exit, mine[::-1])
    is_inside = False
    error: BaseException | None = _CUT_OFF
    raised: Error | None = None
    try:
        for number in mine:
            status = try_enter(handle, number, 0)
            if status:
                lane.await_monitor(number, status, deadline)
            # Only what is held: a signal's handler may be in a section of its own before this, or after.
            held += (number,)
        is_inside = True
        del lane
        error = yield
    finally:
        # No call comes before that which frees the monitors.
        lane = own.lane
        if lane.handle != handle:
            raised = own.link.abandon("a section has ended in another thread than it began")
        elif is_inside and held[before:] != mine:
            raised = lane.abandon("sections have ended in another order than they began, as by an await or a yield in one")
        elif not is_inside:
            del held[before:]
            list(exits)
        elif error is None or not lane.stores:
            del held[before:]
            if any(exits):
                # Only after the heap has ended, when the first exit frees all.
                raised = own.link.error(lane.exit(mine[0]))
        else:
            # What was stored outside of an inner `with` is reverted too, so a program that catches the exception there may not go on.
            lane.failure = "an exception of a signal's handler"
            del held[before:]
            for status in lane.reverts:
                break
            if not status:
                any(exits)
            else:
                try:
                    lane.stop_unreverted(status, error)
                finally:
                    own.link.calls.heap_stop(own.link.handle, ABANDONED)
                    list(exits)
            if lane.failure:
                lane.failure = _text(error)
        if lane.failure and is_inside and raised is None:
            raised = lane.reverted()
            if not before:
                lane.failure = ""
        if raised is not None and error is None:
            # An exception that is on its way says more.
            raise raised


_CUT_OFF = InterruptedError("its end was interrupted")


class _Leave(functools.partial[None]):
    """What a `with` calls at its end. Nothing else keeps the monitors' generator, so they are freed if a `with` ends without a call: an exception's
    traceback has this one's frames, and not this."""

    __slots__ = ("hold",)


def _leave(hold: weakref.ref[Hold], kind: type[BaseException] | None, error: BaseException | None, trace: TracebackType | None) -> None:
    if error is None:
        next(hold(), None)  # type: ignore[call-overload]
        return
    try:
        hold().send(error)  # type: ignore[union-attr]
    except StopIteration:
        pass


class _Exit:
    """``Section.__exit__``: what a `with` gets from a section, and calls at its end."""

    def __get__(self, section: Section | None, owner: type) -> Any:
        if section is None:
            return self
        leave = _Leave(_leave, section.ref)
        leave.hold, section.hold = section.hold, None
        if leave.hold is None:
            raise section.used()
        return leave

    def __call__(self, section: Section, kind: type[BaseException] | None, error: BaseException | None, trace: TracebackType | None) -> None:
        """As contextlib.ExitStack calls it."""
        _leave(section.ref, kind, error, trace)


class Section:
    """Monitors that are held inside of its ``with``: :meth:`Heap.synchronized` makes it for one."""

    __slots__ = ("link", "hold", "ref", "is_begun")

    def __init__(self, own: Own, numbers: list[int], timeout: float | None) -> None:
        self.link = own.link
        self.hold: Hold | None = hold(own, numbers, timeout)
        self.ref = weakref.ref(self.hold)
        self.is_begun = False

    def __enter__(self) -> None:
        if self.is_begun:
            raise self.used()
        self.is_begun = True
        next(self.ref())  # type: ignore[arg-type]

    if TYPE_CHECKING:

        def __exit__(self, kind: type[BaseException] | None, error: BaseException | None, trace: TracebackType | None) -> None: ...

    else:
        __exit__ = _Exit()

    def used(self) -> Refused:
        """Why it can't be entered again."""
        return Refused(self.link.path, "this section was entered before", "call synchronized(..) for each `with`")


class Session:
    """What the calling thread has of a heap: :attr:`Heap.session`. A thread has a lane from its first section on, until it ends or calls
    :meth:`end`.

    The next opening's report names each section that it drops by its lane and its number there. In this lane that is the thread's own section
    ``number - earlier``, if that is 1 or more and no more than the thread has begun.
    """

    __slots__ = ("_own",)

    def __init__(self, own: Own) -> None:
        self._own = own

    def __repr__(self) -> str:
        return f"<zelamiku.Session of {self._own.link.path}, lane {self.lane}>"

    @property
    def lane(self) -> int | None:
        """The thread's lane, from 0 on. None: it has no lane."""
        return self._own.lane.number

    @property
    def earlier(self) -> int:
        """How many sections of its lane had ended, in this opening, before the thread had it."""
        return self._own.lane.earlier

    @property
    def sections(self) -> int:
        """How many sections the thread has ended. A wait with no other monitor held ends one too. 0 once the heap has ended and another one has
        its place in the library."""
        return self._own.lane.progress().sections

    def revert(self) -> None:
        """Reverts what the section has stored. It goes on as if it had stored nothing, and its monitors stay held.

        :class:`NotHeld`: the thread is in no section. :class:`NotReverted`: the section has freed a monitor under which it had stored, or the
        heap was opened with ``reverts=False``; nothing was reverted. :class:`Reverted`, :class:`Stopped`.
        """
        self._own.lane.revert()

    def end(self) -> None:
        """Frees the thread's lane, for other threads. The thread's next section has a lane again, perhaps another one.

        It is for the threads of a pool, which may be idle for long. What the thread has ended becomes durable as before, but
        :meth:`Heap.durable` can't wait for it any more: call that first. :class:`InSection`: nothing was done.
        """
        own, lane = self._own, self._own.lane
        if lane.held:
            raise InSection(own.link.path, "this section hasn't ended, so the lane can't be freed", "leave it first")
        if isinstance(lane, Lane):
            # The lane ends with its last reference: tasks that wait by it keep it until they are woken.
            own.lane, own.tasks = NoLane(own.link, lane.has_all_durable()), None


def _text(error: BaseException) -> str:
    return f"{type(error).__name__}: {error}"


def _in_no_section(link: Link) -> NotHeld:
    return NotHeld(link.path, "the thread is in no section", "call it inside `with heap.synchronized(..)`")


def _deadline(timeout: float | None) -> int:
    """In nanoseconds of time.monotonic_ns(): 0 if no time is left to sleep. To the library it is a number of 64 bits."""
    if timeout is None:
        return NO_DEADLINE
    return time.monotonic_ns() + round(min(timeout, threading.TIMEOUT_MAX) * 1e9) if timeout > 0 else 0
