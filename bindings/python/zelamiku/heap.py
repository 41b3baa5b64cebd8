"""A heap in a file: opened, used by threads, closed."""
from __future__ import annotations

import contextlib
import operator
import os
import warnings
import weakref
from collections.abc import Callable, Iterator, Sequence
from ctypes import byref, c_size_t, c_uint64, c_void_p, cast
from types import TracebackType
from typing import Any, Literal

from .declare import MOST, Object, bind
from .errors import COPY, OPENING, Abandoned, BadPlan, Error, InSection, OtherHeap, Running, Stopped, WriteFailed
from .library import CLOSED, DEVICE, LOG_HOOK, MOST_LANES, NOBODY, OK, OTHER_HEAP, RUNNING
from .library import DroppedRow, FieldRow, Library, PlanRow, ReportRow, StatsRow, WaitRow, library
from .link import Link
from .plan import Declared, Plan
from .report import Cause, Dropped, Report, Stats, Wait, Why
from .session import Lane, Own, Section, Session
from .tasks import Tasks


def open(
    path: str | os.PathLike[str],
    /,
    *,
    lanes: int = 8,
    capacity: int | None = None,
    ring: int = 16_384,
    linger: float = 0.005,
    upgrade: bool = False,
    create: bool = True,
    reverts: bool = True,
    atomic_sectors: bool = False,
    fingerprint: int | Literal["names"] | None = "names",
    log: Callable[[int, str], object] | None = None,
    **objects: Declared,
) -> Heap:
    """Opens the heap of the file at this path, and recovers it. If there is no file, or one that is empty or of zeros, it makes a heap.

    Each further argument names an object and gives its class, or names several and gives a sequence of classes (``accounts=[Account] * 64``).
    They and their fields are numbered in the order in which they are declared. A file with another heap is refused and left as it is.

    - ``lanes``: how many threads may use the heap at once, 1 to 32; a heap that is there may have more. A new heap has one lane more, for the
      helper: a round then takes two syncs, or one. With 32, or if the file has exactly as many as are asked for, the helper has none, and a
      round takes four.
    - ``capacity``: records of a lane's log, 2,000 to 1,048,576; by default as many as its ring. A heap that is there keeps its own.
    - ``ring``: records of a lane's ring, 4,096 to 65,536, of 24 bytes of memory each. A thread goes on until its ring or its log is full, while
      a round's calls are made.
    - ``linger``: seconds after which a round makes a section durable that nobody waits for. Less makes more syncs.
    - ``upgrade``: also opens a heap of an older version, and makes it one of this version in place.
    - ``create=False``: makes no heap. :class:`NoHeap`: there is none, for example because a volume isn't mounted.
    - ``reverts=False``: keeps no old values. An exception that leaves a section then stops the heap (:meth:`Heap.synchronized`), and a section
      has room for twice as many stores.
    - ``atomic_sectors=True``: a heap that is made gets a journal, and a round takes one sync. Only for storage that keeps each sector of 512 bytes
      whole when the power fails, as NVMe with power-loss protection and Ceph RBD do. Elsewhere such a heap may lose what was durable, and
      nothing notices. A heap that is there keeps what it has (:attr:`Stats.one_sync_rounds`).
    - ``fingerprint``: a number of 64 bits that a new heap keeps, and that each later opening must have. By default it is made from the names of
      objects and fields, in their order: a program that declares them in another order is refused. If you choose a number, choose another
      one whenever fields change their meaning. None: a new heap has none. A heap without one is opened with any number; a heap with one
      isn't opened with None.
    - ``log``: is called with a level of :mod:`logging` (20, 30, 40) and a line, for each opening, failing write, end of trouble, circle of
      threads that wait for each other, and end of the heap: ``logging.getLogger("bank").log`` is such a function. A thread of the library
      calls it, or one that opens, closes, copies or waits. It may call nothing of the heap. Its exceptions go to :func:`sys.unraisablehook`.

    The file is locked for this opening. Reading and syncing it may take seconds. Close the heap, or use it as a context manager.

    :class:`NoLibrary`, :class:`NoMemory`, and each kind of :class:`OpenError`: no heap was opened. TypeError and ValueError: an argument is no
    object.
    """
    plan = Plan(objects)
    for name in objects:
        if name.startswith("_") or hasattr(Heap, name):
            raise ValueError(f"no object can be named {name}, which is a name of zelamiku.Heap's own")
    text = os.fspath(path)
    wanted = PlanRow(
        lanes=_within(text, "lanes", lanes, 1, MOST_LANES),
        # To the library 0 means as many as the ring.
        capacity=0 if capacity is None else _within(text, "capacity", capacity, 2_000, 1_048_576),
        ring=_within(text, "ring", ring, 4_096, 65_536),
        # To the library 0 means 5,000.
        linger=_within(text, "linger, in microseconds,", round(min(linger, 2**32) * 1e6), 0, 2**32 - 1) or 1,
        upgrades=upgrade,
        must_exist=not create,
        reverts=reverts,
        atomic_sectors=atomic_sectors,
        fingerprint=_fingerprint(text, plan, fingerprint),
    )
    calls = library()
    hook = LOG_HOOK(lambda _, level, line: log(20 + 10 * level, line.decode(errors="replace"))) if log else None
    wanted.log = cast(hook, c_void_p) if hook else None
    handle, row = _opened(calls, text, plan, wanted)
    return Heap(Link(calls, handle, text, plan, hook), plan, _report(calls, handle, row))


class Heap:
    """A heap that is open, made by :func:`open`. Its objects are its attributes, by their names. Threads share it: each has a lane from its first
    section until it ends. If a pool has more threads than the heap has lanes, they call :meth:`durable` and then :meth:`Session.end`. A signal's
    handler may use the heap. Calls that may sleep release the interpreter's lock.

    As a context manager it is closed at the end of its ``with``. If it can't be closed there, because another thread's section is open or a write
    fails, it is stopped, and the ``with`` raises the exception of :meth:`close`.
    """

    def __init__(self, link: Link, plan: Plan, report: Report) -> None:
        own = Own(link)
        self._link = link
        self._own = own
        self._session = Session(own)
        self._report = report
        self._objects = tuple(bind(each.cls, own, each.name, number, each.numbers) for number, each in enumerate(plan.objects))
        for name, place in plan.places.items():
            self.__dict__[name] = self._objects[place] if isinstance(place, int) else self._objects[place.start : place.stop]
        self._finish = weakref.finalize(self, _end_unclosed, link)

    def __getattr__(self, name: str) -> Any:
        if name.startswith("_"):
            raise AttributeError(name)
        raise AttributeError(f"{self._link.path} has no object {name}: zelamiku.open declares each by its name")

    def __repr__(self) -> str:
        return f"<zelamiku.Heap {self._link.path}{'' if self._finish.alive else ', closed'}>"

    @property
    def path(self) -> str:
        """The file, as it was given to :func:`open`."""
        return self._link.path

    @property
    def objects(self) -> Sequence[Object]:
        """All objects, by their numbers: a :class:`Ref` has such a number."""
        return self._objects

    @property
    def report(self) -> Report:
        """What the opening found, and which sections it kept and dropped."""
        return self._report

    @property
    def session(self) -> Session:
        """What the calling thread has of the heap: its lane, its count of sections, :meth:`Session.revert`, :meth:`Session.end`."""
        return self._session

    def synchronized(self, *objects: Object, timeout: float | None = None) -> Section:
        """A context manager that holds these objects' monitors inside its ``with``. The thread sleeps until it has them.

        A section is all that a thread does from its first monitor until it holds none. After a crash it is there whole or not at all, with all
        that it depends on. A section isn't durable while one that it depends on is open, so keep sections short, without an await or a yield.
        Call this anew for each ``with``.

        **Order.** Monitors are taken in the order of their objects, whichever is named first, so no two threads wait for each other's. A
        ``with`` inside another takes only monitors that are held already or come after all that are held; others are refused
        (:class:`OutOfOrder`).

        **Timeout**, in seconds; 0 never sleeps. :class:`TimedOut`: the monitors that were taken before are free again; if there was one, this
        was a section that changed nothing, and it counts as one. A thread's first section needs a lane (:attr:`session`). If other threads
        have them all, it waits for one until the timeout; without a timeout it raises :class:`NoLaneFree` at once. No signal is handled while
        the thread sleeps for a monitor.

        **Exceptions.** An exception that leaves the ``with``, also KeyboardInterrupt, reverts the section: each field has again the value from
        before the section's first store to it. Then the monitors are freed, and the exception goes on. The heap goes on for all threads, and
        nobody ever sees a half. What the program keeps elsewhere, as in a dictionary, isn't reverted: change it last. Threads that were
        notified stay so. A signal's exception that comes just when the section ends may find it ended, and then it is there whole. By the
        time that a program catches any exception, the monitors are free. If several signals raise while a section ends, Python prints all
        but the last.

        **Inside another.** The outermost ``with`` is the section, and those inside are parts of it. An exception that leaves one inside reverts
        the whole section. If the program catches it before it leaves the outermost one, all that the section does further is refused, and so
        is its end (:class:`Reverted`). A section that had stored nothing goes on.

        A section can't be reverted after it has freed a monitor under which it had stored while it held another: at the end of a ``with``
        inside, or by :meth:`Object.wait`. Then, and if the heap was opened with ``reverts=False``, the exception stops the heap as a crash
        would: the next opening drops the section, and every other thread's call raises :class:`Abandoned` with the reason.

        After :class:`TooManyHeld`, :class:`SectionFull`, :class:`Refused`, :class:`WriteFailed` what was held before stays held.
        :class:`Stopped`.
        """
        if not objects:
            raise TypeError("synchronized() wants an object, or several")
        own = self._own
        for of in objects:
            if not isinstance(of, Object) or of._own is not own:
                raise ValueError(f"{of!r} is no object of {self._link.path}")
        numbers = [of._number for of in objects]
        numbers.sort()
        return Section(own, numbers, timeout)

    def durable(self, timeout: float | None = None) -> bool:
        """Sleeps until no crash can lose what this thread has ended, or for so many seconds at most; whether that is so.

        It requests a round, and sleeps on while a section that one of them depends on is open. A timeout changes nothing: the sections become
        durable as if nobody had waited, and may be waited for again. In the main thread signals are handled within 0.2 s.

        :class:`InSection`. :class:`WriteFailed`: they aren't durable yet, and may be waited for again. :class:`Stopped`: they may be lost.
        """
        return self._own.lane.durable(timeout)

    async def durable_async(self) -> None:
        """The same for a task of asyncio, without a timeout: the loop goes on meanwhile, and one round serves all tasks that wait.

        It waits for what the loop's thread has ended before the call. A task that is cancelled waits no more. :class:`InSection`,
        :class:`WriteFailed`, :class:`Stopped`, as :meth:`durable`.
        """
        lane = self._own.lane
        if not isinstance(lane, Lane):
            lane.durable(0)
            return
        if lane.held:
            raise InSection(self._link.path, "this section hasn't ended, so it can't be durable", "leave it first")
        if lane.has_all_durable() and lane.is_durable(0):
            return
        if self._own.tasks is None:
            self._own.tasks = Tasks(self._link, lane)
        await self._own.tasks.durable()

    def stats(self) -> Stats:
        """Counts since the opening. After the heap has ended they stay, until another heap has its place in the library: then :class:`Closed`.
        :class:`Forked`."""
        row = StatsRow()
        status = self._link.calls.heap_stats(self._link.handle, byref(row))
        if status != OK:
            raise self._link.error(status)
        counts = {name: getattr(row, name) for name, _ in StatsRow._fields_ if name != "size"}
        counts["calls_time"] /= 1e9
        counts["longest_round"] /= 1e9
        counts["last_cause"] = Cause(counts["last_cause"])
        counts["is_astray"] = bool(counts["is_astray"])
        return Stats(**counts)

    def waits(self) -> tuple[Wait, ...]:
        """The threads that sleep for a monitor now, and the threads that have it. :class:`Stopped`."""
        rows, count = (WaitRow * MOST_LANES)(), c_size_t()
        status = self._link.calls.heap_waits(self._link.handle, rows, MOST_LANES, byref(count))
        if status != OK:
            raise self._link.error(status)
        owners = [None if row.owner == NOBODY else row.owner for row in rows]
        return tuple(Wait(row.lane, self._objects[row.object], owner, bool(row.in_circle)) for row, owner in zip(rows[: count.value], owners))

    def copy_to(self, path: str | os.PathLike[str]) -> None:
        """Writes a copy of the heap while threads go on: beside this path, synced, and then renamed over the file there.

        The copy has all that was durable when the call began. :class:`CopyFailed`: the file that was at the path stays. :class:`NoMemory`,
        :class:`Stopped`.
        """
        text = os.fspath(path)
        calls = self._link.calls
        status = calls.heap_copy(self._link.handle, _encoded(text))
        if status in COPY:
            raise calls.error(text, calls.failure(status), COPY)
        if status != OK:
            raise self._link.error(status)

    def close(self) -> None:
        """Closes the heap once all its sections are durable. After the heap was closed it does nothing.

        :class:`Running`, :class:`WriteFailed`: the heap goes on, and may be closed later. :class:`Stopped`, with the reason: the heap had ended
        before, and is released.
        """
        if self._finish.alive:
            status = self._link.calls.heap_close(self._link.handle)
            if status in (RUNNING, DEVICE):
                raise self._link.error(status)
            self._release(status)

    def stop(self) -> None:
        """Closes the heap also while threads are in sections or wait. Those that sleep raise :class:`Closed` at once, others when they leave.

        What has ended is made durable first, except what depends on a section that is open. The next opening drops that and the open sections.
        After the heap was closed it does nothing.

        :class:`SyncFailed`: the last write has failed, and what had ended may be lost too. :class:`Stopped`, with the reason: the heap had ended
        before. It is released.
        """
        if self._finish.alive:
            self._release(self._link.calls.heap_stop(self._link.handle, CLOSED))

    def abandon(self, reason: str = "the program has abandoned it") -> None:
        """Stops the heap as a crash would, after a thread has failed inside its section: as :meth:`stop`, but from then on each call raises
        :class:`Abandoned`, with this reason. :class:`SyncFailed`, :class:`Stopped`, as :meth:`stop`.
        """
        if self._finish.alive:
            ended = self._link.abandon(reason)
            self._finish.detach()
            if not isinstance(ended, Abandoned):
                raise ended

    def _release(self, status: int) -> None:
        """The heap has ended. The library wakes tasks that wait."""
        self._finish.detach()
        if status != OK:
            raise self._link.error(status)

    def __enter__(self) -> Heap:
        return self

    def __exit__(self, kind: type[BaseException] | None, error: BaseException | None, trace: TracebackType | None) -> None:
        try:
            self.close()
        except Error as failure:
            if isinstance(failure, (Running, WriteFailed)):
                with contextlib.suppress(Stopped):
                    self.stop()
            # An exception that is on its way says more.
            if error is None:
                raise


def _end_unclosed(link: Link) -> None:
    """The heap's last reference is gone, or the program ends: what has ended is made durable."""
    if link.calls.heap_close(link.handle) in (RUNNING, DEVICE):
        link.calls.heap_stop(link.handle, CLOSED)
    warnings.warn(f"the heap of {link.path} wasn't closed", ResourceWarning, stacklevel=2)


# ---- opening ----


def _opened(calls: Library, path: str, plan: Plan, wanted: PlanRow) -> tuple[int, ReportRow]:
    """The handle of the heap, and what the library reports."""
    fields = (FieldRow * len(plan.fields))(*[FieldRow(each.owner, each.guard, each.first, each.is_transient) for each in plan.fields])
    wanted.fields = fields
    wanted.count = len(fields)
    wanted.objects = len(plan.objects)
    handle, row = c_uint64(), ReportRow()
    status = calls.heap_open(byref(handle), _encoded(path), byref(wanted), byref(row))
    if status == OTHER_HEAP:
        raise OtherHeap(path, plan.difference(row.difference, row.field, row.has, row.planned), plan.cure(row.difference, row.has))
    if status != OK:
        raise calls.error(path, calls.failure(status), OPENING)
    return handle.value, row


def make(path: str, plan: Plan, lanes: int, capacity: int, atomic_sectors: bool) -> None:
    """Makes a heap that begins with the plan's first values."""
    calls = library()
    lanes = _within(path, "lanes", lanes, 1, MOST_LANES)
    wanted = PlanRow(lanes=lanes, capacity=capacity, ring=4_096, fingerprint=plan.fingerprint(), atomic_sectors=atomic_sectors)
    handle, _ = _opened(calls, path, plan, wanted)
    status = calls.heap_close(handle)
    if status != OK:
        raise calls.error(path, calls.failure(status))


def _fingerprint(path: str, plan: Plan, chosen: int | str | None) -> int:
    """The plan's, for the library: 0 is none."""
    if chosen is None:
        return 0
    if chosen == "names":
        return plan.fingerprint()
    return _within(path, "fingerprint", chosen, 1, MOST)


def _within(path: str, name: str, value: int, least: int, most: int) -> int:
    if not least <= operator.index(value) <= most:
        raise BadPlan(path, f"{name} is {value}", f"choose {least:,} to {most:,}")
    return value


def _encoded(path: str) -> bytes:
    encoded = os.fsencode(path)
    if b"\0" in encoded:
        raise ValueError("the path has a null byte")
    return encoded


def _report(calls: Library, handle: int, row: ReportRow) -> Report:
    return Report(
        is_made=bool(row.is_made),
        is_upgraded=bool(row.is_upgraded),
        size=row.bytes,
        lanes=row.lanes,
        capacity=row.capacity,
        kept=tuple(row.kept[: row.lanes]),
        dropped=tuple(_dropped(calls, handle, row.dropped)),
        undone=row.undone,
    )


def _dropped(calls: Library, handle: int, count: int) -> Iterator[Dropped]:
    for index in range(count):
        row = DroppedRow()
        # A heap that has ended by now reports no more. A newer library may have another reason.
        if calls.heap_dropped(handle, index, byref(row)) != OK or row.why not in [each.value for each in Why]:
            return
        why = Why(row.why)
        yield Dropped(row.lane, row.section, why, (row.other_lane, row.other_section) if why is Why.DEPENDED else None)
