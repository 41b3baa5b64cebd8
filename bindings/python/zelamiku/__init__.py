"""Objects of 64-bit fields in a file, for threads. Change them under locks; after a crash you find all of a critical section or nothing.

::

    import zelamiku

    class Account(zelamiku.Object):
        balance = zelamiku.Field(first=100)

    with zelamiku.open("accounts.heap", alice=Account, bob=Account, lanes=8) as heap:    # made or recovered
        with heap.synchronized(heap.alice, heap.bob):                                    # a section, by monitors
            if heap.alice.balance >= 10:
                heap.alice.balance -= 10
                heap.bob.balance += 10
        heap.durable()                                                                   # no crash loses it now

A program declares its objects by classes of :class:`Field`, :class:`Signed`, :class:`Bool`, :class:`Float`, :class:`Ref`, :class:`Array` and
:class:`Pool`, and opens them by :func:`open`. Its threads hold their monitors by :meth:`Heap.synchronized`, load and store fields, wait and
notify (:meth:`Object.wait`, :meth:`Object.notify`). An exception that leaves a section puts back what the section has stored. Each thread has
a lane of the heap, from its first section until it ends (:attr:`Heap.session`). :meth:`Heap.durable` sleeps, and
:meth:`Heap.durable_async` waits in a task, until no crash can lose what the thread has done.

Each failure is an :class:`Error` of its kind, with the path, the cause and the cure. ``python -m zelamiku`` prints a heap by its names, and
moves its values into another declaration.
"""
from .declare import Array, Bool, Field, Float, Items, Object, Pool, Ref, Signed, Slots
from .errors import (
    Abandoned, BadPlan, BrokenFile, Busy, Closed, CopyFailed, DamagedPool, Error, FileError, Forked, InSection, NoHeap, NoLaneFree, NoLibrary,
    NoMemory, NotAHeap, NotHeld, NotReverted, NotTaken, OldVersion, OpenError, OtherHeap, OutOfOrder, OutOfRange, Refused, Reverted, Running,
    SectionFull, Stopped, SyncFailed, TimedOut, TooManyHeld, WriteFailed,
)
from .heap import Heap, open
from .report import Cause, Dropped, Report, Stats, Wait, Why
from .session import Session

__all__ = [
    "Abandoned", "Array", "BadPlan", "Bool", "BrokenFile", "Busy", "Cause", "Closed", "CopyFailed", "DamagedPool", "Dropped", "Error",
    "Field", "FileError", "Float", "Forked", "Heap", "InSection", "Items", "NoHeap", "NoLaneFree", "NoLibrary", "NoMemory", "NotAHeap",
    "NotHeld", "NotReverted", "NotTaken", "Object", "OldVersion", "OpenError", "OtherHeap", "OutOfOrder", "OutOfRange", "Pool", "Ref",
    "Refused", "Report", "Reverted", "Running", "SectionFull", "Session", "Signed", "Slots", "Stats", "Stopped", "SyncFailed", "TimedOut",
    "TooManyHeld", "Wait", "Why", "WriteFailed", "open",
]
