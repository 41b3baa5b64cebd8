"""Why a call failed: an exception for each kind, with the heap's file, the cause and the cure.

An :class:`Error` prints as ``PATH: CAUSE; CURE``. A :class:`Stopped` is final: this opening of the heap has ended, what was durable stays, and
the heap may be opened again. After any other one the heap goes on, and the call that failed has done nothing.
"""
from __future__ import annotations


class Error(Exception):
    """Why a call failed. If the system is the cause, ``__cause__`` is its :class:`OSError`."""

    def __init__(self, path: str, cause: str, cure: str) -> None:
        super().__init__()
        # Not by the line above: an OSError among the bases would read its number and its file from them.
        self.args = (path, cause, cure)
        self.path = path
        """The heap's file, as it was given to :func:`zelamiku.open`; of :class:`CopyFailed` the copy's, of :class:`NoLibrary` the library's."""
        self.cause = cause
        """What went wrong."""
        self.cure = cure
        """What to do about it."""

    def __str__(self) -> str:
        return f"{self.path}: {self.cause}; {self.cure}"


class NoLibrary(Error):
    """The shared library isn't there, or is of another release than this package."""


class NoMemory(Error, MemoryError):
    """The system had no memory, no thread, or no descriptor. Nothing was opened or done."""


# ---- there is no heap ----


class OpenError(Error):
    """The heap wasn't opened. A file that was there is left as it was."""


class FileError(OpenError):
    """The file can't be opened, made, locked, read or written: ``__cause__`` says why. A file that had no heap yet may have changed."""


class Busy(OpenError):
    """Another process has the heap or makes one there, this one has it open already, or the file was replaced while it was opened."""


class NotAHeap(OpenError):
    """The file has something else than a heap."""


class NoHeap(OpenError, FileNotFoundError):
    """There is no heap at the path: no file, or one that is empty or of zeros. The opening makes none because of ``create=False``."""


class OtherHeap(OpenError):
    """The file has another heap than the declared one. The cause is the first difference, by name, or the names' fingerprints."""


class OldVersion(OpenError):
    """The file's heap is of an older version."""


class BadPlan(OpenError, ValueError):
    """The declaration is no heap: it has too many objects or fields, or none, or its lanes, capacity or ring are out of their limits."""


class BrokenFile(OpenError):
    """The file's heap can't be read: something else has changed the file, or its disk has lost what it had synced."""


# ---- the heap goes on ----


class Refused(Error):
    """The call did nothing, and the heap goes on."""


class NotHeld(Refused):
    """The thread doesn't hold the object's monitor, or that of the field's guard."""


class OutOfRange(Refused, ValueError):
    """The value doesn't fit into the field's 64 bits."""


class OutOfOrder(Refused):
    """A monitor comes before one that the thread holds already. Two threads could so wait for each other for ever."""


class TimedOut(Refused, TimeoutError):
    """Another thread had a monitor until the timeout."""


class NoLaneFree(Refused):
    """As many threads use the heap as it has lanes. A thread keeps its lane until it ends, or calls :meth:`Session.end`."""


class SectionFull(Refused):
    """The section would have more than 1,000 records: one for each monitor taken, each freed, and each store; two for a slot.

    If sections can be reverted, there is one more for each durable field that the section has stored to.
    """


class TooManyHeld(Refused):
    """The thread holds 16 monitors."""


class NotTaken(Refused):
    """The slot isn't taken, or the pool has no such slot."""


class DamagedPool(Refused):
    """A field of the pool names no slot: something else was stored there."""


class InSection(Refused):
    """The thread is inside a section, and this is done outside of one."""


class Reverted(Refused):
    """An exception has left a ``with`` inside this section, which has reverted all of the section. It can do nothing more: leave it."""


class NotReverted(Refused):
    """What the section has stored can't be reverted, and nothing was."""


class Running(Refused):
    """A section is open, or a thread waits. The heap wasn't closed."""


class CopyFailed(Refused):
    """The copy of a heap can't be written: ``__cause__`` says why. The file at its path stays."""


class WriteFailed(Refused):
    """A write to the file failed, as on a full disk: ``__cause__`` says why. Nothing is lost: the write is made again each second, and by the
    next call that waits."""


# ---- the heap has ended ----


class Stopped(Error):
    """This opening of the heap has ended. What was durable stays, and the heap may be opened again."""


class Closed(Stopped):
    """The heap was closed or stopped."""


class SyncFailed(Stopped):
    """A sync of the file failed, the program has closed the file, or a write of :meth:`Heap.stop` or :meth:`Heap.abandon` failed: ``__cause__``
    says why. What wasn't durable may be lost, though the file still reads as it was written."""


class Abandoned(Stopped):
    """A thread has ended in a section, an exception has left one that couldn't be reverted, or the program has called :meth:`Heap.abandon`. The
    next opening drops that section."""


class Forked(Stopped):
    """The heap belongs to the parent process, and goes on there."""


# By the statuses of zelamiku.h. The first is that of a handle whose heap was closed, and whose place another heap has.
KINDS: dict[int, type[Error]] = {
    1: Closed, 4: NoMemory, 6: NoLaneFree, 9: Running, 10: Refused, 11: Refused, 12: NotHeld, 13: Refused, 14: SectionFull, 15: TooManyHeld,
    16: Refused, 17: Refused, 18: Stopped, 22: Stopped, 24: BadPlan, 25: NotAHeap, 27: FileError, 32: WriteFailed, 33: SyncFailed, 34: Busy,
    37: NotTaken, 38: DamagedPool, 39: Closed, 40: OldVersion, 41: Forked, 42: Abandoned, 43: OtherHeap, 45: NoHeap, 46: BrokenFile,
    47: NotReverted,
}
# What some of them are of an opening, of a copy, and of a monitor.
OPENING: dict[int, type[Error]] = {6: OpenError, 18: BrokenFile, 32: FileError}
COPY: dict[int, type[Error]] = {32: CopyFailed, 34: CopyFailed}
MONITOR: dict[int, type[Error]] = {18: Refused}

# Instead of the library's own, those that name a call or an argument of this package.
CURES: dict[type[Error], str] = {
    NoLaneFree: "call heap.session.end() in threads that are idle, and give a timeout; or make a heap of more lanes (32 at most)",
    NoHeap: "mount its volume, or open it without create=False to make one",
    OldVersion: "open it with upgrade=True, after which older releases can't read it",
}
