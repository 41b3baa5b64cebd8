"""What an opening found, and what a heap has done since."""
from __future__ import annotations

import enum
from dataclasses import dataclass
from typing import TYPE_CHECKING

if TYPE_CHECKING:
    from .declare import Object


class Why(enum.Enum):
    """Why recovery dropped a section."""

    NOT_ENDED = 1
    """It hadn't ended."""
    DEPENDED = 2
    """It depends on another section that wasn't kept."""
    UNSETTLED = 3
    """It had ended, and wasn't durable yet."""


@dataclass(frozen=True)
class Dropped:
    """A section that recovery dropped. It wasn't durable."""

    lane: int
    section: int
    """Its number in its lane, from 1 on, since the opening before."""
    why: Why
    depended: tuple[int, int] | None
    """The lane and the number of the section on which it depends, after :attr:`Why.DEPENDED`."""


@dataclass(frozen=True)
class Report:
    """What an opening found."""

    is_made: bool
    """There was no heap, and this opening made one."""
    is_upgraded: bool
    """The heap was of an older version."""
    size: int
    """How many bytes the heap has."""
    lanes: int
    """How many threads may use it at once. The helper's lane is left out here and below."""
    capacity: int
    """How many records a lane's log holds."""
    kept: tuple[int, ...]
    """How many sections of each lane were kept, since the opening before."""
    dropped: tuple[Dropped, ...]
    """The sections that weren't kept, by lane and then by number."""
    undone: int
    """How many fields got an old value back; 0 if no section was dropped."""


@dataclass(frozen=True)
class Wait:
    """A thread that sleeps for a monitor."""

    lane: int
    """The thread's lane (:attr:`Session.lane`)."""
    object: Object
    """Whose monitor it is."""
    owner: int | None
    """The lane of the thread that has the monitor. None: no thread has it now, or it isn't known."""
    in_circle: bool
    """Whether it waits in a circle of threads, none of which can go on."""


class Cause(enum.Enum):
    """Why a round came."""

    NONE = 0
    """No round has come yet, or its cause is one that this package doesn't know."""
    AWAITED = 2
    """A thread waits until its sections are durable."""
    ROOM = 3
    """A thread has no room for a section's records."""
    FULL = 4
    """A lane has sent three quarters of what its ring or its log takes."""
    LINGER = 5
    """The linger has passed."""
    AGAIN = 6
    """A write had failed a second before."""
    CLOSING = 7
    """The heap was being closed."""
    LEFT = 8
    """The last one has reached its bound and left records."""

    @classmethod
    def _missing_(cls, value: object) -> Cause:
        # A newer library's.
        return cls.NONE


@dataclass(frozen=True)
class Stats:
    """Counts since the opening, at moments close to each other. Times are seconds."""

    rounds: int
    """Rounds that have ended, also those with a failed call."""
    sections: int
    """Sections that are durable."""
    records: int
    """Records that rounds took."""
    calls: int
    """Calls on the file, with the syncs."""
    syncs: int
    troubles: int
    """Rounds with a failed write."""
    calls_time: float
    """In the calls of all rounds."""
    longest_round: float
    """From its first record to its last call."""
    one_sync_rounds: int
    """Rounds with one sync, all their calls made: the heap has a journal (``atomic_sectors`` of :func:`open`)."""
    two_sync_rounds: int
    """With two."""
    four_sync_rounds: int
    """With four: the heap has no lane for the helper (see :func:`open`), or that lane has no room for what the round changed; or the heap's journal
    hasn't."""
    lent: int
    """Lanes in use."""
    awaiting: int
    """Threads that sleep until their sections are durable, or until there is room."""
    entering: int
    """Threads that sleep for a monitor."""
    last_cause: Cause
    """Why the last round came."""
    is_astray: bool
    """The path doesn't lead to the heap's file any more, which was removed or replaced. Stores go into a file without a name: make a copy."""
