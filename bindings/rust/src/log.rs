//! What a heap tells a program that watches it: lines for its log, counts, and which sessions wait.
use crate::{lane_of, raw, Object};
use std::time::Duration;

/// How serious a line of the [log](crate::Options::log) is.
#[non_exhaustive]
#[derive(Clone, Copy, Debug, PartialEq, Eq, PartialOrd, Ord, Hash)]
pub enum Level {
    /// What the heap does: opened, closed.
    Info,
    /// The heap goes on, and something should be done, for example about a full disk.
    Warning,
    /// The heap has ended.
    Error,
}

impl From<u32> for Level {
    fn from(level: u32) -> Level {
        match level {
            0 => Level::Info,
            1 => Level::Warning,
            _ => Level::Error,
        }
    }
}

/// Why a round came.
#[non_exhaustive]
#[derive(Clone, Copy, Debug, Default, PartialEq, Eq, Hash)]
pub enum Cause {
    /// There was none yet.
    #[default]
    None,
    /// A session waits until its sections are durable.
    Awaited,
    /// A session has no room for a section's records.
    Room,
    /// A lane has sent three quarters of what its ring or its log takes.
    Full,
    /// The [linger](crate::Options::linger) has passed since a section ended.
    Linger,
    /// A second has passed since a write failed.
    Again,
    /// The heap is being closed.
    Closing,
    /// The last round has reached its bound and left records.
    Left,
}

/// The causes by their numbers in zelamiku.h, which has no 1.
const CAUSES: [Cause; 9] = {
    use Cause::*;
    [None, None, Awaited, Room, Full, Linger, Again, Closing, Left]
};

/// Counts since the heap was opened. Each is exact; they are read at moments close to each other.
#[non_exhaustive]
#[derive(Clone, Copy, Debug, Default, PartialEq, Eq)]
pub struct Stats {
    /// Rounds that have ended, also those with a failed call.
    pub rounds: u64,
    /// Sections that are durable.
    pub sections: u64,
    /// Records that rounds took.
    pub records: u64,
    /// Calls that were made on the file, syncs among them.
    pub calls: u64,
    /// Syncs that were made.
    pub syncs: u64,
    /// Rounds with a failed write.
    pub troubles: u64,
    /// How long the calls of all rounds took.
    pub calls_time: Duration,
    /// The longest round, from its first record to its last call.
    pub longest_round: Duration,
    /// Rounds with one sync, all their calls made: the heap has a journal ([`Options::atomic_sectors`](crate::Options::atomic_sectors)).
    pub one_sync_rounds: u64,
    /// Rounds with two.
    pub two_sync_rounds: u64,
    /// Rounds with four: the heap has no lane for its helper ([`Options::lanes`](crate::Options::lanes)), or that lane has no room for what
    /// the round has changed; or the heap's journal hasn't.
    pub four_sync_rounds: u64,
    /// Sessions in use.
    pub sessions: u32,
    /// Sessions that sleep until their sections are durable, or until there is room.
    pub awaiting: u32,
    /// Sessions that sleep for a monitor.
    pub entering: u32,
    /// Why the last round came.
    pub last_cause: Cause,
    /// The path doesn't lead to the heap's file any more: the file was removed, or another one has its name. The heap goes on in the file
    /// that it has open, which the next opening of the path doesn't find. The log reports it once.
    pub is_astray: bool,
}

impl From<raw::Stats> for Stats {
    fn from(raw: raw::Stats) -> Stats {
        let [rounds, sections, records, calls, syncs, troubles, calls_time, longest_round, two_sync_rounds, four_sync_rounds, one_sync_rounds] =
            raw.counts;
        Stats {
            rounds,
            sections,
            records,
            calls,
            syncs,
            troubles,
            calls_time: Duration::from_nanos(calls_time),
            longest_round: Duration::from_nanos(longest_round),
            one_sync_rounds,
            two_sync_rounds,
            four_sync_rounds,
            sessions: raw.lent,
            awaiting: raw.awaiting,
            entering: raw.entering,
            last_cause: CAUSES.get(raw.last_cause as usize).copied().unwrap_or_default(),
            is_astray: raw.is_astray != 0,
        }
    }
}

/// A session that sleeps for a monitor.
#[non_exhaustive]
#[derive(Clone, Copy, Debug, PartialEq, Eq)]
pub struct Wait {
    /// The session's lane.
    pub lane: u32,
    /// The object whose monitor it sleeps for.
    pub object: Object,
    /// The lane of the session that has the monitor. `None`: it is free again and the session is about to wake, or the owner is unknown
    /// because all lanes are in sections and none of them sleeps.
    pub owner: Option<u32>,
    /// Whether it waits in a circle of sessions, none of which can go on.
    pub is_in_circle: bool,
}

impl From<raw::Wait> for Wait {
    fn from(raw: raw::Wait) -> Wait {
        Wait {
            lane: raw.lane,
            object: Object(raw.object),
            owner: lane_of(raw.owner),
            is_in_circle: raw.in_circle != 0,
        }
    }
}
