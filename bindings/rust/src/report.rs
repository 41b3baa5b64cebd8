//! What an opening found, and what recovery did, section by section.
use crate::raw::{self, HeapNumber};

/// What an opening found, and what recovery kept and dropped. The helper's lane is left out.
#[derive(Clone, Debug, PartialEq, Eq)]
pub struct Report {
    /// The bytes of the heap in its file.
    pub bytes: u64,
    /// How many objects it has.
    pub objects: u32,
    /// How many fields it has, without that of the [fingerprint](crate::Options::fingerprint).
    pub fields: u32,
    /// How many sessions may be in use at once.
    pub lanes: u32,
    /// The records that a lane's log holds.
    pub capacity: u32,
    /// The fields that recovery has set back to an old value, because a section was dropped; 0 if none was.
    pub undone: u64,
    /// How many sections of each lane were kept, since the opening before.
    pub kept: Vec<u64>,
    /// Each section that was dropped, by lane and then by number. None of them was acknowledged.
    pub dropped: Vec<Dropped>,
}

/// A section that recovery dropped.
#[derive(Clone, Copy, Debug, PartialEq, Eq)]
pub struct Dropped {
    /// Its lane.
    pub lane: u32,
    /// Its number in the lane, from 1, since the opening before.
    pub section: u64,
    /// Why it was dropped.
    pub why: Why,
}

/// Why a section was dropped.
#[non_exhaustive]
#[derive(Clone, Copy, Debug, PartialEq, Eq)]
pub enum Why {
    /// It hadn't ended.
    NotEnded,
    /// It depends on this section, which wasn't kept.
    Depended {
        /// That section's lane.
        lane: u32,
        /// Its number in the lane.
        section: u64,
    },
    /// It had ended, and wasn't acknowledged.
    Unsettled,
}

impl Report {
    pub(crate) fn of(raw: &raw::Report, heap: HeapNumber) -> Report {
        Report {
            bytes: raw.bytes,
            objects: raw.objects,
            fields: raw.fields,
            lanes: raw.lanes,
            capacity: raw.capacity,
            undone: raw.undone,
            kept: raw.kept[..raw.lanes as usize].to_vec(),
            dropped: (0..raw.dropped).map_while(|index| Dropped::of(heap, index as usize)).collect(),
        }
    }
}

impl Dropped {
    fn of(heap: HeapNumber, index: usize) -> Option<Dropped> {
        let mut raw = raw::Dropped::default();
        let is_told = heap.dropped(index, &mut raw) == raw::OK;
        let why = match raw.why {
            1 => Why::NotEnded,
            2 => Why::Depended { lane: raw.other_lane, section: raw.other_section },
            3 => Why::Unsettled,
            _ => return None,
        };
        is_told.then_some(Dropped { lane: raw.lane, section: raw.section, why })
    }
}
