//! Shared 64-bit variables in a file, which threads change under locks. After a crash or a power failure you find all of a critical section's
//! changes or none. If a section that is kept had seen another one's changes, these are kept too.
//!
//! ```
//! # mod scratch { include!(concat!(env!("CARGO_MANIFEST_DIR"), "/src/scratch.rs")); } use scratch::Scratch;
//! # let path = Scratch::new("front");
//! use zelamiku::{Field, Heap, Object, Session};
//!
//! const ALICE: Object = Object(0); // a monitor
//! const BOB: Object = Object(1);
//! const ALICES: Field = Field(0); // her balance: 64 bits, which her monitor guards
//! const BOBS: Field = Field(1);
//!
//! // One section: all of it is done, or nothing.
//! fn pay(session: &mut Session, amount: u64) -> Result<(), Box<dyn std::error::Error>> {
//!     session.synchronized_all(&[ALICE, BOB], |both| {
//!         let (from, to) = (both.load(ALICES)?, both.load(BOBS)?);
//!         both.store(ALICES, from.checked_sub(amount).ok_or("too little")?)?;
//!         both.store(BOBS, to + amount)?;
//!         Ok(())
//!     })
//! }
//!
//! # /*
//! let path = "accounts.heap";
//! # */
//! let heap = Heap::options().lanes(8).objects(2).field(ALICES, ALICE, 100).field(BOBS, BOB, 100).open(&path)?;
//! let mut session = heap.session()?; // one for each thread
//! pay(&mut session, 10)?;
//! session.durable()?; // returns when no crash loses it
//! heap.close()?;
//! # Ok::<(), Box<dyn std::error::Error>>(())
//! ```
//!
//! A [`Heap`] is opened in a file, which is made or recovered, and locked. Each thread has a [`Session`]. It enters monitors, loads and stores the
//! fields that they guard, waits and notifies, as Java's threads do. What it does from its first monitor to the moment that it holds none is a
//! **section**. After a crash each section is there whole or not at all, with all that it depends on. Once [`Session::durable`] has returned, no
//! crash loses what the session has ended. A section that fails is taken back: by an error or a panic of its work ([`Session::synchronized`]), or
//! by a guard that is dropped without [`exit`](Held::exit).
//!
//! The **helper**, a thread of the library, makes sections durable in **rounds**: when a thread waits for one ([`Session::durable`], or a lane
//! without room), when a lane has sent three quarters of what its ring or its log takes, and after [`Options::linger`] otherwise. Without work it
//! sleeps.
//!
//! [`ErrorKind`] says of each failure whether the heap goes on. EMBEDDING, in the repository, is the manual.
//!
//! A program links the library of the same release: the variable `ZELAMIKU_LIBS` names its folder, or pkg-config finds it.
#![deny(unsafe_code)]

mod durable;
mod error;
mod heap;
mod held;
mod log;
mod options;
mod pool;
#[allow(unsafe_code)]
mod raw;
mod refusal;
mod report;
mod session;

pub use durable::Durable;
pub use error::{Difference, Error, ErrorKind, Part};
pub use heap::Heap;
pub use held::Held;
pub use log::{Cause, Level, Stats, Wait};
pub use options::Options;
pub use pool::Pool;
pub use refusal::Refusal;
pub use report::{Dropped, Report, Why};
pub use session::Session;

/// The version of the library that is linked: 10,000 times the first number, 100 times the second, and the third.
///
/// ```
/// assert!(zelamiku::library_version() >= 200);
/// ```
#[must_use]
pub fn library_version() -> u32 {
    raw::version()
}

/// An object of a heap, which is a monitor, by its number from 0.
///
/// ```compile_fail,E0308
/// # use zelamiku::{Error, Field, Object, Session};
/// const ALICE: Object = Object(0);
/// const BALANCE: Field = Field(0);
/// fn wrong(session: &mut Session) -> Result<u64, Error> {
///     session.synchronized(ALICE, |alice| alice.load(ALICE)) // an object is no field
/// }
/// ```
#[derive(Clone, Copy, Debug, PartialEq, Eq, PartialOrd, Ord, Hash)]
pub struct Object(pub u32);

/// A field of a heap, 64 bits that an object's monitor guards, by its number from 0.
#[derive(Clone, Copy, Debug, PartialEq, Eq, PartialOrd, Ord, Hash)]
pub struct Field(pub u32);

impl Field {
    /// The field so many after this one: of an array of fields, or of a [`Pool`]'s slots.
    ///
    /// ```
    /// use zelamiku::Field;
    /// const VALUES: Field = Field(3);
    /// const AFTER: Field = VALUES.plus(100);
    /// assert_eq!(AFTER, Field(103));
    /// ```
    #[must_use]
    pub const fn plus(self, count: u32) -> Field {
        Field(self.0 + count)
    }
}

/// A field of a heap that is to be made: [`Options::guarded`].
#[derive(Clone, Copy, Debug, PartialEq, Eq)]
pub struct NewField {
    /// The object that has it.
    pub owner: Object,
    /// The object whose monitor guards it.
    pub guard: Object,
    /// Its first value.
    pub first: u64,
    /// Whether its stores aren't logged, and each opening begins with the first value again.
    pub is_transient: bool,
}

impl From<NewField> for raw::Field {
    fn from(field: NewField) -> raw::Field {
        raw::Field {
            owner: field.owner.0,
            guard: field.guard.0,
            first: field.first,
            is_transient: field.is_transient.into(),
        }
    }
}

/// A monitor, as [`Session::look`] sees it.
#[derive(Clone, Copy, Debug, PartialEq, Eq)]
pub struct Sight {
    /// Its owner's lane; `None` if it is free.
    pub owner: Option<u32>,
    /// How many locks the owner has.
    pub locks: u32,
    /// How often it has become free.
    pub number: u64,
}

impl From<raw::Sight> for Sight {
    fn from(raw: raw::Sight) -> Sight {
        Sight { owner: lane_of(raw.owner), locks: raw.locks, number: raw.number }
    }
}

// The lane of this number, or none if it is `ZELAMIKU_NOBODY`.
fn lane_of(number: u32) -> Option<u32> {
    (number < raw::NOBODY).then_some(number)
}
