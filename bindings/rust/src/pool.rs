//! A pool of slots in a heap's fields.
use crate::{raw, Field, NewField, Object, Refusal};

/// A pool of slots, numbered from 0: where it lies in a heap's fields.
///
/// It takes the field of its head, and one for each slot after it. One object has and guards them, and only [`Held::take`](crate::Held::take) and
/// [`give`](crate::Held::give) store to them. The program keeps a slot's contents in fields of its own, as field
/// [`BASE.plus(slot)`](Field::plus). They may hold the numbers of other slots, which makes lists and trees. After a crash a slot is taken or free
/// as the sections that were kept say.
///
/// The file doesn't record where a heap has a pool: the program knows.
///
/// ```
/// # mod scratch { include!(concat!(env!("CARGO_MANIFEST_DIR"), "/src/scratch.rs")); } use scratch::*;
/// # let path = Scratch::new("pool");
/// const STACK: Object = Object(0);
/// const TOP: Field = Field(0); // the number of the top slot, plus one
/// const POOL: Pool = Pool::new(Field(1), 100); // fields 1 to 101
/// const VALUE: Field = Field(102); // of slot 0; those of the others follow
/// const BELOW: Field = Field(202); // the slot below each, plus one
/// let heap = Heap::options().objects(1).field(TOP, STACK, 0).pool(POOL, STACK).fields(200, STACK, 0).open(&path)?;
/// let mut session = heap.session()?;
/// let is_pushed = session.synchronized(STACK, |stack| {
///     let Some(slot) = stack.take(POOL)? else { return Ok::<_, Error>(false) };
///     let top = stack.load(TOP)?;
///     stack.store(VALUE.plus(slot), 7)?;
///     stack.store(BELOW.plus(slot), top)?;
///     stack.store(TOP, u64::from(slot) + 1)?;
///     Ok(true)
/// })?;
/// assert!(is_pushed);
/// # Ok::<(), Error>(())
/// ```
#[derive(Clone, Copy, Debug, PartialEq, Eq, Hash)]
pub struct Pool {
    pub(crate) head: Field,
    pub(crate) slots: u32,
}

impl Pool {
    /// The pool with this head and so many slots, 1 to 16,383, whose fields follow the head.
    ///
    /// ```
    /// use zelamiku::{Field, Pool};
    /// const JOBS: Pool = Pool::new(Field(0), 64);
    /// assert_eq!(JOBS.slots(), 64);
    /// ```
    #[must_use]
    pub const fn new(head: Field, slots: u32) -> Pool {
        Pool { head, slots }
    }

    /// How many slots it has.
    #[must_use]
    pub const fn slots(self) -> u32 {
        self.slots
    }

    /// The field of its head, which its slots' follow.
    #[must_use]
    pub const fn head(self) -> Field {
        self.head
    }

    /// Its fields: the head's and then those of the slots, all free. `object` has and guards them. [`Options::pool`](crate::Options::pool) declares
    /// them at [`head`](Pool::head).
    ///
    /// It fails with [`Refusal::BadArgument`] without a slot, and with [`Refusal::TooMany`] with more than 16,383.
    ///
    /// ```
    /// # use zelamiku::{Field, Object, Pool};
    /// let fields = Pool::new(Field(0), 2).fields(Object(5))?;
    /// assert!(fields.iter().all(|field| field.guard == Object(5)));
    /// assert_eq!(fields.iter().map(|field| field.first).collect::<Vec<_>>(), [1, 2, 0]);
    /// # Ok::<(), zelamiku::Refusal>(())
    /// ```
    pub fn fields(self, object: Object) -> Result<Vec<NewField>, Refusal> {
        let field = |raw: raw::Field| NewField { owner: object, guard: object, first: raw.first, is_transient: false };
        Ok(self.raw_fields(object)?.into_iter().map(field).collect())
    }

    pub(crate) fn raw_fields(self, object: Object) -> Result<Vec<raw::Field>, Refusal> {
        // One more than a pool may have is enough to be refused.
        let count = self.slots.min(MOST_SLOTS + 1) as usize + 1;
        let mut fields = vec![raw::Field::default(); count];
        match raw::pool_fields(object.0, &mut fields) {
            raw::OK => Ok(fields),
            status => Err(Refusal::from(status)),
        }
    }
}

/// The most slots that a pool has.
const MOST_SLOTS: u32 = 16_383;
