//! A monitor that a session holds.
use crate::error::{Error, ErrorKind};
use crate::raw;
use crate::{Field, Object, Pool, Refusal, Session};
use std::fmt;
use std::mem::ManuallyDrop;

/// A monitor that a session holds. [`exit`](Held::exit) frees it. The section ends with the outermost guard, and keeps what it has stored.
///
/// A guard that is dropped without `exit` takes the section back, as a failing work of [`Session::synchronized`] does: by `?`, an early return, a
/// panic, or its block's end. So half of a change is never kept. A section that has only loaded needs no `exit` if this is its only guard; with
/// others, the outer guard's `exit` fails with [`Reverted`](ErrorKind::Reverted). If the section can't be taken back, the heap stops
/// ([`Abandoned`](ErrorKind::Abandoned)), as `synchronized` says. So it does if a guard was forgotten (`mem::forget`), once its session is dropped.
///
/// ```
/// # mod scratch { include!(concat!(env!("CARGO_MANIFEST_DIR"), "/src/scratch.rs")); } use scratch::*;
/// # let (heap, path) = new_heap();
/// # let mut session = heap.session()?;
/// fn pay(session: &mut Session, amount: u64, to: Object) -> Result<(), Error> {
///     let mut from = session.enter(Object(0))?;
///     let balance = from.load(Field(0))?;
///     from.store(Field(0), balance - amount)?;
///     let mut both = from.enter(to)?; // an error takes the store back
///     let balance = both.load(Field(1))?;
///     both.store(Field(1), balance + amount)?;
///     both.exit()?;
///     from.exit()
/// }
/// pay(&mut session, 10, Object(1))?;
/// assert!(pay(&mut session, 10, Object(7)).is_err()); // there is no such account
/// assert_eq!(session.enter(Object(0))?.load(Field(0))?, 90);
/// # Ok::<(), Error>(())
/// ```
///
/// An outer guard is borrowed while an inner one is there, so they are freed in order:
///
/// ```compile_fail,E0505
/// # fn wrong(session: &mut zelamiku::Session) -> Result<(), zelamiku::Error> {
/// let mut outer = session.enter(zelamiku::Object(0))?;
/// let inner = outer.enter(zelamiku::Object(1))?;
/// outer.exit()?;
/// inner.exit()
/// # }
/// ```
#[must_use = "the section is taken back as soon as this is dropped"]
pub struct Held<'session> {
    session: &'session mut Session,
    object: Object,
}

impl fmt::Debug for Held<'_> {
    fn fmt(&self, f: &mut fmt::Formatter<'_>) -> fmt::Result {
        f.debug_struct("Held").field("object", &self.object).finish_non_exhaustive()
    }
}

impl<'session> Held<'session> {
    // Of a monitor that was just taken.
    #[inline]
    pub(crate) fn new(session: &'session mut Session, object: Object) -> Held<'session> {
        session.guards += 1;
        Held { session, object }
    }

    pub(crate) fn session(&mut self) -> &mut Session {
        self.session
    }

    // Whether the section may store, or end well.
    #[inline]
    fn goes_on(&self) -> Result<(), Error> {
        if self.session.is_taken_back { Err(self.reverted()) } else { Ok(()) }
    }

    #[cold]
    fn reverted(&self) -> Error {
        let text = "the section was taken back: a nested work has failed, or a nested guard was dropped; return its error, or end it by exit()";
        Error::told(ErrorKind::Reverted, &self.session.lent.opening.path, None, text)
    }

    /// Loads a field whose guard is held, by this or by an outer one. It fails with [`Refused`](ErrorKind::Refused) (`UnknownField`, `NotHeld`) and
    /// with any final kind.
    ///
    /// ```
    /// # mod scratch { include!(concat!(env!("CARGO_MANIFEST_DIR"), "/src/scratch.rs")); } use scratch::*;
    /// # let (heap, path) = new_heap();
    /// assert_eq!(heap.session()?.synchronized(Object(0), |s| s.load(Field(0)))?, 100);
    /// # Ok::<(), Error>(())
    /// ```
    #[inline]
    pub fn load(&mut self, field: Field) -> Result<u64, Error> {
        let mut value = 0;
        let status = self.session.thread.load(field.0, &mut value);
        self.session.answer(status).map(|()| value)
    }

    /// Stores a field whose guard is held.
    ///
    /// It fails with [`Refused`](ErrorKind::Refused) (`UnknownField`, `NotHeld`; `SectionFull`: the section would have more than 1,000 records, with
    /// those that take it back), with [`Reverted`](ErrorKind::Reverted), and with any final kind: nothing was stored, and what was stored before
    /// stays.
    ///
    /// ```
    /// # mod scratch { include!(concat!(env!("CARGO_MANIFEST_DIR"), "/src/scratch.rs")); } use scratch::*;
    /// # let (heap, path) = new_heap();
    /// # let mut session = heap.session()?;
    /// session.synchronized(Object(0), |s| s.store(Field(0), 7))?;
    /// let error = session.synchronized(Object(0), |s| s.store(Field(1), 7)).unwrap_err();
    /// assert_eq!(error.refusal(), Some(Refusal::NotHeld));
    /// # Ok::<(), Error>(())
    /// ```
    #[inline]
    pub fn store(&mut self, field: Field, value: u64) -> Result<(), Error> {
        self.goes_on()?;
        let status = self.session.thread.store(field.0, value);
        self.session.answer(status)
    }

    /// Takes a slot of the pool, whose object's monitor is held. `None`: no slot is free. It costs the section two records.
    ///
    /// It fails as [`store`](Held::store) does, and with [`Refused`](ErrorKind::Refused) (`Damaged`, `UnknownField`) if the heap has no such pool.
    ///
    /// ```
    /// # mod scratch { include!(concat!(env!("CARGO_MANIFEST_DIR"), "/src/scratch.rs")); } use scratch::*;
    /// # let path = Scratch::new("take");
    /// const SEATS: Pool = Pool::new(Field(0), 2);
    /// let heap = Heap::options().objects(1).pool(SEATS, Object(0)).open(&path)?;
    /// let mut session = heap.session()?;
    /// let taken = session.synchronized(Object(0), |s| Ok::<_, Error>([s.take(SEATS)?, s.take(SEATS)?, s.take(SEATS)?]))?;
    /// assert_eq!(taken, [Some(0), Some(1), None]);
    /// # Ok::<(), Error>(())
    /// ```
    pub fn take(&mut self, pool: Pool) -> Result<Option<u32>, Error> {
        self.goes_on()?;
        let mut slot = raw::NO_NUMBER;
        let status = self.session.thread.take(pool.head.0, pool.slots, &mut slot);
        if Refusal::from(status) == Refusal::PoolEmpty {
            return Ok(None);
        }
        self.session.answer(status).map(|()| Some(slot))
    }

    /// Frees a slot of the pool: it is the next one to be taken. It costs the section two records.
    ///
    /// It fails as [`take`](Held::take) does, and with [`Refused`](ErrorKind::Refused) (`NotTaken`).
    ///
    /// ```
    /// # mod scratch { include!(concat!(env!("CARGO_MANIFEST_DIR"), "/src/scratch.rs")); } use scratch::*;
    /// # let path = Scratch::new("give");
    /// # const SEATS: Pool = Pool::new(Field(0), 2);
    /// # let heap = Heap::options().objects(1).pool(SEATS, Object(0)).open(&path)?;
    /// # let mut session = heap.session()?;
    /// session.synchronized(Object(0), |s| {
    ///     let slot = s.take(SEATS)?.expect("a seat");
    ///     s.give(SEATS, slot)
    /// })?;
    /// let error = session.synchronized(Object(0), |s| s.give(SEATS, 0)).unwrap_err();
    /// assert_eq!(error.refusal(), Some(Refusal::NotTaken));
    /// # Ok::<(), Error>(())
    /// ```
    pub fn give(&mut self, pool: Pool, slot: u32) -> Result<(), Error> {
        self.goes_on()?;
        let status = self.session.thread.give(pool.head.0, pool.slots, slot);
        self.session.answer(status)
    }

    /// Takes one more monitor, or this one once more, inside of this one. Take monitors in one order everywhere: two threads that wait for each
    /// other's monitors wait for ever.
    ///
    /// It fails as [`Session::enter`] does, and with [`Refused`](ErrorKind::Refused) (`SectionFull`; `TooMany`: 16 are held; `TooDeep`, `NoFat`: of a
    /// lock more).
    ///
    /// ```
    /// # mod scratch { include!(concat!(env!("CARGO_MANIFEST_DIR"), "/src/scratch.rs")); } use scratch::*;
    /// # let (heap, path) = new_heap();
    /// # let mut session = heap.session()?;
    /// let mut first = session.enter(Object(0))?;
    /// let mut second = first.enter(Object(1))?;
    /// let sum = second.load(Field(0))? + second.load(Field(1))?;
    /// second.exit()?;
    /// first.exit()?;
    /// assert_eq!((sum, session.sections()), (200, 1));
    /// # Ok::<(), Error>(())
    /// ```
    #[inline]
    pub fn enter(&mut self, object: Object) -> Result<Held<'_>, Error> {
        self.session.enter(object)
    }

    /// Does the work while one more monitor is held, as [`Session::synchronized`] does, and fails as that.
    ///
    /// ```
    /// # mod scratch { include!(concat!(env!("CARGO_MANIFEST_DIR"), "/src/scratch.rs")); } use scratch::*;
    /// # let (heap, path) = new_heap();
    /// # let mut session = heap.session()?;
    /// let sum = session.synchronized(Object(0), |s| s.synchronized(Object(1), |s| Ok::<_, Error>(s.load(Field(0))? + s.load(Field(1))?)))?;
    /// assert_eq!(sum, 200);
    /// # Ok::<(), Error>(())
    /// ```
    #[inline]
    pub fn synchronized<T, E: From<Error>>(&mut self, object: Object, work: impl FnOnce(&mut Held<'_>) -> Result<T, E>) -> Result<T, E> {
        self.session.synchronized(object, work)
    }

    /// Frees the object's monitor, with all its locks, sleeps until another session notifies this one, and takes it again with as many locks (JLS
    /// 17.2.1). There are no spurious wake-ups. If no other monitor is held the section ends, and the next one begins when the call returns: what
    /// was loaded before may have changed.
    ///
    /// It fails with [`Refused`](ErrorKind::Refused) (`UnknownObject`, `NotHeld`, `Behind`, `SectionFull`, `NoFat`, `Worn`), with
    /// [`Write`](ErrorKind::Write) if it waited for a round that can't write, and with [`Reverted`](ErrorKind::Reverted): the monitor is held as
    /// before. With any final kind: it isn't held.
    ///
    /// ```
    /// # mod scratch { include!(concat!(env!("CARGO_MANIFEST_DIR"), "/src/scratch.rs")); } use scratch::*;
    /// # let (heap, path) = new_heap();
    /// let (mut producer, mut consumer) = (heap.session()?, heap.session()?);
    /// let thread = std::thread::spawn(move || {
    ///     consumer.synchronized(Object(0), |s| {
    ///         while s.load(Field(0))? == 100 {
    ///             s.wait(Object(0))?;
    ///         }
    ///         s.load(Field(0))
    ///     })
    /// });
    /// producer.synchronized(Object(0), |s| {
    ///     s.store(Field(0), 7)?;
    ///     s.notify_all(Object(0))
    /// })?;
    /// assert_eq!(thread.join().unwrap()?, 7);
    /// # Ok::<(), Error>(())
    /// ```
    pub fn wait(&mut self, object: Object) -> Result<(), Error> {
        self.goes_on()?;
        let status = self.session.thread.wait(object.0);
        self.session.answer(status)
    }

    /// Wakes one session that waits for this object's monitor, which is held, and returns its [lane](Session::lane). `None`: none waits. It goes on
    /// once the monitor is free. If several wait, any of them may be chosen, and one may be passed over for ever: use
    /// [`notify_all`](Held::notify_all) if each is to have its turn.
    ///
    /// It fails with [`Refused`](ErrorKind::Refused) (`UnknownObject`, `NotHeld`) and with any final kind.
    ///
    /// ```
    /// # mod scratch { include!(concat!(env!("CARGO_MANIFEST_DIR"), "/src/scratch.rs")); } use scratch::*;
    /// # let (heap, path) = new_heap();
    /// # let mut session = heap.session()?;
    /// assert_eq!(session.synchronized(Object(0), |s| s.notify(Object(0)))?, None);
    /// # Ok::<(), Error>(())
    /// ```
    pub fn notify(&mut self, object: Object) -> Result<Option<u32>, Error> {
        Ok(self.notified(object, false)?.next())
    }

    /// The same for all sessions that wait; returns their lanes, in order. They go on in any order.
    pub fn notify_all(&mut self, object: Object) -> Result<Vec<u32>, Error> {
        Ok(self.notified(object, true)?.collect())
    }

    fn notified(&mut self, object: Object, all: bool) -> Result<impl Iterator<Item = u32>, Error> {
        let mut lanes = 0;
        let status = self.session.thread.notify(object.0, all, &mut lanes);
        self.session.answer(status)?;
        Ok((0..u64::BITS).filter(move |lane| lanes >> lane & 1 == 1))
    }

    /// Takes back what the section has stored so far, under this monitor and all others. The monitors stay held, and the section goes on, and may
    /// store again. It is for a work that ends well and has come to nothing; [`Session::synchronized`] does it if its work fails.
    ///
    /// It fails with [`Refused`](ErrorKind::Refused) (`NotReverted`): the section has freed a monitor under which it had stored, by a wait or at the
    /// end of a nested work or guard; or it has stored, and the heap was opened with [`Options::reverts(false)`](crate::Options::reverts). Nothing is
    /// taken back then. With any final kind: nothing of the section becomes durable.
    ///
    /// ```
    /// # mod scratch { include!(concat!(env!("CARGO_MANIFEST_DIR"), "/src/scratch.rs")); } use scratch::*;
    /// # let (heap, path) = new_heap();
    /// # let mut session = heap.session()?;
    /// let is_paid = session.synchronized(Object(0), |from| {
    ///     let balance = from.load(Field(0))?;
    ///     from.store(Field(0), balance - 10)?;
    ///     if from.synchronized(Object(1), |to| to.load(Field(1)))? == 100 {
    ///         from.revert()?; // a full account is paid nothing
    ///         return Ok::<_, Error>(false);
    ///     }
    ///     Ok(true)
    /// })?;
    /// assert!(!is_paid);
    /// assert_eq!(session.synchronized(Object(0), |s| s.load(Field(0)))?, 100);
    /// # Ok::<(), Error>(())
    /// ```
    pub fn revert(&mut self) -> Result<(), Error> {
        let status = self.session.thread.revert();
        self.session.answer(status)
    }

    /// Frees the monitor. With the outermost one the section ends, and what it has stored stays.
    ///
    /// It fails with [`Reverted`](ErrorKind::Reverted): the section was taken back before, nothing that it had stored stays, and the monitor was freed.
    /// With any final kind: the section hasn't ended, and the next opening drops it.
    #[inline]
    pub fn exit(self) -> Result<(), Error> {
        ManuallyDrop::new(self).leave()
    }

    // Frees one lock. One that a wait has lost with its heap isn't there any more, and is refused.
    #[inline]
    fn leave(&mut self) -> Result<(), Error> {
        let status = self.session.thread.exit(self.object.0);
        self.session.guards -= 1;
        let goes_on = self.goes_on();
        // The next section is none of that.
        self.session.is_taken_back &= self.session.guards > 0;
        self.session.answer(status).and(goes_on)
    }
}

impl Drop for Held<'_> {
    fn drop(&mut self) {
        let status = self.session.thread.revert();
        self.session.is_taken_back = status == raw::OK;
        // After any other failure the heap has ended, and has cut the section off.
        if Refusal::from(status) == Refusal::NotReverted {
            let _ = self.session.lent.opening.heap.stop(raw::ABANDONED);
        }
        // A guard can't report that the heap's end has cut off its section. The session does: each call of it that awaits or enters fails.
        let _ = self.leave();
    }
}
