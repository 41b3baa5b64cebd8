//! A session: one thread's use of the heap.
use crate::durable::{Durable, Lent};
use crate::error::{Error, ErrorKind};
use crate::heap::Opening;
use crate::raw::{self, ThreadNumber, OK};
use crate::{Held, Object, Refusal, Sight};
use std::fmt;
use std::sync::Arc;
use std::time::Instant;

/// One thread's use of the heap: a lane of it. It may move to another thread, and one thread uses it at a time.
///
/// What it does from its first monitor to the moment that it holds none is a section. A session that is dropped frees its lane for another one.
///
/// ```
/// # mod scratch { include!(concat!(env!("CARGO_MANIFEST_DIR"), "/src/scratch.rs")); } use scratch::*;
/// # let (heap, path) = new_heap();
/// const ACCOUNT: Object = Object(0);
/// const BALANCE: Field = Field(0);
/// let mut session = heap.session()?;
/// session.synchronized(ACCOUNT, |account| {
///     let balance = account.load(BALANCE)?;
///     account.store(BALANCE, balance - 10)
/// })?;
/// session.durable()?;
/// # Ok::<(), Error>(())
/// ```
///
/// It is borrowed while a guard of it is there, so what is awaited has ended:
///
/// ```compile_fail,E0499
/// # fn wrong(session: &mut zelamiku::Session) -> Result<(), zelamiku::Error> {
/// let guard = session.enter(zelamiku::Object(0))?;
/// session.durable()?;
/// guard.exit()
/// # }
/// ```
pub struct Session {
    pub(crate) thread: ThreadNumber,
    // Its futures have it too.
    pub(crate) lent: Arc<Lent>,
    lane: u32,
    // The sections that the lane had ended when the session began.
    earlier: u64,
    // The guards that are there or were forgotten.
    pub(crate) guards: u32,
    // The open section was: it stores nothing more.
    pub(crate) is_taken_back: bool,
}

impl fmt::Debug for Session {
    fn fmt(&self, f: &mut fmt::Formatter<'_>) -> fmt::Result {
        f.debug_struct("Session").field("lane", &self.lane).field("sections", &self.sections()).finish_non_exhaustive()
    }
}

impl Session {
    pub(crate) fn begin(opening: &Arc<Opening>) -> Result<Session, Error> {
        let mut thread = ThreadNumber::default();
        opening.answer(opening.heap.begin(&mut thread))?;
        let progress = thread.progress();
        Ok(Session {
            thread,
            lent: Arc::new(Lent { opening: Arc::clone(opening), thread }),
            lane: progress.lane,
            earlier: progress.earlier,
            guards: 0,
            is_taken_back: false,
        })
    }

    // What a call of the library came to.
    #[inline]
    pub(crate) fn answer(&self, status: u32) -> Result<(), Error> {
        if status == OK { Ok(()) } else { Err(self.refused(status)) }
    }

    #[cold]
    #[inline(never)]
    pub(crate) fn refused(&self, status: u32) -> Error {
        let path = &self.lent.opening.path;
        match Refusal::from(status) {
            // Of a monitor or this lane, unless it is why the heap has stopped.
            Refusal::Worn if self.thread.progress().end == OK => Error::refused(path, status),
            _ => Error::of(path, status),
        }
    }

    /// Takes the object's monitor and returns a guard of it: [`Held::exit`] frees the monitor and keeps what the section has stored, and a guard
    /// that is dropped without it takes the section back. The call sleeps while another session has the monitor, or until a round makes room in
    /// the lane. Sessions that sleep for one monitor get it in the order in which they came; one that comes while it is free takes it before
    /// them.
    ///
    /// It fails with [`Refused`](ErrorKind::Refused) (`UnknownObject`, `Worn`), and with [`Write`](ErrorKind::Write) if it waited for a round that can't
    /// write: nothing was taken. Or with any final kind.
    ///
    /// ```
    /// # mod scratch { include!(concat!(env!("CARGO_MANIFEST_DIR"), "/src/scratch.rs")); } use scratch::*;
    /// # let (heap, path) = new_heap();
    /// # let mut session = heap.session()?;
    /// let mut guard = session.enter(Object(0))?;
    /// guard.store(Field(0), 7)?;
    /// guard.exit()?;
    /// # Ok::<(), Error>(())
    /// ```
    #[inline]
    pub fn enter(&mut self, object: Object) -> Result<Held<'_>, Error> {
        let status = self.thread.enter(object.0);
        self.answer(status)?;
        Ok(Held::new(self, object))
    }

    /// The same, and doesn't sleep. `None`: another session has the monitor, or the lane has no room before a round, which the call requests.
    ///
    /// ```
    /// # mod scratch { include!(concat!(env!("CARGO_MANIFEST_DIR"), "/src/scratch.rs")); } use scratch::*;
    /// # let (heap, path) = new_heap();
    /// let (mut session, mut other) = (heap.session()?, heap.session()?);
    /// let guard = session.enter(Object(0))?;
    /// assert!(other.try_enter(Object(0))?.is_none());
    /// drop(guard);
    /// assert!(other.try_enter(Object(0))?.is_some());
    /// # Ok::<(), Error>(())
    /// ```
    pub fn try_enter(&mut self, object: Object) -> Result<Option<Held<'_>>, Error> {
        self.enter_by(object, 0)
    }

    /// The same, and sleeps until the deadline at most.
    ///
    /// ```
    /// # mod scratch { include!(concat!(env!("CARGO_MANIFEST_DIR"), "/src/scratch.rs")); } use scratch::*;
    /// # let (heap, path) = new_heap();
    /// use std::time::{Duration, Instant};
    /// let (mut session, mut other) = (heap.session()?, heap.session()?);
    /// let guard = session.enter(Object(0))?;
    /// assert!(other.enter_until(Object(0), Instant::now() + Duration::from_millis(20))?.is_none());
    /// # Ok::<(), Error>(())
    /// ```
    pub fn enter_until(&mut self, object: Object, deadline: Instant) -> Result<Option<Held<'_>>, Error> {
        self.enter_by(object, time_of(deadline))
    }

    fn enter_by(&mut self, object: Object, deadline: u64) -> Result<Option<Held<'_>>, Error> {
        let status = self.thread.enter_until(object.0, deadline);
        match Refusal::from(status) {
            Refusal::Held | Refusal::Behind => Ok(None),
            _ => self.answer(status).map(|()| Some(Held::new(self, object))),
        }
    }

    /// Does the work while the object's monitor is held. The section ends with the outermost monitor.
    ///
    /// If the work returns an error, of any type that `?` makes of an [`Error`], or panics, the section is taken back: each field has the value
    /// again that it had before the section's first store to it, and each slot of a pool is taken or free as before. Then the monitor is freed,
    /// the section ends as one that has stored nothing, and the error is returned, or the panic goes on. The heap goes on. Notifications aren't
    /// taken back.
    ///
    /// A nested `synchronized` takes back the whole section, with what the outer work has stored. So return its error. A section that goes on
    /// instead can store nothing more: each store, and its end, fails with [`Reverted`](ErrorKind::Reverted).
    ///
    /// A section can be taken back while it holds every monitor under which it has stored. If it has freed one of them, at the end of a nested
    /// work or by a wait, and then fails, the heap stops ([`Abandoned`](ErrorKind::Abandoned)), because other threads may have seen half of a
    /// change: the next opening drops the section. So take the monitors by one [`synchronized_all`](Session::synchronized_all). A wait with no
    /// other monitor held ends a section: what was stored before it stays.
    ///
    /// It fails as [`enter`](Session::enter) and the work do. If the work ends in `Ok(..)`, and nothing else says the type of its error, write
    /// `Ok::<_, Error>(..)`.
    ///
    /// ```
    /// # mod scratch { include!(concat!(env!("CARGO_MANIFEST_DIR"), "/src/scratch.rs")); } use scratch::*;
    /// # let (heap, path) = new_heap();
    /// # let mut session = heap.session()?;
    /// #[derive(Debug, PartialEq)]
    /// enum Failed {
    ///     TooLittle(u64),
    ///     Heap(String),
    /// }
    /// impl From<Error> for Failed {
    ///     fn from(error: Error) -> Failed {
    ///         Failed::Heap(error.to_string())
    ///     }
    /// }
    /// fn pay(session: &mut Session, amount: u64) -> Result<(), Failed> {
    ///     session.synchronized(Object(0), |account| {
    ///         let before = account.load(Field(0))?;
    ///         account.store(Field(0), before.wrapping_sub(amount))?;
    ///         if before < amount {
    ///             return Err(Failed::TooLittle(before)); // takes the store back
    ///         }
    ///         Ok(())
    ///     })
    /// }
    /// assert_eq!(pay(&mut session, 20), Ok(()));
    /// assert_eq!(pay(&mut session, 100), Err(Failed::TooLittle(80)));
    /// assert_eq!(session.synchronized(Object(0), |s| s.load(Field(0)))?, 80);
    /// # Ok::<(), Error>(())
    /// ```
    #[inline]
    pub fn synchronized<T, E: From<Error>>(&mut self, object: Object, work: impl FnOnce(&mut Held<'_>) -> Result<T, E>) -> Result<T, E> {
        let mut held = self.enter(object)?;
        // An error drops the guard, and so does a panic.
        let answer = work(&mut held)?;
        held.exit()?;
        Ok(answer)
    }

    /// Does the work while all these monitors are held, as [`synchronized`](Session::synchronized) does with one. They are taken in the order of
    /// their numbers. So two threads that take theirs in this way never wait for each other.
    ///
    /// It fails as `synchronized` does, and with [`Refused`](ErrorKind::Refused) if no object is named (`BadArgument`) or more than 16 are (`TooMany`).
    /// If a monitor can't be taken, those before it are freed, and the work isn't done.
    ///
    /// ```
    /// # mod scratch { include!(concat!(env!("CARGO_MANIFEST_DIR"), "/src/scratch.rs")); } use scratch::*;
    /// # let (heap, path) = new_heap();
    /// # let mut session = heap.session()?;
    /// let (alice, bob) = (Object(0), Object(1));
    /// session.synchronized_all(&[bob, alice], |both| {
    ///     let (from, to) = (both.load(Field(1))?, both.load(Field(0))?);
    ///     both.store(Field(1), from - 10)?;
    ///     both.store(Field(0), to + 10)
    /// })?;
    /// assert_eq!(session.synchronized(alice, |s| s.load(Field(0)))?, 110);
    /// # Ok::<(), Error>(())
    /// ```
    pub fn synchronized_all<T, E: From<Error>>(&mut self, objects: &[Object], work: impl FnOnce(&mut Held<'_>) -> Result<T, E>) -> Result<T, E> {
        let mut objects = objects.to_vec();
        objects.sort_unstable();
        objects.dedup();
        let mut work = Some(work);
        self.within(&objects, &mut |held| work.take().expect("once")(held))
    }

    // Each monitor inside of the one before.
    fn within<T, E: From<Error>>(&mut self, objects: &[Object], work: &mut dyn FnMut(&mut Held<'_>) -> Result<T, E>) -> Result<T, E> {
        match objects {
            [] => Err(self.no_object().into()),
            [object] => self.synchronized(*object, work),
            [object, others @ ..] => self.synchronized(*object, |held| held.session().within(others, work)),
        }
    }

    #[cold]
    fn no_object(&self) -> Error {
        let text = "enter: no object is named; name one, or several";
        Error::told(ErrorKind::Refused, &self.lent.opening.path, Some(Refusal::BadArgument), text)
    }

    /// The session's lane, from 0: the log in the file that has its sections. Another session may have it before and after this one.
    ///
    /// ```
    /// # mod scratch { include!(concat!(env!("CARGO_MANIFEST_DIR"), "/src/scratch.rs")); } use scratch::*;
    /// # let (heap, path) = new_heap();
    /// let sessions = [heap.session()?, heap.session()?];
    /// assert_ne!(sessions[0].lane(), sessions[1].lane());
    /// # Ok::<(), Error>(())
    /// ```
    #[must_use]
    pub fn lane(&self) -> u32 {
        self.lane
    }

    /// How many sections its lane had ended, in this opening of the heap, before the session began. Section n of the lane in the
    /// [report](crate::Report) of the next opening is this session's section n - `earlier`, if no later session had the lane.
    ///
    /// ```
    /// # mod scratch { include!(concat!(env!("CARGO_MANIFEST_DIR"), "/src/scratch.rs")); } use scratch::*;
    /// # let (heap, path) = new_heap();
    /// let mut first = heap.session()?;
    /// first.synchronized(Object(0), |s| s.store(Field(0), 1))?;
    /// drop(first);
    /// let second = heap.session()?; // on the same lane
    /// assert_eq!((second.lane(), second.sections(), second.earlier()), (0, 0, 1));
    /// # Ok::<(), Error>(())
    /// ```
    #[must_use]
    pub fn earlier(&self) -> u64 {
        self.earlier
    }

    /// How many sections this session has ended. A section that the heap's end has cut off isn't one of them.
    #[must_use]
    pub fn sections(&self) -> u64 {
        self.thread.progress().sections
    }

    /// Whether the session's section of this number, from 1, is durable: no crash loses it. A section that hasn't ended isn't durable.
    ///
    /// ```
    /// # mod scratch { include!(concat!(env!("CARGO_MANIFEST_DIR"), "/src/scratch.rs")); } use scratch::*;
    /// # let (heap, path) = new_heap();
    /// # let mut session = heap.session()?;
    /// session.synchronized(Object(0), |s| s.store(Field(0), 1))?;
    /// let number = session.sections();
    /// session.durable()?;
    /// assert!(session.is_durable(number) && !session.is_durable(number + 1));
    /// # Ok::<(), Error>(())
    /// ```
    #[must_use]
    pub fn is_durable(&self, number: u64) -> bool {
        number <= self.thread.progress().durable
    }

    /// Sleeps until all sections that this session has ended are durable: no crash loses them. It requests a round, and sleeps on while a section
    /// on which one of them depends is open.
    ///
    /// It fails with [`Write`](ErrorKind::Write), which leaves the session as it was: call again. With any final kind: the sections did not become
    /// durable, or the heap's end has cut off a section of this session, for example because its guard was dropped afterwards. By
    /// [`Running`](ErrorKind::Running) if a guard was forgotten (`mem::forget`): its section is open still.
    pub fn durable(&mut self) -> Result<(), Error> {
        self.lent.await_until(raw::ALL_SECTIONS, raw::NO_DEADLINE).map(|_| ())
    }

    /// The same until the deadline at most; returns whether they are durable. The round is made also if the session doesn't wait for it any more:
    /// a deadline that has passed changes nothing for the sections, and they may be awaited again. With a deadline in the past it requests the
    /// round and doesn't sleep.
    ///
    /// ```
    /// # mod scratch { include!(concat!(env!("CARGO_MANIFEST_DIR"), "/src/scratch.rs")); } use scratch::*;
    /// # let (heap, path) = new_heap();
    /// # let mut session = heap.session()?;
    /// use std::time::{Duration, Instant};
    /// session.synchronized(Object(0), |s| s.store(Field(0), 1))?;
    /// while !session.durable_by(Instant::now() + Duration::from_secs(1))? {
    ///     println!("still not durable, after a second");
    /// }
    /// # Ok::<(), Error>(())
    /// ```
    pub fn durable_by(&mut self, deadline: Instant) -> Result<bool, Error> {
        self.lent.await_until(raw::ALL_SECTIONS, time_of(deadline))
    }

    /// The same for tasks: a future that is done once all sections are durable that this session has ended by now. It requests a round at once,
    /// borrows nothing, and any executor may await it. The session goes on meanwhile: so one session serves many clients, and one round makes
    /// durable what all of them wait for. A thread without a task calls [`Durable::wait`].
    ///
    /// The first future of a heap starts a thread, which wakes all of them, and ends with the heap.
    ///
    /// ```
    /// # use zelamiku::{Error, Field, Object, Session};
    /// async fn pay(session: &std::sync::Mutex<Session>, sum: u64) -> Result<(), Error> {
    ///     let durable = {
    ///         let mut session = session.lock().unwrap(); // one for all tasks
    ///         session.synchronized(Object(0), |s| s.store(Field(0), sum))?;
    ///         session.durable_async()
    ///     };
    ///     durable.await // the client's answer leaves after this
    /// }
    /// ```
    pub fn durable_async(&self) -> Durable {
        Durable::of(&self.lent)
    }

    /// Looks at a monitor, which needn't be held. It fails with [`Refused`](ErrorKind::Refused) (`UnknownObject`) and with any final kind.
    ///
    /// ```
    /// # mod scratch { include!(concat!(env!("CARGO_MANIFEST_DIR"), "/src/scratch.rs")); } use scratch::*;
    /// # let (heap, path) = new_heap();
    /// # let mut session = heap.session()?;
    /// assert_eq!(session.look(Object(0))?.owner, None);
    /// # Ok::<(), Error>(())
    /// ```
    pub fn look(&mut self, object: Object) -> Result<Sight, Error> {
        let mut sight = raw::Sight::default();
        let status = self.thread.look(object.0, &mut sight);
        self.answer(status).map(|()| sight.into())
    }
}

// A deadline, by the clock of the library.
fn time_of(deadline: Instant) -> u64 {
    let rest = deadline.saturating_duration_since(Instant::now());
    raw::now().saturating_add(u64::try_from(rest.as_nanos()).unwrap_or(u64::MAX))
}

impl Drop for Session {
    fn drop(&mut self) {
        if self.guards > 0 {
            // One was forgotten: nobody will free its monitor.
            let _ = self.lent.opening.heap.stop(raw::ABANDONED);
        }
    }
}
