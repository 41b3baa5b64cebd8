//! A heap that is open, and what its sessions share.
use crate::durable::Waiter;
use crate::error::{Error, ErrorKind};
use crate::raw::{self, HeapNumber, OK};
use crate::{Options, Report, Session, Stats, Wait};
use std::fmt;
use std::path::Path;
use std::sync::Arc;

/// A heap in a file, open, with its helper's thread. Threads share it by reference or in an `Arc`.
///
/// A heap that is dropped is [closed](Heap::close), or [stopped](Heap::stop) if sections are open: it sleeps until what has ended is durable, and
/// can't report whether that succeeded. `close` does.
#[must_use = "it is closed when it is dropped"]
pub struct Heap {
    opening: Arc<Opening>,
    lanes: u32,
    report: Option<Report>,
}

/// What a heap and its sessions have in common.
pub(crate) struct Opening {
    pub path: Arc<Path>,
    pub heap: HeapNumber,
    pub waiter: Arc<Waiter>,
    // The library calls it until the heap is closed.
    log: Option<Box<Arc<raw::Log>>>,
}

impl Opening {
    // What a call on the heap came to.
    pub fn answer(&self, status: u32) -> Result<(), Error> {
        if status == OK { Ok(()) } else { Err(Error::of(&self.path, status)) }
    }
}

impl fmt::Debug for Heap {
    fn fmt(&self, f: &mut fmt::Formatter<'_>) -> fmt::Result {
        f.debug_struct("Heap").field("path", &self.opening.path).field("lanes", &self.lanes).finish_non_exhaustive()
    }
}

impl Heap {
    /// A heap's options: 8 lanes of 16,384 records, no object and no field yet.
    pub fn options() -> Options {
        Options::new()
    }

    pub(crate) fn open(path: Arc<Path>, options: Options) -> Result<Heap, Error> {
        let Some(text) = raw::text_of(&path) else {
            return Err(Error::told(ErrorKind::File, &path, None, "open: the path has a zero byte"));
        };
        let plan = raw::Plan {
            objects: options.objects,
            lanes: options.lanes,
            capacity: options.capacity,
            ring: options.ring,
            // To the library 0 is as good as nothing said.
            linger: u32::try_from(options.linger.as_micros()).unwrap_or(u32::MAX).max(1),
            upgrades: options.upgrades.into(),
            must_exist: options.must_exist.into(),
            reverts: options.reverts.into(),
            fingerprint: options.fingerprint,
            atomic_sectors: options.atomic_sectors.into(),
            ..raw::Plan::default()
        };
        let mut opening = Opening { path, heap: HeapNumber::default(), waiter: Arc::default(), log: options.log.map(Box::new) };
        let mut report = raw::Report::default();
        let status = raw::open(&mut opening.heap, &text, plan, &options.fields, opening.log.as_deref(), &mut report);
        if status != OK {
            return Err(Error::of_opening(&opening.path, status, &report));
        }
        Ok(Heap {
            lanes: report.lanes,
            report: (report.is_made == 0).then(|| Report::of(&report, opening.heap)),
            opening: Arc::new(opening),
        })
    }

    /// Begins a session, on a lane that no other one has. It fails with [`ErrorKind::NoneLeft`] if all are in use, and with any final kind.
    ///
    /// ```
    /// # mod scratch { include!(concat!(env!("CARGO_MANIFEST_DIR"), "/src/scratch.rs")); } use scratch::*;
    /// # let path = Scratch::new("session");
    /// let heap = Heap::options().lanes(1).objects(1).field(Field(0), Object(0), 100).open(&path)?;
    /// let session = heap.session()?;
    /// assert_eq!(heap.session().unwrap_err().kind(), ErrorKind::NoneLeft);
    /// drop(session);
    /// let session = heap.session()?;
    /// # Ok::<(), Error>(())
    /// ```
    pub fn session(&self) -> Result<Session, Error> {
        Session::begin(&self.opening)
    }

    /// How many sessions may be in use at once. The helper's lane isn't counted.
    #[must_use]
    pub fn lanes(&self) -> u32 {
        self.lanes
    }

    /// What the file had, and which sections recovery kept and dropped, and why. `None`: this opening has made the heap.
    ///
    /// ```
    /// # mod scratch { include!(concat!(env!("CARGO_MANIFEST_DIR"), "/src/scratch.rs")); } use scratch::*;
    /// # let path = Scratch::new("report");
    /// let options = Heap::options().lanes(2).objects(1).field(Field(0), Object(0), 0);
    /// assert!(options.clone().open(&path)?.report().is_none());
    /// let heap = options.open(&path)?;
    /// let report = heap.report().expect("it was there");
    /// assert_eq!((report.kept.len(), report.dropped.len()), (2, 0));
    /// # Ok::<(), Error>(())
    /// ```
    #[must_use]
    pub fn report(&self) -> Option<&Report> {
        self.report.as_ref()
    }

    /// Closes the heap once all its sections are durable; all must have ended. Sessions that are there still fail with [`ErrorKind::Closed`] from
    /// then on.
    ///
    /// It fails with [`Running`](ErrorKind::Running) if a section is open or a session waits, and with [`Write`](ErrorKind::Write): the heap goes on,
    /// and may be closed later. With any final kind: the heap had ended before, or its last calls weren't all made, and the next opening recovers
    /// it.
    ///
    /// ```
    /// # mod scratch { include!(concat!(env!("CARGO_MANIFEST_DIR"), "/src/scratch.rs")); } use scratch::*;
    /// # let (heap, path) = new_heap();
    /// let mut session = heap.session()?;
    /// let guard = session.enter(Object(0))?;
    /// assert_eq!(heap.close().unwrap_err().kind(), ErrorKind::Running);
    /// drop(guard);
    /// heap.close()?;
    /// assert_eq!(session.enter(Object(0)).unwrap_err().kind(), ErrorKind::Closed);
    /// # Ok::<(), Error>(())
    /// ```
    pub fn close(&self) -> Result<(), Error> {
        self.opening.answer(self.opening.heap.close())
    }

    /// Stops the heap, also if sections are open or sessions sleep: each call of theirs fails with [`ErrorKind::Closed`] from now on, those that
    /// sleep too. First it makes all ended sections durable that don't depend on an open one. The next opening drops the others, as after a crash.
    ///
    /// The heap has ended after each failure: with [`Lost`](ErrorKind::Lost) the last write or sync has failed, and the next opening may drop
    /// sections that had ended, too; with another final kind the heap had ended before, or its last round had no memory.
    ///
    /// ```
    /// # mod scratch { include!(concat!(env!("CARGO_MANIFEST_DIR"), "/src/scratch.rs")); } use scratch::*;
    /// # let (heap, path) = new_heap();
    /// let mut session = heap.session()?;
    /// let thread = std::thread::spawn(move || session.synchronized(Object(0), |s| s.wait(Object(0))));
    /// heap.stop()?;
    /// assert_eq!(thread.join().unwrap().unwrap_err().kind(), ErrorKind::Closed);
    /// # Ok::<(), Error>(())
    /// ```
    pub fn stop(&self) -> Result<(), Error> {
        self.opening.answer(self.opening.heap.stop(raw::CLOSED))
    }

    /// The same, but calls fail with [`ErrorKind::Abandoned`] from then on, as they do after a section that couldn't be taken back.
    ///
    /// ```
    /// # mod scratch { include!(concat!(env!("CARGO_MANIFEST_DIR"), "/src/scratch.rs")); } use scratch::*;
    /// # let (heap, path) = new_heap();
    /// let mut session = heap.session()?;
    /// let mut guard = session.enter(Object(0))?;
    /// heap.abandon()?;
    /// assert_eq!(guard.store(Field(0), 80).unwrap_err().kind(), ErrorKind::Abandoned);
    /// # Ok::<(), Error>(())
    /// ```
    pub fn abandon(&self) -> Result<(), Error> {
        self.opening.answer(self.opening.heap.stop(raw::ABANDONED))
    }

    /// Writes a copy of the heap, of a moment between two rounds, to the path: beside it first, then synced and renamed over the file there.
    /// Threads go on meanwhile. The copy has all that was durable when the call began.
    ///
    /// It fails with [`Write`](ErrorKind::Write) if the copy can't be written, and with [`Refused`](ErrorKind::Refused) if a heap is open or being made
    /// at the path: what is there stays. Or with any final kind.
    ///
    /// ```
    /// # mod scratch { include!(concat!(env!("CARGO_MANIFEST_DIR"), "/src/scratch.rs")); } use scratch::*;
    /// # let (heap, path) = new_heap();
    /// # let copy = Scratch::new("copy");
    /// let mut session = heap.session()?;
    /// session.synchronized(Object(0), |s| s.store(Field(0), 90))?;
    /// session.durable()?;
    /// heap.copy_to(&copy)?;
    /// let copied = Heap::options().objects(2).field(Field(0), Object(0), 100).field(Field(1), Object(1), 100).open(&copy)?;
    /// assert_eq!(copied.session()?.synchronized(Object(0), |s| s.load(Field(0)))?, 90);
    /// # Ok::<(), Error>(())
    /// ```
    pub fn copy_to(&self, path: impl AsRef<Path>) -> Result<(), Error> {
        let path: Arc<Path> = path.as_ref().into();
        let Some(text) = raw::text_of(&path) else {
            return Err(Error::told(ErrorKind::Write, &path, None, "copy: the path has a zero byte"));
        };
        match self.opening.heap.copy(&text) {
            OK => Ok(()),
            status => Err(Error::of(&path, status)),
        }
    }

    /// What the heap has done since it was opened, also after it has ended. It fails with [`Closed`](ErrorKind::Closed) once another heap has its
    /// place among the process's 255, and with [`Forked`](ErrorKind::Forked).
    ///
    /// ```
    /// # mod scratch { include!(concat!(env!("CARGO_MANIFEST_DIR"), "/src/scratch.rs")); } use scratch::*;
    /// # let (heap, path) = new_heap();
    /// let mut session = heap.session()?;
    /// session.synchronized(Object(0), |s| s.store(Field(0), 90))?;
    /// session.durable()?;
    /// let stats = heap.stats()?;
    /// assert_eq!((stats.sections, stats.sessions), (1, 1));
    /// # Ok::<(), Error>(())
    /// ```
    pub fn stats(&self) -> Result<Stats, Error> {
        let mut stats = raw::Stats::default();
        self.opening.answer(self.opening.heap.stats(&mut stats))?;
        Ok(stats.into())
    }

    /// The sessions that sleep for a monitor now, by their lanes: for which, which session has it, and whether they wait in a circle. The heap
    /// doesn't break a circle. It reports each to the [log](Options::log) once, after a session of it has slept for a second. It fails with any
    /// final kind.
    ///
    /// ```
    /// # mod scratch { include!(concat!(env!("CARGO_MANIFEST_DIR"), "/src/scratch.rs")); } use scratch::*;
    /// # let (heap, path) = new_heap();
    /// let (mut session, mut other) = (heap.session()?, heap.session()?);
    /// let (lane, other_lane) = (session.lane(), other.lane());
    /// let guard = session.enter(Object(0))?;
    /// let thread = std::thread::spawn(move || other.synchronized(Object(0), |s| s.load(Field(0))));
    /// let waits = loop {
    ///     let waits = heap.waits()?;
    ///     if !waits.is_empty() {
    ///         break waits;
    ///     }
    /// };
    /// assert_eq!((waits[0].lane, waits[0].object, waits[0].owner), (other_lane, Object(0), Some(lane)));
    /// assert!(!waits[0].is_in_circle);
    /// drop(guard);
    /// # assert_eq!(thread.join().unwrap()?, 100);
    /// # Ok::<(), Error>(())
    /// ```
    pub fn waits(&self) -> Result<Vec<Wait>, Error> {
        let mut waits = Vec::new();
        self.opening.answer(self.opening.heap.waits(&mut waits))?;
        Ok(waits.into_iter().map(Wait::from).collect())
    }
}

impl Drop for Heap {
    fn drop(&mut self) {
        if self.close().is_err_and(|error| !error.kind().is_final()) {
            let _ = self.stop();
        }
        self.opening.waiter.end();
    }
}
