//! Durability for tasks: futures, and the thread of a heap that waits for rounds and wakes them.
use crate::error::{Error, ErrorKind};
use crate::heap::Opening;
use crate::raw::{self, HeapNumber, ThreadNumber, OK};
use crate::Refusal;
use std::collections::BTreeMap;
use std::fmt;
use std::future::Future;
use std::panic::{catch_unwind, AssertUnwindSafe};
use std::path::Path;
use std::pin::Pin;
use std::sync::{Arc, Condvar, Mutex, MutexGuard, PoisonError};
use std::task::{Context, Poll, Waker};

/// The lane of a session. It is freed once the session is gone, and each [`Durable`] of it.
pub(crate) struct Lent {
    pub opening: Arc<Opening>,
    pub thread: ThreadNumber,
}

impl Lent {
    // Requests a round, and sleeps until the deadline at most; returns whether so many sections are durable. Any thread may call it.
    pub fn await_until(&self, sections: u64, deadline: u64) -> Result<bool, Error> {
        let mut is_durable = false;
        let status = self.thread.await_until(sections, deadline, &mut is_durable);
        self.opening.answer(status).map(|()| is_durable)
    }
}

impl Drop for Lent {
    fn drop(&mut self) {
        // No section is open any more, or the session has stopped the heap: the lane is freed in each case.
        let _ = self.thread.end();
    }
}

/// A future that is done once what its session had ended is durable: [`Session::durable_async`](crate::Session::durable_async). It borrows
/// nothing, and any executor and any thread may await it. Dropping it only gives up waiting.
///
/// If its session is dropped meanwhile, the lane is freed once its futures are dropped too.
///
/// It fails as [`Session::durable`](crate::Session::durable) does. After [`ErrorKind::Write`] nothing is lost: await the same future once more,
/// by `&mut`, or another one. Any other result it returns again.
///
/// ```
/// use zelamiku::{Durable, Error, ErrorKind};
///
/// async fn answer(mut durable: Durable) -> Result<(), Error> {
///     loop {
///         match (&mut durable).await {
///             Err(error) if error.kind() == ErrorKind::Write => eprintln!("{error}"), // a full disk, on which somebody may make room
///             other => return other,
///         }
///     }
/// }
/// ```
#[must_use = "await it, or call `wait`"]
pub struct Durable {
    lent: Arc<Lent>,
    // How many sections the session had ended.
    sections: u64,
    // Why they never will be durable.
    refused: Option<Error>,
    // Whether a round was requested.
    is_asked: bool,
    place: Place,
}

// Where the waiter has a future; `ticket` is 0 where it has none.
#[derive(Clone, Copy, Default)]
struct Place {
    ticket: u64,
    // How many writes had failed.
    failures: u64,
}

impl fmt::Debug for Durable {
    fn fmt(&self, f: &mut fmt::Formatter<'_>) -> fmt::Result {
        f.debug_struct("Durable").field("lane", &self.lent.thread.progress().lane).field("sections", &self.sections).finish_non_exhaustive()
    }
}

impl Durable {
    // Of all that the lane's session has ended. It requests a round.
    pub(crate) fn of(lent: &Arc<Lent>) -> Durable {
        let (lent, sections) = (Arc::clone(lent), lent.thread.progress().sections);
        // Only this call fails for a section that the heap's end has cut off.
        let (refused, is_asked) = match lent.await_until(raw::ALL_SECTIONS, 0) {
            Ok(_) => (None, true),
            Err(error) if error.kind() == ErrorKind::Write => (None, false),
            Err(error) => (Some(error), true),
        };
        Durable { lent, sections, refused, is_asked, place: Place::default() }
    }

    /// Sleeps until the sections are durable: for a thread that isn't the session's, and needs no lane. It fails as awaiting it does, and may be
    /// called again.
    ///
    /// ```
    /// # mod scratch { include!(concat!(env!("CARGO_MANIFEST_DIR"), "/src/scratch.rs")); } use scratch::*;
    /// # let (heap, path) = new_heap();
    /// # let mut session = heap.session()?;
    /// session.synchronized(Object(0), |s| s.store(Field(0), 1))?;
    /// let durable = session.durable_async();
    /// let thread = std::thread::spawn(move || durable.wait()); // for example one that answers a client
    /// session.synchronized(Object(0), |s| s.store(Field(0), 2))?;
    /// thread.join().unwrap()?;
    /// # Ok::<(), Error>(())
    /// ```
    pub fn wait(&self) -> Result<(), Error> {
        match &self.refused {
            Some(error) => Err(error.clone()),
            None => self.lent.await_until(self.sections, raw::NO_DEADLINE).map(|_| ()),
        }
    }

    // None: it isn't known yet, and a round was requested.
    fn answer(&mut self) -> Option<Result<(), Error>> {
        if let Some(error) = &self.refused {
            return Some(Err(error.clone()));
        }
        let progress = self.lent.thread.progress();
        if progress.durable >= self.sections {
            return Some(Ok(()));
        }
        if self.is_asked && progress.end == OK {
            return None;
        }
        self.is_asked = true;
        self.lent.await_until(self.sections, 0).map(|is_durable| is_durable.then_some(())).transpose()
    }

    // A final result is returned again, whatever becomes of the heap. Any other one is asked for anew.
    fn keep(&mut self, answer: &Result<(), Error>) {
        match answer {
            Ok(()) => self.sections = 0,
            Err(error) if error.kind().is_final() => self.refused = Some(error.clone()),
            Err(_) => self.is_asked = false,
        }
    }
}

impl Future for Durable {
    type Output = Result<(), Error>;

    fn poll(mut self: Pin<&mut Self>, context: &mut Context<'_>) -> Poll<Result<(), Error>> {
        let this = &mut *self;
        let mut answer = this.answer();
        if answer.is_none() {
            let put = this.lent.opening.waiter.put(&this.lent, this.sections, &mut this.place, context.waker());
            // A round or the heap may have ended before the waker was put there.
            answer = put.map_or_else(|error| Some(Err(error)), |()| this.answer());
        }
        let Some(answer) = answer else { return Poll::Pending };
        this.lent.opening.waiter.forget(&this.lent, this.sections, &mut this.place);
        this.keep(&answer);
        Poll::Ready(answer)
    }
}

impl Drop for Durable {
    fn drop(&mut self) {
        self.lent.opening.waiter.forget(&self.lent, self.sections, &mut self.place);
    }
}

type Waiting = BTreeMap<(u64, u64), Waker>;

#[derive(Default)]
struct Inner {
    // The wakers by lane, and by sections and ticket. A lane with a waker stays lent.
    lanes: BTreeMap<ThreadNumber, Waiting>,
    tickets: u64,
    // How many writes have failed of which the thread knows, and the last failure.
    failures: u64,
    failure: Option<Error>,
    has_thread: bool,
    // The heap was dropped: the thread is to see that it has ended.
    is_dropped: bool,
    // The thread has seen it, and wakes nobody any more.
    is_over: bool,
}

/// The wakers of a heap's futures, and the thread that wakes them. It starts with the first waker, and ends with the heap. Without wakers it
/// sleeps, and requests no round.
#[derive(Default)]
pub(crate) struct Waiter {
    inner: Mutex<Inner>,
    changed: Condvar,
}

impl Waiter {
    fn lock(&self) -> MutexGuard<'_, Inner> {
        // Nothing panics while it is locked, unless there is no memory.
        self.inner.lock().unwrap_or_else(PoisonError::into_inner)
    }

    // The waker is woken once so many sections are durable, a write has failed, or the heap has ended. Err: a write has failed since it was put
    // here before, or no thread can be started.
    fn put(self: &Arc<Self>, lent: &Lent, sections: u64, place: &mut Place, waker: &Waker) -> Result<(), Error> {
        // A waker is the program's code, which isn't called while this is locked.
        let waker = waker.clone();
        let mut inner = self.lock();
        if place.ticket != 0 && place.failures != inner.failures {
            if let Some(error) = &inner.failure {
                return Err(error.clone());
            }
        }
        if inner.is_over {
            return Ok(());
        }
        if !inner.has_thread {
            self.start(lent)?;
            inner.has_thread = true;
        }
        if place.ticket == 0 {
            inner.tickets += 1;
            let (ticket, failures) = (inner.tickets, inner.failures);
            *place = Place { ticket, failures };
        }
        let is_first = inner.lanes.is_empty();
        let waiting = inner.lanes.entry(lent.thread).or_default();
        let old = waiting.insert((sections, place.ticket), waker);
        drop(inner);
        drop(old);
        if is_first {
            self.changed.notify_one();
        }
        Ok(())
    }

    fn start(self: &Arc<Self>, lent: &Lent) -> Result<(), Error> {
        let (waiter, heap, path) = (Arc::clone(self), lent.opening.heap, Arc::clone(&lent.opening.path));
        let thread = std::thread::Builder::new().name("zelamiku-wakes".into());
        let started = thread.spawn(move || waiter.run(heap, &path));
        started.map(|_| ()).map_err(|error| Error::no_thread(&lent.opening.path, error))
    }

    // The waker isn't woken any more.
    fn forget(&self, lent: &Lent, sections: u64, place: &mut Place) {
        if place.ticket == 0 {
            return;
        }
        let mut inner = self.lock();
        let mut old = None;
        if let Some(waiting) = inner.lanes.get_mut(&lent.thread) {
            old = waiting.remove(&(sections, place.ticket));
            if waiting.is_empty() {
                inner.lanes.remove(&lent.thread);
            }
        }
        drop(inner);
        drop(old);
        *place = Place::default();
    }

    /// The heap was dropped: the thread ends.
    pub fn end(&self) {
        self.lock().is_dropped = true;
        self.changed.notify_one();
    }

    // Sleeps while there are no wakers and the heap is there.
    fn await_wakers(&self) {
        let mut inner = self.lock();
        while inner.lanes.is_empty() && !inner.is_dropped {
            inner = self.changed.wait(inner).unwrap_or_else(PoisonError::into_inner);
        }
    }

    // The thread: waits for rounds while there are wakers, and wakes those whose future may be done. Each future looks for itself.
    fn run(&self, heap: HeapNumber, path: &Arc<Path>) {
        let mut rounds = 0;
        let mut is_over = false;
        while !is_over {
            self.await_wakers();
            let status = heap.await_round(rounds, raw::NO_DEADLINE, &mut rounds);
            is_over = status != OK && Refusal::from(status) != Refusal::Device;
            for waker in self.due(status, is_over, path) {
                // A waker that panics has been called.
                let _ = catch_unwind(AssertUnwindSafe(|| waker.wake()));
            }
        }
    }

    // Takes out the wakers whose futures may be done: all, after a failure.
    fn due(&self, status: u32, is_over: bool, path: &Arc<Path>) -> Vec<Waker> {
        let mut inner = self.lock();
        inner.is_over = is_over;
        if status != OK {
            if !is_over {
                inner.failures += 1;
                inner.failure = Some(Error::of(path, status));
            }
            return std::mem::take(&mut inner.lanes).into_values().flat_map(BTreeMap::into_values).collect();
        }
        let mut due = Vec::new();
        inner.lanes.retain(|thread, waiting| {
            let rest = waiting.split_off(&(thread.progress().durable + 1, 0));
            due.extend(std::mem::replace(waiting, rest).into_values());
            !waiting.is_empty()
        });
        due
    }
}
