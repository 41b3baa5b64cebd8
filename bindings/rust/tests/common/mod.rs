//! What the tests share: patience, executors of the standard library alone, and the counters that most use.
#![allow(dead_code)]
use std::future::Future;
use std::pin::{pin, Pin};
use std::sync::atomic::{AtomicUsize, Ordering::SeqCst};
use std::sync::mpsc::{channel, Sender};
use std::sync::{Arc, Mutex};
use std::task::{Context, Poll, Wake, Waker};
use std::thread::Thread;
use std::time::{Duration, Instant};
pub use scratch::Scratch;
use zelamiku::{Durable, ErrorKind, Field, Heap, Object, Options, Session};

#[path = "../../src/scratch.rs"]
mod scratch;

/// Three objects, and field i of object i, which is 5 at first.
pub fn counters(lanes: u32) -> Options {
    (0..3).fold(Heap::options().lanes(lanes).objects(3), |options, number| options.field(Field(number), Object(number), 5))
}

/// Adds one to the counter, in a section.
pub fn count(session: &mut Session, number: u32) {
    session.synchronized(Object(number), |s| s.load(Field(number)).and_then(|count| s.store(Field(number), count + 1))).unwrap();
}

pub fn value(session: &mut Session, number: u32) -> u64 {
    session.synchronized(Object(number), |s| s.load(Field(number))).unwrap()
}

/// Returns when it is so. A machine may be slow, so only after four minutes it never will be.
pub fn until(what: &str, mut is_so: impl FnMut() -> bool) {
    let begin = Instant::now();
    while !is_so() {
        assert!(begin.elapsed() < Duration::from_secs(240), "not in four minutes: {what}");
        std::thread::sleep(Duration::from_millis(1));
    }
}

/// Counts how often it wakes.
#[derive(Default)]
pub struct Count(pub AtomicUsize);

impl Wake for Count {
    fn wake(self: Arc<Self>) {
        self.0.fetch_add(1, SeqCst);
    }
}

/// A waker of nobody.
pub fn nobody() -> Waker {
    Waker::from(Arc::new(Count::default()))
}

pub fn poll(durable: &mut Durable, waker: &Waker) -> Poll<Result<(), ErrorKind>> {
    let answer = Pin::new(durable).poll(&mut Context::from_waker(waker));
    answer.map(|answer| answer.map_err(|error| error.kind()))
}

struct Unpark(Thread);

impl Wake for Unpark {
    fn wake(self: Arc<Self>) {
        self.0.unpark();
    }
}

/// Polls the future until it is done; its thread sleeps meanwhile.
pub fn block_on<T>(future: impl Future<Output = T>) -> T {
    let (mut future, waker) = (pin!(future), Waker::from(Arc::new(Unpark(std::thread::current()))));
    loop {
        match future.as_mut().poll(&mut Context::from_waker(&waker)) {
            Poll::Ready(answer) => return answer,
            Poll::Pending => std::thread::park(),
        }
    }
}

pub type Boxed = Pin<Box<dyn Future<Output = ()> + Send>>;

struct Task {
    future: Mutex<Option<Boxed>>,
    ready: Sender<Arc<Task>>,
}

impl Wake for Task {
    fn wake(self: Arc<Self>) {
        let _ = self.ready.send(Arc::clone(&self));
    }
}

/// Polls each future that was woken, until all are done.
pub fn run(futures: impl IntoIterator<Item = Boxed>) {
    let (ready, woken) = channel();
    for future in futures {
        let (future, own) = (Mutex::new(Some(future)), ready.clone());
        let _ = ready.send(Arc::new(Task { future, ready: own }));
    }
    // It is closed once no task is left, and no waker.
    drop(ready);
    for task in woken {
        let mut future = task.future.lock().unwrap();
        let waker = Waker::from(Arc::clone(&task));
        if future.as_mut().is_some_and(|polled| polled.as_mut().poll(&mut Context::from_waker(&waker)).is_ready()) {
            *future = None;
        }
    }
}
