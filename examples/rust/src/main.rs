//! A counter service: four threads count, each in a counter of its own and in the total, in one section. After a kill at any time the total is the
//! sum of its parts, and no less than the total before and the counts that were acknowledged since. A transient field counts since the start alone.
//!
//!     counters FILE [SECONDS]
//!
//! prints the counters that it finds, then the number of durable counts as it grows, and after so many seconds (never, without SECONDS) closes the
//! heap and prints the counters again. If there is no file, or a free one, it makes a heap. One process may count at a time.
use std::io::{self, Write};
use std::process::ExitCode;
use std::sync::atomic::{AtomicBool, Ordering};
use std::thread;
use std::time::{Duration, Instant};
use zelamiku::{Error, Field, Heap, Held, Object, Options, Session};

// Object 0 has the total, and the counts since the start; object i and field i are worker i's.
const WORKERS: u32 = 4;
const ALL: Object = Object(0);
const TOTAL: Field = Field(0);
const SINCE: Field = Field(WORKERS + 1);

type Failure = Box<dyn std::error::Error + Send + Sync>;
type Worker<'scope> = thread::ScopedJoinHandle<'scope, Result<(), Error>>;

// A lane for each worker, and one for this program's first thread.
fn options() -> Options {
    let options = Heap::options().lanes(WORKERS + 1).objects(WORKERS + 1);
    (0..=WORKERS)
        .fold(options, |options, number| options.field(Field(number), Object(number), 0))
        .transient(SINCE, ALL, 0)
}

fn count(held: &mut Held<'_>, field: Field) -> Result<(), Error> {
    let value = held.load(field)?;
    held.store(field, value + 1)
}

// Counts once, in one section.
fn count_once(session: &mut Session, own: u32) -> Result<(), Error> {
    session.synchronized_all(&[Object(own), ALL], |held| {
        count(held, Field(own))?;
        count(held, TOTAL)?;
        count(held, SINCE)
    })
}

fn work(mut session: Session, own: u32, is_over: &AtomicBool) -> Result<(), Error> {
    while !is_over.load(Ordering::SeqCst) {
        count_once(&mut session, own)?;
    }
    Ok(())
}

// What all counters have.
struct Counters {
    total: u64,
    workers: Vec<u64>,
    // The counts since the start.
    since: u64,
}

// Reads all counters in one section.
fn look(session: &mut Session) -> Result<Counters, Error> {
    let all: Vec<_> = (0..=WORKERS).map(Object).collect();
    session.synchronized_all(&all, |held| {
        let workers = (1..=WORKERS).map(|own| held.load(Field(own))).collect::<Result<_, _>>()?;
        Ok(Counters { total: held.load(TOTAL)?, workers, since: held.load(SINCE)? })
    })
}

impl Counters {
    // Prints the counters. It fails if the total isn't the sum of its parts.
    fn print(&self) -> Result<(), Failure> {
        let parts: Vec<String> = self.workers.iter().map(u64::to_string).collect();
        let is_sum = self.workers.iter().sum::<u64>() == self.total;
        writeln!(io::stdout(), "total {} = {}{}", self.total, parts.join(" + "), if is_sum { "" } else { ": WRONG" })?;
        if is_sum {
            Ok(())
        } else {
            Err("the total isn't the sum of its parts".into())
        }
    }

    // Fails if the transient field has another number of counts.
    fn must_be_since(&self, counts: u64) -> Result<(), Failure> {
        if self.since == counts {
            Ok(())
        } else {
            Err(format!("{} counts since the start, and not {counts}", self.since).into())
        }
    }
}

// Prints how many of the workers' sections are durable: until then, or for ever, or until a worker fails.
fn watch(heap: &Heap, before: u64, until: Option<Instant>, workers: &[Worker<'_>]) -> Result<(), Failure> {
    let mut told = 0;
    while until.map_or(true, |until| Instant::now() < until) && !workers.iter().any(|worker| worker.is_finished()) {
        thread::sleep(Duration::from_millis(10));
        let acknowledged = heap.stats()?.sections - before;
        if acknowledged > told {
            writeln!(io::stdout(), "acknowledged {acknowledged}")?;
            told = acknowledged;
        }
    }
    Ok(())
}

fn count_until(heap: &Heap, until: Option<Instant>) -> Result<(), Failure> {
    let sessions = (0..WORKERS).map(|_| heap.session()).collect::<Result<Vec<_>, _>>()?;
    let before = heap.stats()?.sections;
    let is_over = AtomicBool::new(false);
    thread::scope(|scope| {
        let is_over = &is_over;
        let workers: Vec<_> = (1..)
            .zip(sessions)
            .map(|(own, session)| scope.spawn(move || work(session, own, is_over)))
            .collect();
        let watched = watch(heap, before, until, &workers);
        is_over.store(true, Ordering::SeqCst);
        let worked: Vec<_> = workers.into_iter().map(|worker| worker.join().expect("no panic")).collect();
        worked.into_iter().collect::<Result<(), Error>>()?;
        watched
    })
}

fn run(path: &str, seconds: Option<Duration>) -> Result<(), Failure> {
    let heap = options().open(path)?;
    let mut session = heap.session()?;
    let first = look(&mut session)?;
    // Or it would count among those of the workers.
    session.durable()?;
    first.must_be_since(0)?;
    first.print()?;
    count_until(&heap, seconds.and_then(|seconds| Instant::now().checked_add(seconds)))?;
    let last = look(&mut session)?;
    last.must_be_since(last.total - first.total)?;
    heap.close()?;
    // Durable now.
    last.print()
}

// None if the word isn't a time in seconds.
fn time(word: &str) -> Option<Duration> {
    Duration::try_from_secs_f64(word.parse().ok()?).ok()
}

fn main() -> ExitCode {
    let words: Vec<String> = std::env::args().collect();
    let seconds = words.get(2).map(|word| time(word).ok_or(word)).transpose();
    let (Some(path), Ok(seconds)) = (words.get(1), seconds) else {
        eprintln!("counters FILE [SECONDS]");
        return ExitCode::from(2);
    };
    match run(path, seconds) {
        Ok(()) => ExitCode::SUCCESS,
        Err(failure) => {
            eprintln!("counters: {failure}");
            ExitCode::from(2)
        }
    }
}
