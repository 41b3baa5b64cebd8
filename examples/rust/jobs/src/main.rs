//! A durable work queue: producers put jobs, consumers take them, do them and record it. After a kill at any time no job is lost, none is done twice,
//! and each producer's are done in its order.
//!
//!     jobs FILE [JOBS]
//!
//! prints for each producer what it finds, then `put PRODUCER NUMBER` and `done PRODUCER NUMBER` once no crash loses it. With JOBS each producer puts
//! jobs until it has put so many in all, and the program ends when all are done; without, it goes on for ever.
mod queue;

use std::io::{self, Write};
use std::process::ExitCode;
use std::sync::atomic::{AtomicBool, Ordering};
use std::thread;
use zelamiku::{Heap, Session};

const CONSUMERS: u32 = 3;

type Failure = Box<dyn std::error::Error + Send + Sync>;

// What the producer's job of this number carries.
fn payload(producer: u32, number: u64) -> u64 {
    number * 1_000 + u64::from(producer)
}

// Prints what the queue has. It fails if that isn't what the producers put and the consumers did, or if a slot is lost.
fn print(found: &[queue::Found], has_each_slot: bool) -> Result<(), Failure> {
    if !has_each_slot {
        return Err(format!("a slot is lost, or lies in two lists: {found:?}").into());
    }
    for (producer, found) in (0..).zip(found) {
        let queue::Found { put, done, sum, open } = found;
        writeln!(io::stdout(), "found {producer} put {put} done {done}")?;
        let is_open = (done + 1..=*put)
            .map(|number| payload(producer, number))
            .eq(open.iter().copied());
        let done_sum = (1..=*done).fold(0u64, |sum, number| sum.wrapping_add(payload(producer, number)));
        if !is_open || *sum != done_sum {
            return Err(format!("producer {producer}'s jobs aren't those that were put and done: {found:?}").into());
        }
    }
    Ok(())
}

fn produce(mut session: Session, producer: u32, put_before: u64, most: u64) -> Result<(), Failure> {
    let mut number = put_before;
    while number < most {
        number = queue::put(&mut session, producer, |number| payload(producer, number))?;
        session.durable()?;
        writeln!(io::stdout(), "put {producer} {number}")?;
    }
    Ok(())
}

fn consume(mut session: Session, mut last: u32, is_over: &AtomicBool) -> Result<(), Failure> {
    while let Some(job) = queue::take(&mut session, last, || is_over.load(Ordering::SeqCst))? {
        // Here a job would be done as far as that can be done twice: after a crash it is handed out again.
        queue::finish(&mut session, job)?;
        session.durable()?;
        writeln!(io::stdout(), "done {} {}", job.producer, job.number)?;
        last = job.producer;
    }
    Ok(())
}

// Returns what the thread's work did. After a failure it stops the heap, because other threads would wait for this one for ever.
fn stop_if_failed(heap: &Heap, answer: Result<(), Failure>) -> Result<(), Failure> {
    if answer.is_err() {
        let _ = heap.stop(); // the answer says more
    }
    answer
}

// All producers and consumers, until the last job is done.
fn work(heap: &Heap, own: &mut Session, found: &[queue::Found], most: u64) -> Result<(), Failure> {
    let is_over = AtomicBool::new(false);
    let sessions = (0..queue::PRODUCERS + CONSUMERS)
        .map(|_| heap.session())
        .collect::<Result<Vec<_>, _>>()?;
    thread::scope(|scope| {
        let mut sessions = sessions.into_iter();
        let producers: Vec<_> = (0..)
            .zip(found)
            .zip(sessions.by_ref())
            .map(|((producer, found), session)| {
                scope.spawn(move || stop_if_failed(heap, produce(session, producer, found.put, most)))
            })
            .collect();
        let is_over = &is_over;
        let consumers: Vec<_> = (0..)
            .zip(sessions)
            .map(|(consumer, session)| scope.spawn(move || stop_if_failed(heap, consume(session, consumer, is_over))))
            .collect();
        let produced: Vec<_> = producers
            .into_iter()
            .map(|producer| producer.join().expect("no panic"))
            .collect();
        is_over.store(true, Ordering::SeqCst);
        let woken = queue::wake_all(own).map_err(Failure::from);
        let consumed: Vec<_> = consumers
            .into_iter()
            .map(|consumer| consumer.join().expect("no panic"))
            .collect();
        produced
            .into_iter()
            .chain(consumed)
            .chain([woken])
            .collect()
    })
}

fn run(path: &str, jobs: Option<u64>) -> Result<(), Failure> {
    let heap = queue::options(queue::PRODUCERS + CONSUMERS + 1).open(path)?;
    let mut session = heap.session()?;
    let (found, has_each_slot) = queue::look(&mut session)?;
    print(&found, has_each_slot)?;
    work(&heap, &mut session, &found, jobs.unwrap_or(u64::MAX))?;
    let (found, has_each_slot) = queue::look(&mut session)?;
    print(&found, has_each_slot)?;
    Ok(heap.close()?)
}

fn main() -> ExitCode {
    let words: Vec<String> = std::env::args().collect();
    let jobs = words.get(2).map(|word| word.parse()).transpose();
    let (Some(path), Ok(jobs)) = (words.get(1), jobs) else {
        eprintln!("jobs FILE [JOBS]");
        return ExitCode::from(2);
    };
    match run(path, jobs) {
        Ok(()) => ExitCode::SUCCESS,
        Err(failure) => {
            eprintln!("jobs: {failure}");
            ExitCode::from(2)
        }
    }
}
