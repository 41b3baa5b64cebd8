//! A durable blocking queue of jobs: a list of slots for each producer, linked through fields, and one pool of slots for all.
//!
//! A job is there from the section that puts it to the section that finishes it. A transient field says that a consumer has it: so after a crash it is
//! handed out again. One job of a producer is in hand at a time, which keeps its jobs in order.
use zelamiku::{Error, Field, Heap, Held, Object, Options, Pool, Session};

pub const PRODUCERS: u32 = 3;

// The object whose monitor guards all fields.
const QUEUE: Object = Object(0);

// Each producer's fields.
#[derive(Clone, Copy)]
enum Of {
    // How many jobs it has put, and how many of them are done.
    Put,
    Done,
    // The sum of the payloads of all jobs that are done: what a job does, here.
    Sum,
    // The slots of its oldest and its newest job that aren't done, plus one; 0 where there is none.
    First,
    Last,
}

const OF_EACH: u32 = 5;

fn of(producer: u32, which: Of) -> Field {
    Field(producer * OF_EACH + which as u32)
}

// The pool, whose slots all producers share, and of each slot what lies in it.
const SLOTS: Pool = Pool::new(Field(PRODUCERS * OF_EACH), 16);
const PAYLOAD: Field = SLOTS.head().plus(1 + SLOTS.slots());
// The slot of the producer's next job, plus one.
const NEXT: Field = PAYLOAD.plus(SLOTS.slots());

// Whether a consumer has the producer's oldest job. It is transient: at each opening nobody has.
const IN_HAND: Field = NEXT.plus(SLOTS.slots());

/// The heap that has the queue: for so many threads.
pub fn options(threads: u32) -> Options {
    let options = Heap::options()
        .lanes(threads)
        .objects(1)
        .fields(PRODUCERS * OF_EACH, QUEUE, 0)
        .pool(SLOTS, QUEUE)
        .fields(2 * SLOTS.slots(), QUEUE, 0);
    (0..PRODUCERS).fold(options, |options, producer| options.transient(IN_HAND.plus(producer), QUEUE, 0))
}

/// A job that a consumer has in hand.
#[derive(Clone, Copy, Debug)]
pub struct Job {
    pub producer: u32,
    /// From 1 on, for each producer.
    pub number: u64,
    pub payload: u64,
}

/// What the queue has of one producer.
#[derive(Clone, Debug)]
pub struct Found {
    pub put: u64,
    pub done: u64,
    pub sum: u64,
    /// The payloads of the jobs that aren't done, in their order.
    pub open: Vec<u64>,
}

/// What the queue has, and whether each slot lies in one producer's list or is free.
pub fn look(session: &mut Session) -> Result<(Vec<Found>, bool), Error> {
    session.synchronized(QUEUE, |queue| {
        let mut slots = Vec::new();
        let found = (0..PRODUCERS)
            .map(|producer| look_at(queue, producer, &mut slots))
            .collect::<Result<_, _>>()?;
        // All that are free, which are taken back in the same section: to the world it never happened.
        while let Some(slot) = queue.take(SLOTS)? {
            slots.push(slot);
        }
        queue.revert()?;
        slots.sort_unstable();
        Ok((found, slots.into_iter().eq(0..SLOTS.slots())))
    })
}

fn look_at(queue: &mut Held<'_>, producer: u32, slots: &mut Vec<u32>) -> Result<Found, Error> {
    let (put, done) = (queue.load(of(producer, Of::Put))?, queue.load(of(producer, Of::Done))?);
    let mut open = Vec::new();
    let mut link = queue.load(of(producer, Of::First))?;
    while let Some(slot) = slot_in(link) {
        slots.push(slot);
        open.push(queue.load(PAYLOAD.plus(slot))?);
        link = queue.load(NEXT.plus(slot))?;
    }
    Ok(Found {
        put,
        done,
        sum: queue.load(of(producer, Of::Sum))?,
        open,
    })
}

// The slot that a link names.
fn slot_in(link: u64) -> Option<u32> {
    link.checked_sub(1).map(|slot| slot as u32)
}

fn link_to(slot: u32) -> u64 {
    u64::from(slot) + 1
}

/// Puts the producer's next job, and returns its number. It sleeps while no slot is free.
pub fn put(session: &mut Session, producer: u32, payload: impl Fn(u64) -> u64) -> Result<u64, Error> {
    session.synchronized(QUEUE, |queue| {
        let slot = loop {
            match queue.take(SLOTS)? {
                Some(slot) => break slot,
                None => queue.wait(QUEUE)?,
            }
        };
        let number = queue.load(of(producer, Of::Put))? + 1;
        queue.store(PAYLOAD.plus(slot), payload(number))?;
        queue.store(NEXT.plus(slot), 0)?;
        // Behind the newest, or as the oldest.
        match slot_in(queue.load(of(producer, Of::Last))?) {
            Some(newest) => queue.store(NEXT.plus(newest), link_to(slot))?,
            None => queue.store(of(producer, Of::First), link_to(slot))?,
        }
        queue.store(of(producer, Of::Last), link_to(slot))?;
        queue.store(of(producer, Of::Put), number)?;
        queue.notify_all(QUEUE)?;
        Ok(number)
    })
}

/// Takes a job, of the producers in turn after `last`. It sleeps while there is none, and returns `None` if there will be no more.
pub fn take(session: &mut Session, last: u32, is_over: impl Fn() -> bool) -> Result<Option<Job>, Error> {
    session.synchronized(QUEUE, |queue| loop {
        let mut is_empty = true;
        for producer in (1..=PRODUCERS).map(|step| (last + step) % PRODUCERS) {
            let Some(slot) = slot_in(queue.load(of(producer, Of::First))?) else {
                continue;
            };
            is_empty = false;
            if queue.load(IN_HAND.plus(producer))? == 0 {
                queue.store(IN_HAND.plus(producer), 1)?;
                return Ok(Some(Job {
                    producer,
                    number: queue.load(of(producer, Of::Done))? + 1,
                    payload: queue.load(PAYLOAD.plus(slot))?,
                }));
            }
        }
        if is_empty && is_over() {
            return Ok(None);
        }
        queue.wait(QUEUE)?;
    })
}

/// Does the job and records that, in one section: so it is done once. Its slot is free then.
pub fn finish(session: &mut Session, job: Job) -> Result<(), Error> {
    session.synchronized(QUEUE, |queue| {
        let sum = queue.load(of(job.producer, Of::Sum))?;
        queue.store(of(job.producer, Of::Sum), sum.wrapping_add(job.payload))?;
        queue.store(of(job.producer, Of::Done), job.number)?;
        if let Some(slot) = slot_in(queue.load(of(job.producer, Of::First))?) {
            let next = queue.load(NEXT.plus(slot))?;
            queue.store(of(job.producer, Of::First), next)?;
            if next == 0 {
                queue.store(of(job.producer, Of::Last), 0)?;
            }
            queue.give(SLOTS, slot)?;
        }
        queue.store(IN_HAND.plus(job.producer), 0)?;
        queue.notify_all(QUEUE).map(|_| ())
    })
}

/// Wakes all that sleep in [`put`] and [`take`], to look again.
pub fn wake_all(session: &mut Session) -> Result<(), Error> {
    session.synchronized(QUEUE, |queue| queue.notify_all(QUEUE)).map(|_| ())
}
