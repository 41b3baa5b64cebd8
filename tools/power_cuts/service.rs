//! Four threads that count over the crate `zelamiku`, in a guest whose power is cut (`tools/power-cuts`): the heap and the sections of
//! `counts.c`, which looks at it.
//!
//!     service FILE
use std::error::Error;
use std::fs::{File, OpenOptions};
use std::io::Write;
use std::{env, thread};
use zelamiku::{Field, Heap, NewField, Object, Session};

const WORKERS: u32 = 4;
const TOTAL: Object = Object(0);
const OBJECTS: u32 = 2 * WORKERS + 1;
// Fields beside the total: the last thread, and its count.
const LAST: u32 = OBJECTS;
const LAST_COUNT: u32 = OBJECTS + 1;
const COUNTED: u32 = OBJECTS + 2;
// Each value that is counted lies in a page of its own.
const STRIDE: u32 = 520;

type Failure = Box<dyn Error + Send + Sync>;

fn open(path: &str) -> Result<Heap, Failure> {
    let field = |number: u32| {
        let object = if number % STRIDE == 0 && number / STRIDE < OBJECTS { Object(number / STRIDE) } else { TOTAL };
        NewField { owner: object, guard: object, first: 0, is_transient: false }
    };
    let options = Heap::options().lanes(WORKERS + 1).objects(OBJECTS);
    Ok((0..COUNTED * STRIDE).map(field).fold(options, |all, it| all.guarded(it)).open(path)?)
}

// One section: the thread's counter, that of another object, and the total with the thread and its count beside it.
fn count(session: &mut Session, own: u32) -> Result<u64, zelamiku::Error> {
    let value = |number: u32| Field(number * STRIDE);
    session.synchronized(Object(own), |s| {
        s.synchronized(Object(own + WORKERS), |s| {
            let count = s.load(value(own))? + 1;
            s.store(value(own), count)?;
            s.synchronized(TOTAL, |s| {
                let total = s.load(value(0))?;
                s.store(value(0), total + 1)?;
                s.store(value(LAST), u64::from(own))?;
                s.store(value(LAST_COUNT), count)
            })?;
            s.store(value(own + WORKERS), count)?;
            Ok(count)
        })
    })
}

// Tells each count by the port that outlives the power cut, once it is durable.
fn work(mut session: Session, own: u32, mut port: &File) -> Result<(), Failure> {
    loop {
        let count = count(&mut session, own)?;
        session.durable()?;
        port.write_all(format!("{own} {count}\n").as_bytes())?;
    }
}

fn main() -> Result<(), Failure> {
    let path = env::args().nth(1).ok_or("service FILE")?;
    let heap = open(&path)?;
    let port = OpenOptions::new().write(true).open("/dev/told")?;
    (&port).write_all(b"made 1\n")?;
    thread::scope(|scope| {
        let mut workers = Vec::new();
        for own in 1..=WORKERS {
            let (session, port) = (heap.session()?, &port);
            workers.push(scope.spawn(move || work(session, own, port)));
        }
        workers.into_iter().try_for_each(|it| it.join().map_err(|_| "a thread has ended")?)
    })
}
