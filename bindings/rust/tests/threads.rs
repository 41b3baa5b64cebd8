//! Threads over a heap: their sessions, waits and notifications, the log, a fork, and numbers that stand in other places too.
use common::{count, counters, until, value, Scratch};
use std::panic::resume_unwind;
use std::sync::{Arc, Barrier, Mutex};
use std::time::Duration;
use zelamiku::{Cause, Durable, Error, ErrorKind, Field, Heap, Level, Object, Pool, Refusal, Session};

mod common;

// Threads share them, and hand them over.
const _: () = {
    const fn is_shared<T: Send + Sync>() {}
    is_shared::<(Heap, Session, Durable, Error)>()
};

#[test]
fn threads_count_in_turn_and_what_they_await_is_durable() {
    let scratch = Scratch::new("count");
    let heap = counters(8).open(&scratch).unwrap();
    std::thread::scope(|scope| {
        for _ in 0..8 {
            let mut session = heap.session().unwrap();
            scope.spawn(move || {
                for section in 1..=500 {
                    count(&mut session, 0);
                    if section % 50 == 0 {
                        session.durable().unwrap();
                        assert!(session.is_durable(section) && !session.is_durable(section + 1));
                    }
                }
            });
        }
    });
    heap.close().unwrap();
    let heap = counters(8).linger(Duration::from_millis(1)).open(&scratch).unwrap();
    let mut session = heap.session().unwrap();
    assert_eq!(value(&mut session, 0), 4_005);
    // And what nobody awaits, after the linger.
    count(&mut session, 0);
    until("the section is durable", || session.is_durable(2));
    let stats = heap.stats().unwrap();
    assert!(stats.rounds > 0 && stats.sections == 2 && stats.last_cause == Cause::Linger, "{stats:?}");
    drop((session, heap));
    let heap = counters(8).linger(Duration::from_secs(3_600)).open(&scratch).unwrap();
    let mut session = heap.session().unwrap();
    count(&mut session, 0);
    session.durable().unwrap();
    assert_eq!(heap.stats().unwrap().last_cause, Cause::Awaited);
}

#[test]
fn sessions_come_and_go() {
    let scratch = Scratch::new("come");
    let heap = Arc::new(counters(2).open(&scratch).unwrap());
    for _ in 0..100 {
        let threads = [0, 1].map(|field| {
            let heap = Arc::clone(&heap);
            std::thread::spawn(move || {
                let mut session = heap.session().unwrap();
                count(&mut session, field);
                assert_eq!(session.sections(), 1);
                session.durable().unwrap();
            })
        });
        threads.into_iter().for_each(|thread| thread.join().unwrap());
    }
    let mut all = [heap.session().unwrap(), heap.session().unwrap()];
    assert_eq!((value(&mut all[0], 0), value(&mut all[1], 1)), (105, 105));
    assert_eq!(heap.session().unwrap_err().kind(), ErrorKind::NoneLeft);
    drop(all);
    heap.close().unwrap();
    assert_eq!(heap.close().unwrap_err().kind(), ErrorKind::Closed);
}

// A thread that waits with what it has stored, and returns its error or what it finds then.
fn waiter(heap: &Heap, other: &mut Session) -> std::thread::JoinHandle<Result<u64, Error>> {
    let mut waiter = heap.session().unwrap();
    let thread = std::thread::spawn(move || {
        waiter.synchronized(Object(0), |s| {
            s.store(Field(0), 1)?;
            s.wait(Object(0))?;
            s.load(Field(0))
        })
    });
    until("it waits", || value(other, 0) == 1);
    thread
}

#[test]
fn notifications_tell_whom_they_wake() {
    let scratch = Scratch::new("whom");
    let heap = counters(4).open(&scratch).unwrap();
    let mut own = heap.session().unwrap();
    let threads = [(); 3].map(|()| {
        own.synchronized(Object(0), |s| s.store(Field(0), 0)).unwrap();
        waiter(&heap, &mut own)
    });
    let notified = |s: &mut zelamiku::Held<'_>| {
        s.store(Field(0), 7)?;
        Ok::<_, Error>((s.notify(Object(0))?, s.notify_all(Object(0))?))
    };
    let (one, others) = own.synchronized(Object(0), notified).unwrap();
    let mut lanes = [others.clone(), vec![one.unwrap()]].concat();
    lanes.sort_unstable();
    assert!(others[0] < others[1] && lanes == [1, 2, 3], "{one:?} {others:?}");
    assert!(threads.into_iter().all(|thread| thread.join().unwrap().unwrap() == 7));
    assert_eq!(own.synchronized(Object(0), notified).unwrap(), (None, vec![]));
    let refused = own.synchronized(Object(0), |s| s.notify(Object(1))).unwrap_err();
    assert_eq!((refused.kind(), refused.refusal()), (ErrorKind::Refused, Some(Refusal::NotHeld)));
}

#[test]
fn a_heap_that_is_dropped_ends_those_that_wait() {
    let scratch = Scratch::new("dropped");
    let heap = counters(2).open(&scratch).unwrap();
    let mut other = heap.session().unwrap();
    let thread = waiter(&heap, &mut other);
    drop(heap);
    assert_eq!(thread.join().unwrap().unwrap_err().kind(), ErrorKind::Closed);
    assert_eq!(other.enter(Object(0)).unwrap_err().kind(), ErrorKind::Closed);
    assert_eq!(value(&mut counters(2).open(&scratch).unwrap().session().unwrap(), 0), 1);
}

#[test]
fn who_waits_for_whom_is_told_and_a_circle_to_the_log() {
    let scratch = Scratch::new("circle");
    let lines = Arc::new(Mutex::new(Vec::new()));
    let told = Arc::clone(&lines);
    let hook = move |level, line: &str| {
        told.lock().unwrap().push((level, line.to_owned()));
        resume_unwind(Box::new("of this test")); // which ends there
    };
    let heap = counters(3).log(hook).open(&scratch).unwrap();
    let gate = Barrier::new(2);
    std::thread::scope(|scope| {
        for (one, other) in [(Object(0), Object(1)), (Object(1), Object(0))] {
            let (mut session, gate) = (heap.session().unwrap(), &gate);
            scope.spawn(move || {
                let mut outer = session.enter(one).unwrap();
                gate.wait();
                assert_eq!(outer.enter(other).unwrap_err().kind(), ErrorKind::Closed);
            });
        }
        let warnings = || lines.lock().unwrap().iter().filter(|(level, line)| *level == Level::Warning && line.contains("wait for each other")).count();
        let begin = std::time::Instant::now();
        while warnings() == 0 && begin.elapsed() < Duration::from_secs(240) {
            std::thread::sleep(Duration::from_millis(1));
        }
        let waits = heap.waits().unwrap();
        // A failure is told after the stop: else the threads would wait for ever.
        heap.stop().unwrap();
        assert_eq!((waits.len(), warnings()), (2, 1));
        for (wait, other) in [(waits[0], waits[1]), (waits[1], waits[0])] {
            assert!(wait.is_in_circle && wait.owner == Some(other.lane) && wait.object != other.object, "{waits:?}");
        }
    });
    let levels: Vec<_> = lines.lock().unwrap().iter().map(|(level, _)| *level).collect();
    assert_eq!((levels[0], *levels.last().unwrap()), (Level::Info, Level::Info));
}

#[test]
fn a_forked_child_has_no_heap_and_its_guards_end_nothing_of_the_parents() {
    extern "C" {
        fn fork() -> i32;
        fn waitpid(child: i32, status: *mut i32, options: i32) -> i32;
        fn _exit(status: i32) -> !;
    }
    let scratch = Scratch::new("forked");
    let heap = counters(2).open(&scratch).unwrap();
    let mut session = heap.session().unwrap();
    let mut guard = session.enter(Object(0)).unwrap();
    guard.store(Field(0), 7).unwrap();
    // SAFETY: the child has one thread, and calls what a child may.
    let child = unsafe { fork() };
    if child == 0 {
        let is_forked = |answer: Result<(), Error>| answer.is_err_and(|error| error.kind() == ErrorKind::Forked);
        let mut answers = vec![is_forked(guard.store(Field(0), 8)), is_forked(heap.close())];
        drop(guard);
        answers.push(is_forked(session.durable()));
        drop((session, heap));
        // SAFETY: it ends the child, without what the parent does at its end.
        unsafe { _exit(i32::from(answers != [true; 3])) };
    }
    let mut status = -1;
    // SAFETY: the number is borrowed for the call.
    assert_eq!(unsafe { waitpid(child, &mut status, 0) }, child);
    assert_eq!(status, 0);
    guard.exit().unwrap();
    session.durable().unwrap();
    assert_eq!(value(&mut session, 0), 7);
}

const SEATS: Pool = Pool::new(Field(1), 4);
// Who has a seat: a thread's number, or 0.
const TAKEN_BY: Field = Field(6);

#[test]
fn threads_take_and_give_slots_of_a_pool() {
    const DESK: Object = Object(0);
    let scratch = Scratch::new("pool");
    let options = Heap::options().lanes(5).objects(1).field(Field(0), DESK, 5).pool(SEATS, DESK).fields(SEATS.slots(), DESK, 0);
    let heap = options.open(&scratch).unwrap();
    std::thread::scope(|scope| {
        for thread in 1..=5 {
            let mut session = heap.session().unwrap();
            scope.spawn(move || {
                for _ in 0..200 {
                    let seat = session.synchronized(DESK, |s| {
                        let seat = loop {
                            match s.take(SEATS)? {
                                Some(seat) => break seat,
                                None => s.wait(DESK)?,
                            }
                        };
                        assert_eq!(s.load(TAKEN_BY.plus(seat))?, 0);
                        s.store(TAKEN_BY.plus(seat), thread)?;
                        Ok::<_, Error>(seat)
                    });
                    let seat = seat.unwrap();
                    let given = session.synchronized(DESK, |s| {
                        assert_eq!(s.load(TAKEN_BY.plus(seat))?, thread);
                        s.store(TAKEN_BY.plus(seat), 0)?;
                        s.give(SEATS, seat)?;
                        s.notify(DESK)
                    });
                    given.unwrap();
                    count(&mut session, 0);
                }
            });
        }
    });
    assert_eq!(value(&mut heap.session().unwrap(), 0), 1_005);
}
