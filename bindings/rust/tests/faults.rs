//! A device that fails or hangs: what futures are told, the thread that wakes them, and guards that are dropped after the heap's end.
use common::{block_on, count, counters, nobody, poll, run, until, value, Boxed, Scratch};
use faulty::{alone, SYNCS_FAIL, SYNCS_HANG, THREADS_FAIL, WRITES_FAIL};
use std::cell::Cell;
use std::error::Error as _;
use std::sync::atomic::{AtomicUsize, Ordering::SeqCst};
use std::sync::{Arc, Mutex};
use std::task::{Poll, RawWaker, RawWakerVTable, Waker};
use std::time::{Duration, Instant};
use zelamiku::{Cause, Durable, Error, ErrorKind, Field, Heap, Object, Session};

mod common;
mod faulty;

fn store(session: &mut Session, value: u64) {
    session.synchronized(Object(0), |s| s.store(Field(0), value)).unwrap();
}

// So many futures of one lane, each of a section of its own.
fn stored(session: &mut Session, count: u64) -> Vec<Durable> {
    let stored = (0..count).map(|value| {
        store(session, value);
        session.durable_async()
    });
    stored.collect()
}

// Polled after others it lets syncs go on.
fn syncs_go_on() -> Boxed {
    Box::pin(async { SYNCS_HANG.store(false, SeqCst) })
}

// What they come to.
fn answers(durables: Vec<Durable>) -> Vec<(Durable, Result<(), Error>)> {
    let count = durables.len();
    let told = Arc::new(Mutex::new(Vec::new()));
    let waits = durables.into_iter().map(|mut durable| {
        let told = Arc::clone(&told);
        let task = async move {
            let answer = (&mut durable).await;
            told.lock().unwrap().push((durable, answer));
        };
        Box::pin(task) as Boxed
    });
    run(waits.chain([syncs_go_on()]));
    let mut told = told.lock().unwrap();
    assert_eq!(told.len(), count);
    std::mem::take(&mut *told)
}

#[test]
fn ten_thousand_futures_share_a_lane() {
    const TASKS: u64 = 10_000;
    let _alone = alone();
    let scratch = Scratch::new("async-many");
    // A lane has room for all of them, and no round comes by itself. The first round ends once each future was polled.
    let heap = counters(1).ring(65_536).capacity(65_536).linger(Duration::from_secs(3_600)).open(&scratch).unwrap();
    let session = Arc::new(Mutex::new(heap.session().unwrap()));
    let done = Arc::new(AtomicUsize::new(0));
    SYNCS_HANG.store(true, SeqCst);
    let tasks = (0..TASKS).map(|_| {
        let (session, done) = (Arc::clone(&session), Arc::clone(&done));
        let task = async move {
            let (number, durable) = {
                let mut session = session.lock().unwrap();
                count(&mut session, 0);
                (session.sections(), session.durable_async())
            };
            durable.await.unwrap();
            assert!(session.lock().unwrap().is_durable(number));
            done.fetch_add(1, SeqCst);
        };
        Box::pin(task) as Boxed
    });
    run(tasks.chain([syncs_go_on()]));
    assert_eq!(done.load(SeqCst) as u64, TASKS);
    let stats = heap.stats().unwrap();
    assert!(stats.sections == TASKS && stats.rounds < 20, "{stats:?}");
    assert_eq!(value(&mut session.lock().unwrap(), 0), TASKS + 5);
}

#[test]
fn a_sync_that_fails_is_told_to_all_that_wait() {
    let _alone = alone();
    let scratch = Scratch::new("async-sync");
    let heap = counters(3).open(&scratch).unwrap();
    let [mut own, mut open, mut other] = [(); 3].map(|()| heap.session().unwrap());
    store(&mut own, 6);
    block_on(own.durable_async()).unwrap();
    // All that is done under object 0 depends on this one.
    let mut outer = open.enter(Object(1)).unwrap();
    outer.synchronized(Object(0), |s| s.store(Field(0), 7)).unwrap();
    let durables = stored(&mut own, 100);
    let thread = std::thread::spawn(|| answers(durables));
    while heap.stats().unwrap().awaiting == 0 {
        std::thread::yield_now();
    }
    SYNCS_FAIL.store(true, SeqCst);
    // A round that is underway may fail before this section is there.
    let failed = other.synchronized(Object(2), |s| s.store(Field(2), 7)).and_then(|()| other.durable());
    assert_eq!(failed.unwrap_err().kind(), ErrorKind::Lost);
    SYNCS_FAIL.store(false, SeqCst);
    for (mut durable, answer) in thread.join().unwrap() {
        assert_eq!(answer.unwrap_err().kind(), ErrorKind::Lost);
        assert_eq!(block_on(&mut durable).unwrap_err().kind(), ErrorKind::Lost);
        assert_eq!(durable.wait().unwrap_err().kind(), ErrorKind::Lost);
    }
    assert_eq!(block_on(own.durable_async()).unwrap_err().kind(), ErrorKind::Lost);
}

#[test]
fn a_write_that_fails_is_told_and_made_again() {
    let _alone = alone();
    let scratch = Scratch::new("async-write");
    let heap = counters(2).open(&scratch).unwrap();
    let mut session = heap.session().unwrap();
    store(&mut session, 6);
    block_on(session.durable_async()).unwrap();
    WRITES_FAIL.store(true, SeqCst);
    let told = answers(stored(&mut session, 100));
    // It fails again for who asks again, and by the one that wasn't polled yet.
    let mut late = session.durable_async();
    assert_eq!(block_on(&mut late).unwrap_err().kind(), ErrorKind::Write);
    // By a round of its own, unless that is over before its waker is there: then by the helper's, a second later. So it often is on a busy machine.
    assert!((0..40).any(|_| {
        assert_eq!(block_on(&mut late).unwrap_err().kind(), ErrorKind::Write);
        heap.stats().unwrap().last_cause == Cause::Awaited
    }));
    assert_eq!(late.wait().unwrap_err().kind(), ErrorKind::Write);
    WRITES_FAIL.store(false, SeqCst);
    for (mut durable, answer) in told {
        let error = answer.unwrap_err();
        assert_eq!(error.kind(), ErrorKind::Write);
        let text = error.to_string();
        assert!(text.contains("a write has failed: No space left"), "{text}");
        block_on(&mut durable).unwrap();
    }
    block_on(late).unwrap();
    assert!(session.is_durable(101));
    // Also though nobody asks again.
    WRITES_FAIL.store(true, SeqCst);
    store(&mut session, 7);
    assert_eq!(block_on(session.durable_async()).unwrap_err().kind(), ErrorKind::Write);
    WRITES_FAIL.store(false, SeqCst);
    until("the write is made again", || session.is_durable(102));
}

#[test]
fn a_failure_that_was_told_isnt_told_again_to_a_future_that_waits_on() {
    let _alone = alone();
    let scratch = Scratch::new("async-told");
    let heap = counters(3).open(&scratch).unwrap();
    let [mut own, mut open, mut other] = [(); 3].map(|()| heap.session().unwrap());
    // All that is done under object 0 depends on this one.
    let mut outer = open.enter(Object(1)).unwrap();
    outer.synchronized(Object(0), |s| s.store(Field(0), 7)).unwrap();
    count(&mut own, 0);
    let mut durable = own.durable_async();
    assert!(poll(&mut durable, &nobody()).is_pending());
    WRITES_FAIL.store(true, SeqCst);
    count(&mut other, 2);
    assert_eq!(block_on(&mut durable).unwrap_err().kind(), ErrorKind::Write);
    WRITES_FAIL.store(false, SeqCst);
    until("writes go on", || other.durable().is_ok());
    for _ in 0..2 {
        assert!(poll(&mut durable, &nobody()).is_pending());
    }
    outer.exit().unwrap();
    block_on(durable).unwrap();
}

#[test]
fn without_a_thread_that_wakes_it_a_future_fails_and_may_be_awaited_again() {
    let _alone = alone();
    let scratch = Scratch::new("async-no-thread");
    let heap = counters(2).open(&scratch).unwrap();
    let mut session = heap.session().unwrap();
    SYNCS_HANG.store(true, SeqCst);
    store(&mut session, 6);
    let mut durable = session.durable_async();
    THREADS_FAIL.store(true, SeqCst);
    let error = block_on(&mut durable).unwrap_err();
    THREADS_FAIL.store(false, SeqCst);
    SYNCS_HANG.store(false, SeqCst);
    assert_eq!((error.kind(), error.refusal()), (ErrorKind::Refused, None));
    assert!(error.to_string().contains("await: the thread that wakes tasks can't be started: Resource temporarily unavailable"), "{error}");
    let cause = error.source().and_then(|cause| cause.downcast_ref::<std::io::Error>());
    assert_eq!(cause.map(std::io::Error::kind), Some(std::io::ErrorKind::WouldBlock));
    block_on(&mut durable).unwrap();
}

#[test]
fn a_stop_that_cant_write_says_what_is_lost() {
    let _alone = alone();
    let scratch = Scratch::new("async-stop");
    let heap = counters(2).open(&scratch).unwrap();
    let mut session = heap.session().unwrap();
    store(&mut session, 6);
    session.durable().unwrap();
    WRITES_FAIL.store(true, SeqCst);
    store(&mut session, 7);
    let mut durable = session.durable_async();
    let error = heap.stop().unwrap_err();
    WRITES_FAIL.store(false, SeqCst);
    assert!(error.kind() == ErrorKind::Lost && error.kind().is_final(), "{error:?}");
    let cause = error.source().and_then(|cause| cause.downcast_ref::<std::io::Error>());
    assert_eq!(cause.map(std::io::Error::kind), Some(std::io::ErrorKind::StorageFull));
    let later = [heap.stop(), heap.close(), session.durable(), durable.wait(), block_on(&mut durable), session.enter(Object(0)).map(|_| ())];
    assert!(later.iter().all(|answer| answer.as_ref().is_err_and(|error| error.kind() == ErrorKind::Closed)), "{later:?}");
    assert!(session.is_durable(1) && !session.is_durable(2));
    drop((durable, session, heap));
    assert_eq!(value(&mut counters(2).open(&scratch).unwrap().session().unwrap(), 0), 6);
}

// Of each thread that wakes: how often it has slept.
fn sleeps() -> Vec<u64> {
    let tasks = std::fs::read_dir("/proc/self/task").unwrap();
    let told = tasks.filter_map(|task| std::fs::read_to_string(task.ok()?.path().join("status")).ok());
    let wakes = told.filter(|text| text.contains("Name:\tzelamiku-wakes\n"));
    wakes.map(|text| text.split_once("\nvoluntary_ctxt_switches:").unwrap().1.lines().next().unwrap().trim().parse().unwrap()).collect()
}

fn threads_that_wake() -> usize {
    sleeps().len()
}

#[test]
fn one_thread_wakes_all_of_a_heap_and_ends_with_it() {
    let _alone = alone();
    let (one, other) = (Scratch::new("async-thread"), Scratch::new("async-threads"));
    let heaps = [counters(2).open(&one).unwrap(), counters(2).open(&other).unwrap()];
    // Those of other tests may be about to end.
    until("no thread wakes", || threads_that_wake() == 0);
    for heap in &heaps {
        let mut sessions = [heap.session().unwrap(), heap.session().unwrap()];
        for session in &mut sessions {
            store(session, 6);
            session.durable_async().wait().unwrap();
            // It is durable, so nothing has to wake this one.
            block_on(session.durable_async()).unwrap();
        }
        assert_eq!(threads_that_wake(), usize::from(!std::ptr::eq(heap, &heaps[0])));
        for session in &mut sessions {
            // So that nothing is durable before it is polled.
            SYNCS_HANG.store(true, SeqCst);
            assert!(answers(stored(session, 20)).into_iter().all(|(_, answer)| answer.is_ok()));
        }
    }
    assert_eq!(threads_that_wake(), 2);
    // It sleeps while nobody waits for it, however many rounds there are.
    let mut session = heaps[0].session().unwrap();
    let before: u64 = sleeps().iter().sum();
    for value in 0..30 {
        store(&mut session, value);
        session.durable().unwrap();
    }
    assert!(sleeps().iter().sum::<u64>() < before + 10);
    drop(session);
    for (at, heap) in heaps.into_iter().enumerate() {
        drop(heap);
        until("the heap's thread has ended", || threads_that_wake() == 1 - at);
    }
}

// A waker of nobody, of which a clone is made once the work is done.
fn waker_that_does(work: &&dyn Fn()) -> Waker {
    static CALLS: RawWakerVTable = RawWakerVTable::new(cloned, |_| {}, |_| {}, |_| {});
    fn cloned(work: *const ()) -> RawWaker {
        // SAFETY: the work is borrowed until the test has dropped the waker and its clones.
        unsafe { (*work.cast::<&dyn Fn()>())() };
        RawWaker::new(work, &CALLS)
    }
    // SAFETY: the calls need nothing but the work.
    unsafe { Waker::from_raw(RawWaker::new(std::ptr::from_ref(work).cast(), &CALLS)) }
}

#[test]
fn a_heap_may_end_between_a_futures_look_and_its_wait() {
    let _alone = alone();
    let scratch = Scratch::new("async-meanwhile");
    let heap = counters(2).open(&scratch).unwrap();
    let (mut session, heap) = (heap.session().unwrap(), Cell::new(Some(heap)));
    SYNCS_HANG.store(true, SeqCst);
    store(&mut session, 6);
    let mut durable = session.durable_async();
    assert!(poll(&mut durable, &nobody()).is_pending());
    let end = || {
        SYNCS_HANG.store(false, SeqCst);
        drop(heap.take());
        until("the heap's thread has ended", || threads_that_wake() == 0);
    };
    // Its last round has made the section durable.
    assert_eq!(poll(&mut durable, &waker_that_does(&(&end as &dyn Fn()))), Poll::Ready(Ok(())));
}

// Of a heap whose sync fails while another session waits for it.
fn lose(heap: &Heap) {
    SYNCS_FAIL.store(true, SeqCst);
    let mut other = heap.session().unwrap();
    other.synchronized(Object(2), |s| s.store(Field(2), 7)).unwrap();
    assert_eq!(other.durable().unwrap_err().kind(), ErrorKind::Lost);
    SYNCS_FAIL.store(false, SeqCst);
}

// The heap ends while the guards of a section are held, which are dropped then.
fn is_told(scratch: &Scratch, end: fn(&Heap), kind: ErrorKind, work: fn(&mut Session, &dyn Fn())) {
    let heap = counters(2).open(scratch).unwrap();
    let mut session = heap.session().unwrap();
    store(&mut session, 6);
    session.durable().unwrap();
    work(&mut session, &|| end(&heap));
    for _ in 0..2 {
        assert_eq!(session.durable().unwrap_err().kind(), kind);
        assert_eq!(session.durable_by(Instant::now()).unwrap_err().kind(), kind);
    }
    assert_eq!(session.enter(Object(0)).unwrap_err().kind(), kind);
    assert_eq!(session.durable().unwrap_err().kind(), kind);
    // What was durable is, and what was lost is no section of the session's.
    assert_eq!((session.sections(), session.is_durable(1), session.is_durable(2)), (1, true, false));
    drop((session, heap));
    let heap = counters(2).open(scratch).unwrap();
    let mut session = heap.session().unwrap();
    assert_eq!([0, 1].map(|number| value(&mut session, number)), [6, 5]);
}

fn one_guard(session: &mut Session, end: &dyn Fn()) {
    let mut guard = session.enter(Object(0)).unwrap();
    guard.store(Field(0), 7).unwrap();
    end();
}

fn nested_guards(session: &mut Session, end: &dyn Fn()) {
    let mut outer = session.enter(Object(0)).unwrap();
    outer.store(Field(0), 7).unwrap();
    let mut inner = outer.enter(Object(1)).unwrap();
    inner.store(Field(1), 7).unwrap();
    end();
}

fn a_guard_of_which_the_end_is_told(session: &mut Session, end: &dyn Fn()) {
    let mut guard = session.enter(Object(0)).unwrap();
    guard.store(Field(0), 7).unwrap();
    end();
    assert!(guard.store(Field(0), 8).unwrap_err().kind().is_final());
    assert!(guard.load(Field(0)).unwrap_err().kind().is_final());
}

fn an_exit_that_is_refused(session: &mut Session, end: &dyn Fn()) {
    let mut guard = session.enter(Object(0)).unwrap();
    guard.store(Field(0), 7).unwrap();
    end();
    assert!(guard.exit().unwrap_err().kind().is_final());
}

fn a_work_that_ends_well(session: &mut Session, end: &dyn Fn()) {
    let worked = session.synchronized(Object(0), |s| {
        s.store(Field(0), 7)?;
        end();
        Ok::<_, Error>(())
    });
    assert!(worked.unwrap_err().kind().is_final());
}

fn a_work_that_fails(session: &mut Session, end: &dyn Fn()) {
    let worked = session.synchronized(Object(0), |s| {
        s.store(Field(0), 7)?;
        let error = s.load(Field(9)).unwrap_err();
        end();
        Err::<(), _>(error)
    });
    // Nothing of it stays, so the error is the work's own.
    assert_eq!(worked.unwrap_err().kind(), ErrorKind::Refused);
}

fn a_work_that_panics(session: &mut Session, end: &dyn Fn()) {
    let work = std::panic::AssertUnwindSafe(|| {
        session.synchronized(Object(0), |s| {
            s.store(Field(0), 7)?;
            end();
            std::panic::resume_unwind(Box::new("of this test"))
        })
    });
    let worked: std::thread::Result<Result<(), Error>> = std::panic::catch_unwind(work);
    assert!(worked.is_err());
}

#[test]
fn a_section_whose_guard_was_dropped_at_the_heaps_end_is_told_as_lost() {
    let _alone = alone();
    let works = [
        one_guard,
        nested_guards,
        a_guard_of_which_the_end_is_told,
        an_exit_that_is_refused,
        a_work_that_ends_well,
        a_work_that_fails,
        a_work_that_panics,
    ];
    for work in works {
        let ends: [(fn(&Heap), _); 3] = [
            (|heap| heap.stop().unwrap(), ErrorKind::Closed),
            (|heap| heap.abandon().unwrap(), ErrorKind::Abandoned),
            (lose, ErrorKind::Lost),
        ];
        for (end, kind) in ends {
            is_told(&Scratch::new("guard-dropped"), end, kind, work);
        }
    }
}
