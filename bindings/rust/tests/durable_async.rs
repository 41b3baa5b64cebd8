//! Futures of durability: many on one lane, cancelled ones, and those that see the end of their session or their heap.
use common::{block_on, count, counters, nobody, poll, run, until, Count, Scratch};
use std::sync::atomic::Ordering::SeqCst;
use std::sync::Arc;
use std::task::{Poll, Wake, Waker};
use std::time::Duration;
use zelamiku::{Durable, ErrorKind, Field, Heap, Object};

mod common;

// Does the work while a section is open on which all depends that is done under object 0.
fn while_nothing_is_durable(heap: &Heap, work: impl FnOnce()) {
    let mut session = heap.session().unwrap();
    let mut outer = session.enter(Object(2)).unwrap();
    outer.synchronized(Object(0), |s| s.store(Field(0), 100)).unwrap();
    work();
    // Refused at the heap's end.
    let _ = outer.exit();
}

#[test]
fn what_is_durable_is_answered_at_once_and_again() {
    let scratch = Scratch::new("async-once");
    let heap = counters(2).open(&scratch).unwrap();
    let mut session = heap.session().unwrap();
    block_on(session.durable_async()).unwrap();
    count(&mut session, 0);
    block_on(session.durable_async()).unwrap();
    assert!(session.is_durable(1));
    let mut durable = session.durable_async();
    for _ in 0..3 {
        assert_eq!(poll(&mut durable, &nobody()), Poll::Ready(Ok(())));
    }
    durable.wait().unwrap();
    // A section that has only looked is waited for too.
    session.synchronized(Object(0), |s| s.load(Field(0))).unwrap();
    block_on(session.durable_async()).unwrap();
    assert!(session.is_durable(2));
}

#[test]
fn futures_of_all_lanes_are_awaited_by_another_thread() {
    let scratch = Scratch::new("async-lanes");
    let heap = counters(8).open(&scratch).unwrap();
    let (send, receive) = std::sync::mpsc::channel::<Durable>();
    std::thread::scope(|scope| {
        for lane in 0..8 {
            let (mut session, send) = (heap.session().unwrap(), send.clone());
            scope.spawn(move || {
                for _ in 0..200 {
                    count(&mut session, lane % 3);
                    send.send(session.durable_async()).unwrap();
                }
            });
        }
        drop(send);
        let durables: Vec<_> = receive.into_iter().collect();
        assert_eq!(durables.len(), 1_600);
        run(durables.into_iter().map(|durable| Box::pin(async { durable.await.unwrap() }) as common::Boxed));
    });
    assert_eq!(heap.stats().unwrap().sections, 1_600);
}

#[test]
fn a_section_that_depends_on_an_open_one_is_told_once_that_ends() {
    let scratch = Scratch::new("async-depends");
    let heap = counters(2).linger(Duration::from_secs(3_600)).open(&scratch).unwrap();
    let mut session = heap.session().unwrap();
    let woken = Arc::new(Count::default());
    let waker = Waker::from(Arc::clone(&woken));
    let mut durable = None;
    let rounds = heap.stats().unwrap().rounds;
    while_nothing_is_durable(&heap, || {
        count(&mut session, 0);
        let durable = durable.insert(session.durable_async());
        assert!(poll(durable, &waker).is_pending());
        until("a round", || heap.stats().unwrap().rounds > rounds);
        std::thread::sleep(Duration::from_millis(20));
        assert!(poll(durable, &waker).is_pending());
        assert_eq!(woken.0.load(SeqCst), 0);
    });
    // Nobody asks for a round again, and the linger is an hour.
    until("woken", || woken.0.load(SeqCst) == 1);
    assert_eq!(poll(&mut durable.unwrap(), &waker), Poll::Ready(Ok(())));
}

// A waker that has a future: it is dropped with it.
struct Keeps(#[allow(dead_code)] Durable);

impl Wake for Keeps {
    fn wake(self: Arc<Self>) {}
}

#[test]
fn a_waker_that_is_dropped_may_drop_a_future() {
    let scratch = Scratch::new("async-drop");
    let heap = counters(2).open(&scratch).unwrap();
    let mut session = heap.session().unwrap();
    while_nothing_is_durable(&heap, || {
        count(&mut session, 0);
        let waiting = || {
            let mut durable = session.durable_async();
            assert_eq!(poll(&mut durable, &nobody()), Poll::Pending);
            durable
        };
        let mut durable = waiting();
        // By another waker in its place, and by the end of the future.
        assert_eq!(poll(&mut durable, &Waker::from(Arc::new(Keeps(waiting())))), Poll::Pending);
        assert_eq!(poll(&mut durable, &Waker::from(Arc::new(Keeps(waiting())))), Poll::Pending);
        drop(durable);
    });
}

#[test]
fn a_thousand_cancelled_futures_leave_nothing() {
    let scratch = Scratch::new("async-cancelled");
    let heap = counters(2).open(&scratch).unwrap();
    let mut session = heap.session().unwrap();
    let woken = Arc::new(Count::default());
    while_nothing_is_durable(&heap, || {
        let mut kept = Vec::new();
        for number in 0..1_000 {
            count(&mut session, 0);
            let (mut durable, waker) = (session.durable_async(), Waker::from(Arc::clone(&woken)));
            assert!(poll(&mut durable, &waker).is_pending());
            // Also by another waker, and one is never polled.
            assert!(poll(&mut durable, &waker).is_pending());
            drop(session.durable_async());
            kept.extend((number % 2 == 0).then_some(durable));
        }
        assert_eq!(Arc::strong_count(&woken), 501);
        drop(kept);
        assert_eq!(Arc::strong_count(&woken), 1);
    });
    block_on(session.durable_async()).unwrap();
    assert_eq!((session.is_durable(1_000), woken.0.load(SeqCst)), (true, 0));
}

#[test]
fn the_heaps_end_is_told_to_all_that_wait_and_stays_told() {
    let mut told = Vec::new();
    for (end, kind) in [(Heap::stop as fn(&Heap) -> _, ErrorKind::Closed), (Heap::abandon, ErrorKind::Abandoned)] {
        let scratch = Scratch::new("async-end");
        let heap = counters(3).open(&scratch).unwrap();
        let (mut own, mut other) = (heap.session().unwrap(), heap.session().unwrap());
        while_nothing_is_durable(&heap, || {
            count(&mut own, 0);
            count(&mut other, 1);
            // What depends on the open section is lost, and what doesn't is durable.
            let (mut lost, mut kept, late) = (own.durable_async(), other.durable_async(), other.durable_async());
            let threads: Vec<_> = (0..4)
                .map(|_| own.durable_async())
                .map(|durable| std::thread::spawn(move || block_on(durable).map_err(|error| error.kind())))
                .collect();
            let waited = own.durable_async();
            let waits = std::thread::spawn(move || waited.wait().map_err(|error| error.kind()));
            assert!(poll(&mut lost, &nobody()).is_pending());
            std::thread::sleep(Duration::from_millis(20));
            end(&heap).unwrap();
            for thread in threads {
                assert_eq!(thread.join().unwrap(), Err(kind));
            }
            assert_eq!(waits.join().unwrap(), Err(kind));
            block_on(&mut kept).unwrap();
            assert_eq!(poll(&mut lost, &nobody()), Poll::Ready(Err(kind)));
            // Which was never polled before.
            assert_eq!(block_on(own.durable_async()).unwrap_err().kind(), kind);
            told.extend([(lost, Err(kind)), (kept, Ok(())), (late, Err(ErrorKind::Closed))]);
        });
    }
    // Once other heaps had its place it is known no more, and of what was never asked nothing is claimed.
    for _ in 0..260 {
        drop(counters(1).capacity(2_000).ring(4_096).open(Scratch::new("async-later")).unwrap());
    }
    for (mut durable, answer) in told {
        assert_eq!(poll(&mut durable, &nobody()), Poll::Ready(answer));
    }
}

#[test]
fn a_section_that_a_dropped_guard_has_lost_is_told() {
    let scratch = Scratch::new("async-lost");
    let heap = counters(1).open(&scratch).unwrap();
    let mut session = heap.session().unwrap();
    count(&mut session, 0);
    let before = session.durable_async();
    block_on(session.durable_async()).unwrap();
    let mut guard = session.enter(Object(0)).unwrap();
    guard.store(Field(0), 7).unwrap();
    heap.stop().unwrap();
    drop(guard);
    for _ in 0..2 {
        assert_eq!(block_on(session.durable_async()).unwrap_err().kind(), ErrorKind::Closed);
        assert_eq!(session.durable_async().wait().unwrap_err().kind(), ErrorKind::Closed);
    }
    block_on(before).unwrap();
}

#[test]
fn a_future_outlives_its_session() {
    let scratch = Scratch::new("async-session");
    let heap = counters(1).open(&scratch).unwrap();
    let mut session = heap.session().unwrap();
    count(&mut session, 0);
    let (one, other) = (session.durable_async(), session.durable_async());
    drop(session);
    // The lane is theirs until both are gone.
    assert_eq!(heap.session().unwrap_err().kind(), ErrorKind::NoneLeft);
    block_on(one).unwrap();
    assert_eq!(heap.session().unwrap_err().kind(), ErrorKind::NoneLeft);
    drop(other);
    let session = heap.session().unwrap();
    assert_eq!((session.earlier(), session.sections()), (1, 0));
}

#[test]
fn a_future_outlives_its_heap() {
    let scratch = Scratch::new("async-heap");
    let heap = counters(1).linger(Duration::from_secs(3_600)).open(&scratch).unwrap();
    let mut session = heap.session().unwrap();
    count(&mut session, 0);
    let [mut polled, unpolled] = [session.durable_async(), session.durable_async()];
    let _ = poll(&mut polled, &nobody());
    drop((session, heap));
    assert_eq!(block_on(polled).map_err(|error| error.kind()), Ok(()));
    assert_eq!(block_on(unpolled).map_err(|error| error.kind()), Ok(()));
}

#[test]
fn a_forgotten_guard_is_told_when_its_session_is_dropped() {
    let scratch = Scratch::new("async-forgotten");
    let heap = counters(2).open(&scratch).unwrap();
    let (mut session, mut other) = (heap.session().unwrap(), heap.session().unwrap());
    count(&mut session, 1);
    let kept = session.durable_async();
    let mut guard = session.enter(Object(0)).unwrap();
    guard.store(Field(0), 7).unwrap();
    std::mem::forget(guard);
    assert_eq!(block_on(session.durable_async()).unwrap_err().kind(), ErrorKind::Running);
    drop(session);
    assert_eq!(other.enter(Object(0)).unwrap_err().kind(), ErrorKind::Abandoned);
    block_on(kept).unwrap();
}

#[test]
fn a_waker_that_panics_keeps_nobody_asleep() {
    struct Panics;
    impl Wake for Panics {
        fn wake(self: Arc<Self>) {
            std::panic::resume_unwind(Box::new("of this test"));
        }
    }
    let scratch = Scratch::new("async-panics");
    let heap = counters(2).open(&scratch).unwrap();
    let mut session = heap.session().unwrap();
    let woken = Arc::new(Count::default());
    let mut durables = Vec::new();
    while_nothing_is_durable(&heap, || {
        count(&mut session, 0);
        for waker in [Waker::from(Arc::new(Panics)), Waker::from(Arc::clone(&woken))] {
            durables.push(session.durable_async());
            assert!(poll(durables.last_mut().unwrap(), &waker).is_pending());
        }
    });
    until("woken", || woken.0.load(SeqCst) == 1);
    count(&mut session, 0);
    block_on(session.durable_async()).unwrap();
}
