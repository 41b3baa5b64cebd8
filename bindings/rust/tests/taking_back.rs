//! A section that fails is taken back, and ends as one that has stored nothing: by its work's error or panic, or by a guard that is dropped.
use common::Scratch;
use std::panic::{catch_unwind, resume_unwind, AssertUnwindSafe};
use zelamiku::{Error, ErrorKind, Field, Heap, Held, Object, Options, Pool, Refusal, Session};

mod common;

#[derive(Clone, Copy)]
struct Account {
    object: Object,
    balance: Field,
}

const fn account(number: u32) -> Account {
    Account { object: Object(number), balance: Field(number) }
}

const ALICE: Account = account(0);
const BOB: Account = account(1);
const CAROL: Account = account(2);
const NOBODY: Account = account(99);
const SLOTS: Pool = Pool::new(Field(3), 4);
const PASSING: Field = Field(8);

// Three accounts, a pool that the first one guards, and a transient field of it.
fn accounts() -> Options {
    // The last word counts.
    let options = Heap::options().lanes(4).objects(3).reverts(false).reverts(true);
    let options = [(ALICE, 90), (BOB, 110), (CAROL, 0)].into_iter().fold(options, |all, (of, first)| all.field(of.balance, of.object, first));
    options.pool(SLOTS, ALICE.object).transient(PASSING, ALICE.object, 0)
}

// By what a program's own work fails.
#[derive(Debug)]
enum Failed {
    TooLittle,
    Heap(Error),
}

impl From<Error> for Failed {
    fn from(error: Error) -> Failed {
        Failed::Heap(error)
    }
}

impl Failed {
    fn refusal(&self) -> Option<Refusal> {
        match self {
            Failed::TooLittle => None,
            Failed::Heap(error) => error.refusal(),
        }
    }
}

// It fails once it has stored.
fn withdraw(s: &mut Held<'_>, of: Account, amount: u64) -> Result<(), Failed> {
    let balance = s.load(of.balance)?;
    s.store(of.balance, balance.wrapping_sub(amount))?;
    if balance < amount { Err(Failed::TooLittle) } else { Ok(()) }
}

fn deposit(s: &mut Held<'_>, to: Account, amount: u64) -> Result<(), Failed> {
    let balance = s.load(to.balance)?;
    Ok(s.store(to.balance, balance + amount)?)
}

fn by_works(session: &mut Session, from: Account, to: Account, amount: u64) -> Result<(), Failed> {
    session.synchronized(from.object, |s| {
        withdraw(s, from, amount)?;
        s.synchronized(to.object, |s| deposit(s, to, amount))
    })
}

fn by_all(session: &mut Session, from: Account, to: Account, amount: u64) -> Result<(), Failed> {
    session.synchronized_all(&[from.object, to.object], |s| {
        withdraw(s, from, amount)?;
        deposit(s, to, amount)
    })
}

fn by_guards(session: &mut Session, from: Account, to: Account, amount: u64) -> Result<(), Failed> {
    let mut outer = session.enter(from.object)?;
    withdraw(&mut outer, from, amount)?;
    let mut inner = outer.enter(to.object)?;
    deposit(&mut inner, to, amount)?;
    inner.exit()?;
    Ok(outer.exit()?)
}

fn values(session: &mut Session) -> [u64; 3] {
    [ALICE, BOB, CAROL].map(|of| session.synchronized(of.object, |s| s.load(of.balance)).unwrap())
}

fn found_again(scratch: &Scratch) -> [u64; 3] {
    values(&mut accounts().open(scratch).unwrap().session().unwrap())
}

// A field that there isn't.
fn fail(s: &mut Held<'_>) -> Result<(), Error> {
    s.load(Field(99)).map(|_| ())
}

#[test]
fn a_transfer_that_fails_in_the_middle_changes_nothing() {
    for transfer in [by_works, by_all, by_guards] {
        let scratch = Scratch::new("half");
        let heap = accounts().open(&scratch).unwrap();
        let mut session = heap.session().unwrap();
        let failed = transfer(&mut session, ALICE, NOBODY, 10).unwrap_err();
        assert_eq!(failed.refusal(), Some(Refusal::UnknownObject));
        assert!(matches!(transfer(&mut session, ALICE, BOB, 91), Err(Failed::TooLittle)));
        // Both sections have ended, as such that have stored nothing, and their monitors are free.
        assert_eq!(session.sections(), 2);
        assert_eq!(values(&mut session), [90, 110, 0]);
        session.durable().unwrap();
        transfer(&mut heap.session().unwrap(), ALICE, BOB, 10).unwrap();
        session.durable().unwrap();
        heap.stop().unwrap();
        drop((session, heap));
        assert_eq!(found_again(&scratch), [80, 120, 0]);
    }
}

fn is_reverted<T>(answer: Result<T, Error>) -> bool {
    answer.is_err_and(|error| error.kind() == ErrorKind::Reverted)
}

// By what an inner part takes its section back: a work's error or panic, a guard that is dropped, and one that has only loaded.
fn fails(outer: &mut Held<'_>) {
    assert!(outer.synchronized(BOB.object, fail).is_err());
}

fn panics(outer: &mut Held<'_>) {
    let work = AssertUnwindSafe(|| outer.synchronized(BOB.object, |_| -> Result<(), Error> { resume_unwind(Box::new("of this test")) }));
    assert!(catch_unwind(work).is_err());
}

fn drops(outer: &mut Held<'_>) {
    outer.enter(BOB.object).unwrap().store(BOB.balance, 3).unwrap();
}

fn looks(outer: &mut Held<'_>) {
    assert_eq!(outer.enter(BOB.object).unwrap().load(BOB.balance).unwrap(), 110);
}

#[test]
fn a_section_that_was_taken_back_stores_nothing_more() {
    let scratch = Scratch::new("swallowed");
    let heap = accounts().open(&scratch).unwrap();
    let mut session = heap.session().unwrap();
    for take_back in [fails, panics, drops, looks] {
        // Half of a change would be kept, where an outer work could go on after the other half was taken back.
        let swallows = |outer: &mut Held<'_>| {
            outer.store(ALICE.balance, 1)?;
            take_back(outer);
            assert_eq!(outer.load(ALICE.balance)?, 90);
            assert!(is_reverted(outer.store(ALICE.balance, 2)));
            assert!(is_reverted(outer.take(SLOTS)) && is_reverted(outer.give(SLOTS, 0)));
            assert!(is_reverted(outer.wait(ALICE.object)));
            assert!(is_reverted(outer.synchronized(CAROL.object, |inner| inner.store(CAROL.balance, 5))));
            assert!(is_reverted(outer.synchronized(CAROL.object, |inner| inner.load(CAROL.balance))));
            assert!(is_reverted(outer.enter(CAROL.object)?.exit()));
            outer.revert()?;
            assert!(is_reverted(outer.store(ALICE.balance, 2)));
            Ok(())
        };
        let before = session.sections();
        assert!(is_reverted(session.synchronized(ALICE.object, swallows)));
        let mut guard = session.try_enter(ALICE.object).unwrap().unwrap();
        swallows(&mut guard).unwrap();
        assert!(is_reverted(guard.exit()));
        assert_eq!(session.sections(), before + 2);
        // The next section is as any other.
        session.synchronized(CAROL.object, |s| s.store(CAROL.balance, before)).unwrap();
        assert_eq!(values(&mut session), [90, 110, before]);
    }
    let last = values(&mut session);
    drop((session, heap));
    assert_eq!(found_again(&scratch), last);
}

#[test]
fn a_revert_of_a_guard_takes_back_what_was_stored_and_the_section_goes_on() {
    let scratch = Scratch::new("guard");
    let heap = accounts().open(&scratch).unwrap();
    let mut session = heap.session().unwrap();
    let mut outer = session.enter(ALICE.object).unwrap();
    outer.store(ALICE.balance, 1).unwrap();
    let mut inner = outer.enter(BOB.object).unwrap();
    inner.store(BOB.balance, 2).unwrap();
    inner.revert().unwrap();
    assert_eq!((inner.load(ALICE.balance).unwrap(), inner.load(BOB.balance).unwrap()), (90, 110));
    // What is stored from then on stays, unless it is taken back again.
    inner.store(BOB.balance, 3).unwrap();
    inner.revert().unwrap();
    inner.revert().unwrap();
    inner.store(ALICE.balance, 4).unwrap();
    inner.exit().unwrap();
    outer.exit().unwrap();
    assert_eq!(session.sections(), 1);
    assert_eq!(values(&mut session), [4, 110, 0]);
}

#[test]
fn the_error_of_another_heap_takes_a_section_back_too() {
    let (scratch, other) = (Scratch::new("one"), Scratch::new("another"));
    let heap = accounts().open(&scratch).unwrap();
    let closed = accounts().open(&other).unwrap();
    let (mut session, mut elsewhere) = (heap.session().unwrap(), closed.session().unwrap());
    closed.close().unwrap();
    let failed = session.synchronized(ALICE.object, |s| {
        s.store(ALICE.balance, 1)?;
        elsewhere.synchronized(ALICE.object, |s| s.store(ALICE.balance, 1))
    });
    let error = failed.unwrap_err();
    assert_eq!((error.kind(), error.path()), (ErrorKind::Closed, other.as_ref()));
    assert_eq!(values(&mut session), [90, 110, 0]);
}

// The ways in which a section fails.
type Fails = fn(&mut Session, &dyn Fn(&mut Held<'_>) -> Result<(), Error>);

fn by_an_error(session: &mut Session, work: &dyn Fn(&mut Held<'_>) -> Result<(), Error>) {
    let failed = session.synchronized(ALICE.object, |s| {
        work(s)?;
        fail(s)
    });
    assert_eq!(failed.unwrap_err().refusal(), Some(Refusal::UnknownField));
}

fn by_a_panic(session: &mut Session, work: &dyn Fn(&mut Held<'_>) -> Result<(), Error>) {
    let worked = catch_unwind(AssertUnwindSafe(|| {
        session.synchronized(ALICE.object, |s| -> Result<(), Error> {
            work(s)?;
            resume_unwind(Box::new("of this test"))
        })
    }));
    assert_eq!(worked.unwrap_err().downcast_ref::<&str>(), Some(&"of this test"));
}

fn by_a_guard(session: &mut Session, work: &dyn Fn(&mut Held<'_>) -> Result<(), Error>) {
    work(&mut session.enter(ALICE.object).unwrap()).unwrap();
}

const WAYS: [Fails; 3] = [by_an_error, by_a_panic, by_a_guard];

// A section of that work stops the heap, and the next opening drops it.
fn stops(name: &str, options: &Options, work: &dyn Fn(&mut Held<'_>) -> Result<(), Error>) {
    for way in WAYS {
        let scratch = Scratch::new(name);
        let heap = options.clone().open(&scratch).unwrap();
        let (mut session, mut other) = (heap.session().unwrap(), heap.session().unwrap());
        other.synchronized(CAROL.object, |s| s.store(CAROL.balance, 7)).unwrap();
        way(&mut session, work);
        let error = other.enter(ALICE.object).unwrap_err();
        assert_eq!(error.kind(), ErrorKind::Abandoned);
        assert_eq!(session.durable().unwrap_err().kind(), ErrorKind::Abandoned);
        drop((session, other, heap));
        assert_eq!(found_again(&scratch), [90, 110, 7]);
    }
}

#[test]
fn a_section_that_has_freed_a_monitor_under_which_it_had_stored_stops_the_heap() {
    stops("stops", &accounts(), &|s| {
        s.store(ALICE.balance, 1)?;
        s.synchronized(BOB.object, |s| s.store(BOB.balance, 2))?;
        let refused = s.revert().unwrap_err();
        assert_eq!((refused.kind(), refused.refusal()), (ErrorKind::Refused, Some(Refusal::NotReverted)));
        Ok(())
    });
    // Half of it is no half where nothing was stored under that monitor.
    let scratch = Scratch::new("read");
    let heap = accounts().open(&scratch).unwrap();
    let mut session = heap.session().unwrap();
    for way in WAYS {
        way(&mut session, &|s| {
            s.store(ALICE.balance, 1)?;
            s.synchronized(BOB.object, |s| s.load(BOB.balance).map(|_| ()))
        });
        assert_eq!(values(&mut session), [90, 110, 0]);
    }
}

#[test]
fn without_reverts_a_section_that_fails_stops_the_heap_once_it_has_stored() {
    let options = accounts().reverts(false);
    stops("without-stores", &options, &|s| {
        s.store(ALICE.balance, 1)?;
        let refused = s.revert().unwrap_err();
        assert_eq!((refused.kind(), refused.refusal()), (ErrorKind::Refused, Some(Refusal::NotReverted)));
        Ok(())
    });
    stops("without-passing", &options, &|s| s.store(PASSING, 1));
    stops("without-slot", &options, &|s| s.take(SLOTS).map(|_| ()));
    // One that has only loaded ends as any other.
    let scratch = Scratch::new("without");
    let heap = options.open(&scratch).unwrap();
    let mut session = heap.session().unwrap();
    for way in WAYS {
        way(&mut session, &|s| s.load(ALICE.balance).and_then(|_| s.revert()));
        by_all(&mut session, ALICE, BOB, 10).unwrap();
    }
    assert_eq!(values(&mut session), [60, 140, 0]);
}

// Lets the work wait on the first object, and notifies it. The work may stop the heap just then.
fn while_waiting(heap: &Heap, work: impl FnOnce(&mut Session) + Send) {
    let (mut waiter, mut other) = (heap.session().unwrap(), heap.session().unwrap());
    std::thread::scope(|scope| {
        let thread = scope.spawn(move || work(&mut waiter));
        while !thread.is_finished() && matches!(other.synchronized(ALICE.object, |s| s.notify(ALICE.object)), Ok(None)) {
            std::thread::yield_now();
        }
        thread.join().unwrap();
    });
}

#[test]
fn what_was_stored_before_a_wait_stays() {
    for way in WAYS {
        let scratch = Scratch::new("wait");
        let heap = accounts().open(&scratch).unwrap();
        // The wait ends a section, and what is stored after it is taken back.
        while_waiting(&heap, |session| {
            way(session, &|s| {
                s.store(ALICE.balance, 1)?;
                s.wait(ALICE.object)?;
                s.store(ALICE.balance, 2)
            });
        });
        assert_eq!(values(&mut heap.session().unwrap()), [1, 110, 0]);
        // The wait is inside of a section, and frees what that has stored under: the heap stops.
        while_waiting(&heap, |session| {
            let waited = session.synchronized(BOB.object, |outer| {
                outer.synchronized(ALICE.object, |s| {
                    s.store(ALICE.balance, 4)?;
                    s.wait(ALICE.object)
                })?;
                fail(outer)
            });
            assert_eq!(waited.unwrap_err().kind(), ErrorKind::Refused);
        });
        assert_eq!(heap.session().unwrap_err().kind(), ErrorKind::Abandoned);
        drop(heap);
        assert_eq!(found_again(&scratch), [1, 110, 0]);
    }
}

// Makes a section when it is dropped.
struct AtEnd<'session>(&'session mut Session, fn(&mut Session));

impl Drop for AtEnd<'_> {
    fn drop(&mut self) {
        let _ = catch_unwind(AssertUnwindSafe(|| self.1(self.0)));
    }
}

#[test]
fn a_section_that_is_made_while_a_panic_unwinds_is_as_any_other() {
    let scratch = Scratch::new("unwinds");
    let heap = accounts().open(&scratch).unwrap();
    let mut session = heap.session().unwrap();
    let works: [fn(&mut Session); 4] = [
        |session| by_guards(session, ALICE, BOB, 10).unwrap(),
        |session| by_works(session, ALICE, BOB, 10).unwrap(),
        // In the middle of which a second panic comes.
        |session| {
            let mut guard = session.enter(ALICE.object).unwrap();
            guard.store(ALICE.balance, 1).unwrap();
            resume_unwind(Box::new("of this test"))
        },
        |session| by_a_panic(session, &|s| s.store(ALICE.balance, 1)),
    ];
    for work in works {
        let unwound = catch_unwind(AssertUnwindSafe(|| {
            let _end = AtEnd(&mut session, work);
            resume_unwind(Box::new("of this test"))
        }));
        assert!(unwound.map(|never: ()| never).is_err());
    }
    assert_eq!(values(&mut session), [70, 130, 0]);
    session.durable().unwrap();
    heap.close().unwrap();
    drop(heap);
    assert_eq!(found_again(&scratch), [70, 130, 0]);
}

#[test]
fn all_monitors_are_taken_in_one_order_each_once() {
    let scratch = Scratch::new("all");
    let heap = Heap::options().lanes(2).objects(20).fields(20, Object(0), 0).open(&scratch).unwrap();
    let (mut session, mut other) = (heap.session().unwrap(), heap.session().unwrap());
    let locks = |session: &mut Session, object| session.look(Object(object)).unwrap().locks;
    session
        .synchronized_all(&[5, 1, 3, 1, 5].map(Object), |_| {
            assert_eq!([0, 1, 2, 3, 4, 5].map(|object| locks(&mut other, object)), [0, 1, 0, 1, 0, 1]);
            Ok::<_, Error>(())
        })
        .unwrap();
    // One that can't be taken leaves none, and the work isn't done.
    let mut never = |objects: Vec<u32>| {
        let objects: Vec<_> = objects.into_iter().map(Object).collect();
        session.synchronized_all(&objects, |_| -> Result<(), Error> { panic!() }).unwrap_err().refusal()
    };
    assert_eq!(never(vec![]), Some(Refusal::BadArgument));
    assert_eq!(never(vec![2, 20, 4]), Some(Refusal::UnknownObject));
    assert_eq!(never((0..17).collect()), Some(Refusal::TooMany));
    assert!((0..20).all(|object| locks(&mut other, object) == 0));
    // Whichever is named first, no two threads wait for each other.
    std::thread::scope(|scope| {
        for (mut session, objects) in [(session, [4, 0]), (other, [0, 4])] {
            scope.spawn(move || {
                for _ in 0..1_000 {
                    session.synchronized_all(&objects.map(Object), |s| s.load(Field(0)).and_then(|count| s.store(Field(0), count + 1))).unwrap();
                }
            });
        }
    });
    assert_eq!(heap.session().unwrap().synchronized(Object(0), |s| s.load(Field(0))).unwrap(), 2_000);
}
