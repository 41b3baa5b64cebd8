//! What an opening takes and reports, and what its errors say, in Rust's types.
use common::Scratch;
use std::error::Error as _;
use std::io;
use std::time::Duration;
use zelamiku::{Cause, Difference, Error, ErrorKind, Field, Heap, NewField, Object, Options, Part, Pool, Refusal, Why};

mod common;

fn accounts() -> Options {
    Heap::options().lanes(2).objects(2).field(Field(0), Object(0), 100).field(Field(1), Object(1), 200)
}

fn system(error: &Error) -> Option<io::ErrorKind> {
    error.source()?.downcast_ref::<io::Error>().map(io::Error::kind)
}

// By what the heap of the file differs.
fn difference(options: Options, scratch: &Scratch) -> Difference {
    let error = options.open(scratch).unwrap_err();
    assert_eq!(error.kind(), ErrorKind::OtherHeap, "{error}");
    error.difference().unwrap()
}

#[test]
fn a_heap_that_has_to_be_there_isnt_made() {
    let scratch = Scratch::new("existing");
    let error = accounts().existing().open(&scratch).unwrap_err();
    assert_eq!((error.kind(), system(&error)), (ErrorKind::NoHeap, Some(io::ErrorKind::NotFound)));
    assert!(!scratch.as_ref().exists());
    std::fs::write(&scratch, b"notes").unwrap();
    let error = accounts().existing().open(&scratch).unwrap_err();
    assert_eq!((error.kind(), system(&error)), (ErrorKind::NotAHeap, None), "{error}");
    std::fs::remove_file(&scratch).unwrap();
    accounts().open(&scratch).unwrap().close().unwrap();
    assert!(accounts().existing().open(&scratch).unwrap().report().is_some());
    // One that was cut is no free file.
    let bytes = std::fs::read(&scratch).unwrap();
    std::fs::write(&scratch, &bytes[..5_000]).unwrap();
    assert_eq!(accounts().open(&scratch).unwrap_err().kind(), ErrorKind::DamagedFile);
}

#[test]
fn a_heap_has_eight_lanes_of_a_rings_records_unless_it_is_told_otherwise() {
    let scratch = Scratch::new("defaults");
    let options = Heap::options().objects(1).field(Field(0), Object(0), 7);
    assert_eq!(options.clone().open(&scratch).unwrap().lanes(), 8);
    let heap = options.open(&scratch).unwrap();
    let report = heap.report().unwrap();
    assert_eq!((report.lanes, report.capacity, report.objects, report.fields), (8, 16_384, 1, 1));
    assert_eq!(report.bytes, std::fs::metadata(&scratch).unwrap().len());
}

// And two where that wasn't asked for when it was made.
#[test]
fn a_heap_that_is_made_on_atomic_sectors_takes_one_sync_a_round() {
    let (scratch, plain) = (Scratch::new("atomic"), Scratch::new("plain"));
    for (path, is_asked, one) in [(&scratch, true, 1), (&scratch, false, 1), (&plain, false, 0), (&plain, true, 0)] {
        let heap = accounts().linger(Duration::from_secs(3_600)).atomic_sectors(is_asked).open(path).unwrap();
        let mut session = heap.session().unwrap();
        common::count(&mut session, 0);
        session.durable().unwrap();
        let stats = heap.stats().unwrap();
        assert_eq!((stats.rounds, stats.one_sync_rounds, stats.two_sync_rounds), (1, one, 1 - one), "{stats:?}");
    }
}

#[test]
fn a_section_that_nobody_waits_for_is_durable_after_the_linger() {
    let scratch = Scratch::new("linger");
    let heap = accounts().linger(Duration::from_secs(3_600)).open(&scratch).unwrap();
    let mut session = heap.session().unwrap();
    common::count(&mut session, 0);
    std::thread::sleep(Duration::from_millis(300));
    assert!(!session.is_durable(1));
    drop((session, heap));
    // No time at all is the least that the library knows.
    let heap = accounts().linger(Duration::ZERO).open(&scratch).unwrap();
    let mut session = heap.session().unwrap();
    common::count(&mut session, 0);
    common::until("it is durable", || session.is_durable(1));
    assert_eq!(heap.stats().unwrap().last_cause, Cause::Linger);
}

#[test]
fn a_heap_whose_file_was_removed_says_so() {
    let scratch = Scratch::new("astray");
    let heap = accounts().open(&scratch).unwrap();
    let mut session = heap.session().unwrap();
    common::count(&mut session, 0);
    session.durable().unwrap();
    assert!(!heap.stats().unwrap().is_astray);
    std::fs::remove_file(&scratch).unwrap();
    common::until("the helper has seen it", || {
        common::count(&mut session, 0);
        heap.stats().unwrap().is_astray
    });
}

#[test]
fn names_in_another_order_are_another_heap() {
    let scratch = Scratch::new("names");
    accounts().names(&["alice", "bob"]).open(&scratch).unwrap().close().unwrap();
    for names in [&["bob", "alice"][..], &["alicebob"], &["alice", "bob", ""], &["alice"], &["alice", "Bob"], &[]] {
        assert_eq!(difference(accounts().names(names), &scratch).part, Part::Fingerprint, "{names:?}");
    }
    // By the number that any FNV-1a gives; it is no field of the program's.
    let heap = accounts().fingerprint(0xe79b_2629_bc40_13b3).open(&scratch).unwrap();
    assert_eq!(heap.report().unwrap().fields, 2);
    drop(heap);
    std::fs::remove_file(&scratch).unwrap();
    // The hash's own test vectors, of one name.
    for (name, hash) in [("", 0xcbf2_9ce4_8422_2325), ("a", 0xaf63_dc4c_8601_ec8c), ("foobar", 0x8594_4171_f739_67e8)] {
        accounts().names(&[name]).open(&scratch).unwrap().close().unwrap();
        accounts().fingerprint(hash).open(&scratch).unwrap().close().unwrap();
        std::fs::remove_file(&scratch).unwrap();
    }
}

#[test]
fn the_first_difference_is_told() {
    let scratch = Scratch::new("difference");
    accounts().open(&scratch).unwrap().close().unwrap();
    let two = || Heap::options().lanes(2).objects(2).field(Field(0), Object(0), 0);
    let guarded = NewField { owner: Object(1), guard: Object(0), first: 0, is_transient: false };
    let differences = [
        (accounts().lanes(4), Part::Lanes, 3, 4),
        (accounts().objects(3), Part::Objects, 2, 3),
        (accounts().field(Field(2), Object(0), 0), Part::Fields, 2, 3),
        (two().field(Field(1), Object(0), 0), Part::Owner(Field(1)), 1, 0),
        (two().guarded(guarded), Part::Guard(Field(1)), 1, 0),
        (two().transient(Field(1), Object(1), 0), Part::Transient(Field(1)), 0, 1),
    ];
    for (options, part, has, planned) in differences {
        assert_eq!(difference(options, &scratch), Difference { part, has, planned });
    }
    std::fs::remove_file(&scratch).unwrap();
    accounts().fingerprint(7).open(&scratch).unwrap().close().unwrap();
    assert_eq!(difference(accounts().fingerprint(8), &scratch), Difference { part: Part::Fingerprint, has: 7, planned: 8 });
}

#[test]
fn options_of_which_no_heap_can_be_made_are_refused() {
    let scratch = Scratch::new("refused");
    let pool = |head, slots| Heap::options().objects(1).pool(Pool::new(Field(head), slots), Object(0));
    let refused = [
        (accounts().lanes(33), Some(Refusal::BadArgument)),
        (accounts().capacity(1_999), Some(Refusal::BadArgument)),
        (accounts().ring(4_095), Some(Refusal::BadArgument)),
        (Heap::options().objects(1).field(Field(1), Object(0), 0), None),
        (pool(1, 4), None),
        (pool(0, 0), Some(Refusal::BadArgument)),
        (pool(0, 16_384), Some(Refusal::TooMany)),
    ];
    for (options, refusal) in refused {
        let error = options.open(&scratch).unwrap_err();
        assert_eq!((error.kind(), error.refusal()), (ErrorKind::Opening, refusal), "{error}");
        assert!(!scratch.as_ref().exists());
    }
}

// What each error says: the path, what was called, why, and what to do; by Rust's names.
#[test]
fn an_error_says_what_was_called_and_the_cure() {
    let scratch = Scratch::new("texts");
    let path = scratch.as_ref().display();
    let heap = accounts().open(&scratch).unwrap();
    let mut session = heap.session().unwrap();
    let says = |error: Error, text: &str| {
        assert_eq!(error.to_string(), format!("{path}: {text}"));
        assert_eq!(format!("{error:?}"), format!("{:?} ({error})", error.kind()));
    };
    says(session.enter(Object(7)).unwrap_err(), "enter object 7: there is no such object; objects are numbered from 0");
    says(
        session.synchronized(Object(0), |s| s.load(Field(1))).unwrap_err(),
        "load field 1: the thread doesn't hold the monitor; enter the object, or the field's guard, first",
    );
    let error = session.enter(Object(7)).unwrap_err();
    assert_eq!(error.source().and_then(|it| it.downcast_ref()), Some(&Refusal::UnknownObject));
    let error = accounts().open(&scratch).unwrap_err();
    assert_eq!(error.kind(), ErrorKind::Busy);
    says(error, "open: this process has its heap open already; use that one's handle, or close it before");
    heap.stop().unwrap();
    says(session.enter(Object(0)).unwrap_err(), "enter: the heap was closed or stopped; open it again");
    says(accounts().lanes(33).open(&scratch).unwrap_err(), "open: lanes is 33 in the plan; it may be 1 to 32");
    says(
        Heap::options().objects(1).field(Field(1), Object(0), 0).open(&scratch).unwrap_err(),
        "open: field 1 was declared where field 0 comes next",
    );
}

#[test]
fn what_debug_prints_says_which_one_it_is() {
    let scratch = Scratch::new("debug");
    let options = Heap::options().lanes(1).objects(1).transient(Field(0), Object(0), 7);
    let fields = "[Field { owner: 0, guard: 0, first: 7, is_transient: 1 }]";
    assert_eq!(format!("{options:?}"), format!("Options {{ lanes: 1, objects: 1, fields: {fields}, .. }}"));
    let heap = options.open(&scratch).unwrap();
    assert_eq!(format!("{heap:?}"), format!("Heap {{ path: {:?}, lanes: 1, .. }}", scratch.as_ref()));
    let mut session = heap.session().unwrap();
    assert_eq!(format!("{:?}", session.enter(Object(0)).unwrap()), "Held { object: Object(0), .. }");
    assert_eq!(format!("{session:?}"), "Session { lane: 0, sections: 1, .. }");
    assert_eq!(format!("{:?}", session.durable_async()), "Durable { lane: 0, sections: 1, .. }");
}

// Where the two controls begin in an image, by their gates, and the last byte of their version behind each.
const CONTROLS: [usize; 2] = [64, 1112];
const VERSION_BYTE: usize = 19;

#[test]
fn an_old_heap_is_upgraded_in_place_where_that_is_asked_for() {
    let scratch = Scratch::new("old");
    accounts().open(&scratch).unwrap().close().unwrap();
    let mut bytes = std::fs::read(&scratch).unwrap();
    for control in CONTROLS.into_iter().filter(|control| bytes[*control] == 0xa5).collect::<Vec<_>>() {
        bytes[control + VERSION_BYTE] = 1;
    }
    std::fs::write(&scratch, &bytes).unwrap();
    let error = accounts().open(&scratch).unwrap_err();
    assert_eq!((error.kind(), error.refusal()), (ErrorKind::Opening, Some(Refusal::OldVersion)));
    for options in [accounts().upgrades(true), accounts()] {
        options.open(&scratch).unwrap().close().unwrap();
    }
}

#[test]
fn the_report_tells_which_sections_were_dropped_and_why() {
    let scratch = Scratch::new("dropped");
    let heap = accounts().linger(Duration::from_secs(3_600)).open(&scratch).unwrap();
    // A lane's earlier session, whose section stays.
    let mut earlier = heap.session().unwrap();
    earlier.synchronized(Object(0), |s| s.store(Field(0), 1)).unwrap();
    earlier.durable().unwrap();
    drop(earlier);
    let (mut first, mut second) = (heap.session().unwrap(), heap.session().unwrap());
    assert_eq!((first.lane(), first.earlier(), first.sections()), (0, 1, 0));
    // The first frees object 0, holds 1 on, and the second has seen what it stored.
    let mut outer = first.enter(Object(1)).unwrap();
    outer.synchronized(Object(0), |s| s.store(Field(0), 7)).unwrap();
    second.synchronized(Object(0), |s| s.store(Field(0), 8)).unwrap();
    heap.stop().unwrap();
    drop(outer);
    let (own, other) = (first.earlier() + first.sections() + 1, second.sections());
    drop((first, second, heap));
    let heap = accounts().open(&scratch).unwrap();
    let report = heap.report().unwrap();
    let dropped: Vec<_> = report.dropped.iter().map(|it| (it.lane, it.section, it.why)).collect();
    assert_eq!(dropped, [(0, own, Why::NotEnded), (1, other, Why::Depended { lane: 0, section: own })]);
    assert_eq!(report.kept, [1, 0]);
    assert_eq!(common::value(&mut heap.session().unwrap(), 0), 1);
}
