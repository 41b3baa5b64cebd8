//! Limits and numbers stand in the library, in its headers and in this crate: that they are the same. `tools/statuses` compares the statuses.
use std::fs;

// The number that follows this in one of the files.
fn number(files: &[&str], start: &str) -> u64 {
    let read = |file: &&str| fs::read_to_string(format!("{}/{file}", env!("CARGO_MANIFEST_DIR"))).unwrap_or_else(|error| panic!("{file}: {error}"));
    let text: String = files.iter().map(read).collect();
    let rest = text.split_once(start).unwrap_or_else(|| panic!("{start} isn't in {files:?}")).1;
    // Of Rust the type stands before it.
    let rest = rest.split_once(" = ").filter(|(kind, _)| kind.len() < 8 && !kind.contains(' ')).map_or(rest, |(_, value)| value);
    if rest.starts_with("u32::MAX") {
        return u32::MAX.into();
    }
    let digits: String = rest.chars().filter(|c| *c != '_').take_while(char::is_ascii_digit).collect();
    digits.parse().unwrap_or_else(|_| panic!("{start} {}", &rest[..20]))
}

fn header(name: &str) -> u64 {
    number(&["../c/zelamiku.h", "../c/zelamiku_core.h"], &format!("#define ZELAMIKU_{name} "))
}

#[test]
fn the_header_has_the_limits_and_numbers_of_the_library_and_of_this_crate() {
    let numbers = [
        ("MOST_LANES", "crates/heap_model/src/limits.rt", "LANES"),
        ("MOST_OBJECTS", "crates/heap_model/src/limits.rt", "MOST_OBJECTS"),
        ("MOST_FIELDS", "crates/heap_model/src/limits.rt", "MOST_FIELDS"),
        ("LEAST_CAPACITY", "crates/heap_model/src/limits.rt", "LEAST_CAPACITY"),
        ("MOST_CAPACITY", "crates/heap_model/src/limits.rt", "MOST_CAPACITY"),
        ("LEAST_RING", "crates/heap_model/src/limits.rt", "RING_RECORDS"),
        ("MOST_RING", "crates/thread_rings/src/ring_records.rt", "MOST_RING_RECORDS"),
        ("MOST_RECORDS", "crates/heap_model/src/limits.rt", "SECTION_RECORDS"),
        ("MOST_HELD", "crates/session/src/limits.rt", "MOST_HELD"),
        ("MOST_LOCKS", "crates/thread_steps/src/limits.rt", "FAT_LOCKS"),
        ("MOST_THIN_LOCKS", "crates/thread_steps/src/limits.rt", "THIN_LOCKS"),
        ("MOST_FAT", "crates/lock_word/src/lock_word.rt", "FAT_SLOTS"),
        ("MOST_BYTES", "crates/disk_deferred/src/call.rt", "MOST_BYTES"),
        ("HEAD_BYTES", "crates/image_parts/src/layout.rt", "HEAD_BYTES"),
        ("MOST_SLOTS", "crates/pool/src/pool.rt", "MOST_SLOTS"),
        ("MOST_SLOTS", "bindings/rust/src/pool.rs", "MOST_SLOTS"),
        ("NO_NUMBER", "crates/zelamiku/src/pool_calls.rt", "NO_SLOT"),
        ("NO_NUMBER", "bindings/rust/src/raw.rs", "NO_NUMBER"),
        ("NOBODY", "crates/zelamiku/src/session_calls.rt", "NOBODY"),
        ("NOBODY", "bindings/rust/src/raw.rs", "NOBODY"),
        ("VERSION_NUMBER", "crates/zelamiku/src/version.rt", "VERSION"),
    ];
    for (name, path, constant) in numbers {
        let path = format!("../../{path}");
        assert_eq!(header(name), number(&[&path], &format!("const {constant}: ")), "{name} {path}");
    }
    // And the library that is linked, and this crate, are this header's.
    assert_eq!(u64::from(zelamiku::library_version()), header("VERSION_NUMBER"));
    assert!(fs::read_to_string("../c/zelamiku.h").unwrap().contains(concat!("ZELAMIKU_VERSION \"", env!("CARGO_PKG_VERSION"), '"')));
}
