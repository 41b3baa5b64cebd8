//! The functions of `zelamiku.h`, and calls of them that keep its rules: all that is unsafe is in this file. Handles are numbers, and a call
//! returns a status whatever its arguments are.
use crate::Level;
use std::ffi::{c_char, c_void, CStr, CString};
use std::mem::size_of;
use std::os::unix::ffi::OsStrExt;
use std::panic::{catch_unwind, AssertUnwindSafe};
use std::path::Path;
use std::sync::Arc;

/// The status of a call that was made. `Refusal` names the others.
pub const OK: u32 = 0;
/// What a stopped heap's calls return.
pub const CLOSED: u32 = 39;
pub const ABANDONED: u32 = 42;
/// The owner of a monitor that is free.
pub const NOBODY: u32 = 64;
/// The slot that isn't there.
pub const NO_NUMBER: u32 = u32::MAX;
pub const NO_DEADLINE: u64 = u64::MAX;
pub const ALL_SECTIONS: u64 = u64::MAX;
const MOST_LANES: usize = 32;

/// A heap of this process, by its number.
#[repr(transparent)]
#[derive(Clone, Copy, Debug, Default)]
pub struct HeapNumber(u64);

/// A thread's use of a heap, by its number.
#[repr(transparent)]
#[derive(Clone, Copy, Debug, Default, PartialEq, Eq, PartialOrd, Ord)]
pub struct ThreadNumber(u64);

#[repr(C)]
#[derive(Clone, Copy, Debug, Default)]
pub struct Field {
    pub owner: u32,
    pub guard: u32,
    pub first: u64,
    pub is_transient: u32,
}

/// A thread that sleeps for a monitor.
#[repr(C)]
#[derive(Clone, Copy, Default)]
pub struct Wait {
    pub lane: u32,
    pub object: u32,
    pub owner: u32,
    pub in_circle: u32,
}

#[repr(C)]
#[derive(Clone, Copy, Default)]
pub struct Sight {
    pub owner: u32,
    pub locks: u32,
    pub number: u64,
}

// Structs that a later library may make longer: it reads and writes no more of one than its `size` says.
macro_rules! sized {
    ($($name:ident is $bytes:literal { $($member:ident: $of:ty),* })*) => {
        $(#[repr(C)]
        pub struct $name {
            pub size: u32,
            $(pub $member: $of,)*
        }

        impl Default for $name {
            fn default() -> $name {
                // SAFETY: each member is a number, an array of them, a pointer or an optional function: all may be zeros.
                $name { size: $bytes, ..unsafe { std::mem::zeroed() } }
            }
        }

        const _: () = assert!(size_of::<$name>() == $bytes);)*
    };
}

sized! {
    Plan is 88 {
        objects: u32, fields: *const Field, count: u32, lanes: u32, capacity: u32, ring: u32, linger: u32, upgrades: u32, must_exist: u32,
        reverts: u32, fingerprint: u64, log: Option<extern "C" fn(*mut c_void, u32, *const c_char)>, log_context: *const c_void,
        device: *const c_void, atomic_sectors: u32, reserved: u32
    }
    Report is 352 {
        is_made: u32, is_upgraded: u32, objects: u32, fields: u32, lanes: u32, capacity: u32, damage: u32, bad_lane: u32, difference: u32,
        field: u32, reserved: u32, has: u64, planned: u64, bad_place: u64, bytes: u64, dropped: u64, undone: u64, kept: [u64; MOST_LANES]
    }
    Dropped is 32 { why: u32, lane: u32, other_lane: u32, section: u64, other_section: u64 }
    Stats is 112 { lent: u32, awaiting: u32, entering: u32, last_cause: u32, is_astray: u32, counts: [u64; 11] }
    Progress is 40 { lane: u32, is_open: u32, end: u32, sections: u64, durable: u64, earlier: u64 }
    RawFailure is 56 {
        status: u32, error: i32, object: u32, field: u32, reserved: u32, path: *const c_char, call: *const c_char, cause: *const c_char,
        cure: *const c_char
    }
}

const _: () = assert!(size_of::<Field>() == 24 && size_of::<Wait>() == 16 && size_of::<Sight>() == 16);

// The functions of a handle, and methods that call them.
//
// SAFETY (of each call below): the pointers are those of references, which are borrowed for the call and don't overlap. One call at a time has
// a thread's number, since it takes `&mut`; those that any thread may make take `&`.
macro_rules! calls {
    ($type:ident: $($name:ident(self: $receiver:ty $(, $argument:ident: $of:ty)*) = $function:ident;)*) => {
        extern "C" {
            $(fn $function(handle: $type $(, $argument: $of)*) -> u32;)*
        }

        impl $type {
            $(#[inline]
            pub fn $name(self: $receiver $(, $argument: $of)*) -> u32 {
                unsafe { $function(*self $(, $argument)*) }
            })*
        }
    };
}

calls! {
    HeapNumber:
    close(self: &Self) = zelamiku_heap_close;
    stop(self: &Self, why: u32) = zelamiku_heap_stop;
    stats(self: &Self, stats: &mut Stats) = zelamiku_heap_stats;
    dropped(self: &Self, index: usize, dropped: &mut Dropped) = zelamiku_heap_dropped;
    await_round(self: &Self, seen: u64, deadline: u64, rounds: &mut u64) = zelamiku_heap_await_round;
}

calls! {
    ThreadNumber:
    end(self: &mut Self) = zelamiku_thread_end;
    enter(self: &mut Self, object: u32) = zelamiku_thread_enter;
    enter_until(self: &mut Self, object: u32, deadline: u64) = zelamiku_thread_enter_until;
    exit(self: &mut Self, object: u32) = zelamiku_thread_exit;
    load(self: &mut Self, field: u32, value: &mut u64) = zelamiku_thread_load;
    store(self: &mut Self, field: u32, value: u64) = zelamiku_thread_store;
    wait(self: &mut Self, object: u32) = zelamiku_thread_wait;
    notify(self: &mut Self, object: u32, all: bool, lanes: &mut u64) = zelamiku_thread_notify;
    revert(self: &mut Self) = zelamiku_thread_revert;
    take(self: &mut Self, head: u32, slots: u32, slot: &mut u32) = zelamiku_thread_take;
    give(self: &mut Self, head: u32, slots: u32, slot: u32) = zelamiku_thread_give;
    look(self: &mut Self, object: u32, sight: &mut Sight) = zelamiku_thread_look;
    look_at(self: &Self, progress: &mut Progress) = zelamiku_thread_progress;
    await_until(self: &Self, sections: u64, deadline: u64, is_durable: &mut bool) = zelamiku_thread_await_until;
}

extern "C" {
    fn zelamiku_version() -> u32;
    fn zelamiku_now() -> u64;
    fn zelamiku_pool_fields(object: u32, fields: *mut Field, count: usize) -> u32;
    fn zelamiku_heap_open(heap: *mut HeapNumber, path: *const c_char, plan: &Plan, report: &mut Report) -> u32;
    fn zelamiku_heap_copy(heap: HeapNumber, path: *const c_char) -> u32;
    fn zelamiku_heap_waits(heap: HeapNumber, waits: *mut Wait, count: usize, written: *mut usize) -> u32;
    fn zelamiku_heap_failure(failure: &mut RawFailure) -> *const c_char;
    fn zelamiku_thread_begin(thread: *mut ThreadNumber, heap: HeapNumber) -> u32;
}

// SAFETY (of all that is unsafe from here on, where nothing else is said): the pointers are those of slices, texts and variables that are
// borrowed for the call.
impl HeapNumber {
    pub fn copy(&self, path: &CStr) -> u32 {
        unsafe { zelamiku_heap_copy(*self, path.as_ptr()) }
    }

    pub fn begin(&self, thread: &mut ThreadNumber) -> u32 {
        unsafe { zelamiku_thread_begin(thread, *self) }
    }

    /// The threads that sleep for a monitor.
    pub fn waits(&self, waits: &mut Vec<Wait>) -> u32 {
        waits.resize(MOST_LANES, Wait::default());
        let mut written = 0;
        let status = unsafe { zelamiku_heap_waits(*self, waits.as_mut_ptr(), MOST_LANES, &mut written) };
        waits.truncate(written);
        status
    }
}

impl ThreadNumber {
    /// How far the thread is: nothing of one that isn't known any more.
    pub fn progress(&self) -> Progress {
        let mut progress = Progress::default();
        if self.look_at(&mut progress) == OK { progress } else { Progress { end: CLOSED, ..Progress::default() } }
    }
}

/// A hook of a program's log.
pub type Log = dyn Fn(Level, &str) + Send + Sync;

// A hook that panics has got its line; the panic ends here.
extern "C" fn tell(context: *mut c_void, level: u32, text: *const c_char) {
    // SAFETY: the context is the hook that `open` borrowed, which lives until no call of the heap is made; the text is one for this call.
    let (log, text) = unsafe { (&*context.cast::<Arc<Log>>(), CStr::from_ptr(text)) };
    let _ = catch_unwind(AssertUnwindSafe(|| log(Level::from(level), &text.to_string_lossy())));
}

/// Opens the heap of the file. The hook has to live until the heap is closed, and no thread has a call of it any more.
pub fn open(heap: &mut HeapNumber, path: &CStr, mut plan: Plan, fields: &[Field], log: Option<&Arc<Log>>, report: &mut Report) -> u32 {
    plan.fields = fields.as_ptr();
    plan.count = u32::try_from(fields.len()).unwrap_or(u32::MAX);
    if let Some(log) = log {
        plan.log = Some(tell);
        plan.log_context = (log as *const Arc<Log>).cast();
    }
    unsafe { zelamiku_heap_open(heap, path.as_ptr(), &plan, report) }
}

/// Why this thread's last call that failed did: what was called, the cause, the system's number of it or 0, and the cure.
pub fn failure() -> (String, String, i32, String) {
    let mut raw = RawFailure::default();
    unsafe { zelamiku_heap_failure(&mut raw) };
    // SAFETY: the texts are the thread's until its next call. Of a library that doesn't fill in the struct there are none.
    let text = |text: *const c_char| if text.is_null() { String::new() } else { unsafe { CStr::from_ptr(text) }.to_string_lossy().into_owned() };
    (text(raw.call), text(raw.cause), raw.error, text(raw.cure))
}

/// The fields of a pool, the head's first: one more than it has slots.
pub fn pool_fields(object: u32, fields: &mut [Field]) -> u32 {
    unsafe { zelamiku_pool_fields(object, fields.as_mut_ptr(), fields.len()) }
}

pub fn version() -> u32 {
    unsafe { zelamiku_version() }
}

/// Nanoseconds of the clock of deadlines.
pub fn now() -> u64 {
    unsafe { zelamiku_now() }
}

/// A path as the library takes it; none where it has a zero byte.
pub fn text_of(path: &Path) -> Option<CString> {
    CString::new(path.as_os_str().as_bytes()).ok()
}
