//! System calls that fail or hang: the library's syncs and writes come here, and each new thread.
use std::ffi::{c_char, c_void};
use std::sync::atomic::{AtomicBool, Ordering::SeqCst};
use std::sync::{Mutex, MutexGuard, PoisonError};

pub static SYNCS_FAIL: AtomicBool = AtomicBool::new(false);
pub static SYNCS_HANG: AtomicBool = AtomicBool::new(false);
pub static WRITES_FAIL: AtomicBool = AtomicBool::new(false);
pub static THREADS_FAIL: AtomicBool = AtomicBool::new(false);

/// A call that fails is the process's: so one test at a time runs.
pub fn alone() -> MutexGuard<'static, ()> {
    static ALONE: Mutex<()> = Mutex::new(());
    ALONE.lock().unwrap_or_else(PoisonError::into_inner)
}

extern "C" {
    fn fsync(file: i32) -> i32;
    fn pwritev(file: i32, parts: *const Part, count: i32, at: i64) -> isize;
    fn __errno_location() -> *mut i32;
    fn dlsym(after: *mut c_void, name: *const c_char) -> *mut c_void;
}

#[repr(C)]
struct Part {
    bytes: *const c_void,
    size: usize,
}

fn fail(error: i32) -> i32 {
    // SAFETY: the number is this thread's own.
    unsafe { *__errno_location() = error };
    -1
}

// In the place of the system's. Where it works it is the stronger one, which nothing here replaces.
#[no_mangle]
extern "C" fn fdatasync(file: i32) -> i32 {
    const EIO: i32 = 5;
    while SYNCS_HANG.load(SeqCst) {
        std::thread::sleep(std::time::Duration::from_millis(1));
    }
    if SYNCS_FAIL.load(SeqCst) {
        return fail(EIO);
    }
    // SAFETY: the call has no pointers.
    unsafe { fsync(file) }
}

#[no_mangle]
extern "C" fn pwrite(file: i32, bytes: *const c_void, size: usize, at: i64) -> isize {
    const ENOSPC: i32 = 28;
    if WRITES_FAIL.load(SeqCst) {
        return fail(ENOSPC) as isize;
    }
    // SAFETY: the bytes are the caller's for this call.
    unsafe { pwritev(file, &Part { bytes, size }, 1, at) }
}

#[no_mangle]
extern "C" fn pthread_create(thread: *mut c_void, how: *const c_void, work: *const c_void, own: *mut c_void) -> i32 {
    const EAGAIN: i32 = 11;
    const NEXT: isize = -1;
    if THREADS_FAIL.load(SeqCst) {
        return EAGAIN;
    }
    type Create = extern "C" fn(*mut c_void, *const c_void, *const c_void, *mut c_void) -> i32;
    // SAFETY: the system's function of this name has this type.
    let create: Create = unsafe { std::mem::transmute(dlsym(NEXT as *mut c_void, c"pthread_create".as_ptr())) };
    create(thread, how, work, own)
}
