//! A library that is loaded before a program and comes between it and its standard input and output: a read or a write moves as many
//! bytes as the variable MOST says at most (any number without it), and one call fails: the read whose number, from 1, READ has, and
//! the write whose number WRITE has. So `tools/break-streams` finds out what the program makes of it.
use std::ffi::{c_char, c_int, c_long, c_void};
use std::sync::atomic::{AtomicUsize, Ordering::Relaxed};

unsafe extern "C" {
    fn syscall(number: c_long, ...) -> c_long;
    fn getenv(name: *const c_char) -> *const c_char;
    fn atoi(text: *const c_char) -> c_int;
    fn __errno_location() -> *mut c_int;
}

const INPUT: c_int = 0;
const OUTPUT: c_int = 1;
const READ: c_long = 0;
const WRITE: c_long = 1;
const INPUT_OUTPUT_ERROR: c_int = 5;

/// How many bytes a call moves at most.
static MOST: AtomicUsize = AtomicUsize::new(usize::MAX);

/// How many reads and writes there are until the one that fails; 0 behind it, and where none fails.
static READS: AtomicUsize = AtomicUsize::new(0);
static WRITES: AtomicUsize = AtomicUsize::new(0);

fn variable(name: &std::ffi::CStr, absent: usize) -> usize {
    let text = unsafe { getenv(name.as_ptr()) };
    if text.is_null() { absent } else { unsafe { atoi(text) as usize } }
}

extern "C" fn begin() {
    MOST.store(variable(c"MOST", usize::MAX), Relaxed);
    READS.store(variable(c"READ", 0), Relaxed);
    WRITES.store(variable(c"WRITE", 0), Relaxed);
}

#[used]
#[unsafe(link_section = ".init_array")]
static BEGIN: extern "C" fn() = begin;

/// Counts a call: whether it is the one that fails.
fn fails(calls: &AtomicUsize) -> bool {
    let left = calls.load(Relaxed);
    calls.store(left.saturating_sub(1), Relaxed);
    left == 1
}

unsafe fn failed() -> isize {
    unsafe { *__errno_location() = INPUT_OUTPUT_ERROR };
    -1
}

#[unsafe(no_mangle)]
unsafe extern "C" fn read(file: c_int, bytes: *mut c_void, count: usize) -> isize {
    if file != INPUT {
        return unsafe { syscall(READ, file, bytes, count) as isize };
    }
    if fails(&READS) {
        return unsafe { failed() };
    }
    unsafe { syscall(READ, file, bytes, count.min(MOST.load(Relaxed))) as isize }
}

#[unsafe(no_mangle)]
unsafe extern "C" fn write(file: c_int, bytes: *const c_void, count: usize) -> isize {
    if file != OUTPUT {
        return unsafe { syscall(WRITE, file, bytes, count) as isize };
    }
    if fails(&WRITES) {
        return unsafe { failed() };
    }
    unsafe { syscall(WRITE, file, bytes, count.min(MOST.load(Relaxed))) as isize }
}
