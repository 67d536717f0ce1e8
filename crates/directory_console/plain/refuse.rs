//! A library that is loaded before a program and refuses it one allocation, or one thread: the one whose number, from 1, the variable
//! REFUSE has, or REFUSE_THREAD. So `tools/refuse-memory` and `tools/refuse-tests` find out what the program makes of it. Where there was
//! no allocation of that number, it says so on standard error as the program ends.
use std::ffi::{c_char, c_int, c_void};
use std::ptr::null_mut;
use std::sync::atomic::{AtomicI32, AtomicPtr, Ordering::Relaxed};

unsafe extern "C" {
    fn dlsym(library: *mut c_void, name: *const c_char) -> *mut c_void;
    fn getenv(name: *const c_char) -> *const c_char;
    fn atoi(text: *const c_char) -> c_int;
    fn write(descriptor: c_int, text: *const u8, length: usize) -> isize;
}

/// Looks a name up in the libraries behind this one.
const NEXT: *mut c_void = usize::MAX as *mut c_void;

/// How many allocations there are until the refused one; 0 behind it, and where none is refused.
static LEFT: AtomicI32 = AtomicI32::new(0);

/// The same for threads.
static THREADS_LEFT: AtomicI32 = AtomicI32::new(0);

/// What a call answers for which the system lacks something.
const EAGAIN: c_int = 11;

static MALLOC: AtomicPtr<c_void> = AtomicPtr::new(null_mut());
static REALLOC: AtomicPtr<c_void> = AtomicPtr::new(null_mut());
static PTHREAD_CREATE: AtomicPtr<c_void> = AtomicPtr::new(null_mut());

/// Before the program begins: what the system's own functions are, and which allocation or thread is refused.
extern "C" fn begin() {
    unsafe {
        MALLOC.store(dlsym(NEXT, c"malloc".as_ptr()), Relaxed);
        REALLOC.store(dlsym(NEXT, c"realloc".as_ptr()), Relaxed);
        PTHREAD_CREATE.store(dlsym(NEXT, c"pthread_create".as_ptr()), Relaxed);
        LEFT.store(number_in(c"REFUSE".as_ptr()), Relaxed);
        THREADS_LEFT.store(number_in(c"REFUSE_THREAD".as_ptr()), Relaxed);
    }
}

/// The number that a variable has; 0 where it isn't set.
unsafe fn number_in(variable: *const c_char) -> c_int {
    let number = unsafe { getenv(variable) };
    if number.is_null() { 0 } else { unsafe { atoi(number) } }
}

#[used]
#[unsafe(link_section = ".init_array")]
static BEGIN: extern "C" fn() = begin;

/// As the program ends: whether it had fewer allocations than that.
extern "C" fn end() {
    const NONE: &[u8] = b"nothing was refused\n";
    if LEFT.load(Relaxed) > 0 {
        unsafe { write(2, NONE.as_ptr(), NONE.len()) };
    }
}

#[used]
#[unsafe(link_section = ".fini_array")]
static END: extern "C" fn() = end;

/// Counts one of those: whether it is the refused one.
fn is_refused(those_left: &AtomicI32) -> bool {
    let left = those_left.load(Relaxed);
    those_left.store((left - 1).max(0), Relaxed);
    left == 1
}

#[unsafe(no_mangle)]
unsafe extern "C" fn malloc(size: usize) -> *mut c_void {
    if is_refused(&LEFT) {
        return null_mut();
    }
    if MALLOC.load(Relaxed).is_null() {
        MALLOC.store(unsafe { dlsym(NEXT, c"malloc".as_ptr()) }, Relaxed);
    }
    let allocate: extern "C" fn(usize) -> *mut c_void = unsafe { std::mem::transmute(MALLOC.load(Relaxed)) };
    allocate(size)
}

#[unsafe(no_mangle)]
unsafe extern "C" fn realloc(block: *mut c_void, size: usize) -> *mut c_void {
    if is_refused(&LEFT) {
        return null_mut();
    }
    if REALLOC.load(Relaxed).is_null() {
        REALLOC.store(unsafe { dlsym(NEXT, c"realloc".as_ptr()) }, Relaxed);
    }
    let allocate: extern "C" fn(*mut c_void, usize) -> *mut c_void = unsafe { std::mem::transmute(REALLOC.load(Relaxed)) };
    allocate(block, size)
}

#[unsafe(no_mangle)]
unsafe extern "C" fn pthread_create(thread: *mut c_void, how: *const c_void, start: *mut c_void, argument: *mut c_void) -> c_int {
    if is_refused(&THREADS_LEFT) {
        return EAGAIN;
    }
    let create: extern "C" fn(*mut c_void, *const c_void, *mut c_void, *mut c_void) -> c_int =
        unsafe { std::mem::transmute(PTHREAD_CREATE.load(Relaxed)) };
    create(thread, how, start, argument)
}
