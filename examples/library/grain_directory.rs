//! Safe Rust over `libgrain_directory.a`: what `grain_directory.h` asks of its caller is met here, so that a caller of `Silo` owes
//! nothing but a C library whose `malloc`, `realloc` and `free` belong together, and stack.

use std::ffi::c_void;
use std::marker::PhantomData;
use std::ptr::{NonNull, null, null_mut};

/// `grain_directory_text` of the header.
#[repr(C)]
struct Text {
    bytes: *const u8,
    length: usize,
}

unsafe extern "C" {
    fn grain_directory_open(
        address: *const u8,
        address_length: usize,
        hashing: u32,
        points: usize,
        cache: usize,
        silo: *mut *mut c_void,
    ) -> u32;
    fn grain_directory_open_with_token(
        address: *const u8,
        address_length: usize,
        token: *const u8,
        token_length: usize,
        hashing: u32,
        points: usize,
        cache: usize,
        silo: *mut *mut c_void,
    ) -> u32;
    fn grain_directory_line(silo: *mut c_void, line: *const u8, length: usize, answer: *mut Text) -> u32;
    fn grain_directory_close(silo: *mut c_void);
}

/// How grains and points are hashed.
#[derive(Clone, Copy)]
pub enum Hashing {
    Sha256 = 0,
    Stated = 1,
}

/// Why a silo isn't opened.
#[derive(Clone, Copy, Debug, PartialEq, Eq)]
pub enum OpenError {
    OutOfMemory,
    NotASilo,
    NotAToken,
    OutOfRange,
}

/// What becomes of a silo by a line.
#[derive(Clone, Copy, Debug, PartialEq, Eq)]
pub enum State {
    /// It has answered, and goes on.
    GoesOn,
    /// It has answered, and is dead by the line.
    Dead,
    /// It answered no more before, and doesn't answer this line.
    Ended,
    /// Memory ran out: it doesn't answer this line, nor any other.
    OutOfMemory,
}

/// A silo that is open. It is closed where it is dropped.
pub struct Silo {
    handle: NonNull<c_void>,
    // The handle owns its silo.
    owns: PhantomData<Box<u8>>,
}

// SAFETY: the header lets a handle go from thread to thread; `&mut self` orders the calls.
unsafe impl Send for Silo {}

impl Silo {
    /// Opens the silo of an address, with so many points, 1 to 128, and a cache of so many hints, 0 to 65536. With a token, 1 to 64 visible
    /// ASCII bytes, it joins by the line that carries this token, and by no other.
    pub fn open(
        address: &str,
        token: Option<&str>,
        hashing: Hashing,
        points: usize,
        cache: usize,
    ) -> Result<Silo, OpenError> {
        let (name, length) = (address.as_ptr(), address.len());
        let (hashing, mut silo) = (hashing as u32, null_mut());
        // SAFETY: a slice's pointer isn't null, and `silo` is a place that has a value.
        let status = match token {
            None => unsafe { grain_directory_open(name, length, hashing, points, cache, &raw mut silo) },
            Some(token) => unsafe {
                let (bytes, count) = (token.as_ptr(), token.len());
                grain_directory_open_with_token(name, length, bytes, count, hashing, points, cache, &raw mut silo)
            },
        };
        match (status, NonNull::new(silo)) {
            (0, Some(handle)) => Ok(Silo { handle, owns: PhantomData }),
            (3, _) => Err(OpenError::OutOfMemory),
            (4, _) => Err(OpenError::NotASilo),
            (7, _) => Err(OpenError::NotAToken),
            _ => Err(OpenError::OutOfRange),
        }
    }

    /// Answers a line, given without its line feed: what becomes of the silo, and the lines that are answered, which are the silo's
    /// and stay until it is asked again.
    pub fn line(&mut self, line: &[u8]) -> (State, &[u8]) {
        let mut answer = Text { bytes: null(), length: 0 };
        // SAFETY: the handle is open. A slice's pointer isn't null, and nobody writes its bytes. It doesn't lie in the last answer,
        // which is lent from `self`, and so gone by this call.
        let status = unsafe { grain_directory_line(self.handle.as_ptr(), line.as_ptr(), line.len(), &raw mut answer) };
        let state = match status {
            0 => State::GoesOn,
            1 => State::Dead,
            2 => State::Ended,
            _ => State::OutOfMemory,
        };
        // SAFETY: the bytes may be read until the next call with this handle, which takes `&mut self`.
        (state, unsafe { std::slice::from_raw_parts(answer.bytes, answer.length) })
    }
}

impl Drop for Silo {
    fn drop(&mut self) {
        // SAFETY: the handle is open, and nobody has it after this.
        unsafe { grain_directory_close(self.handle.as_ptr()) }
    }
}
