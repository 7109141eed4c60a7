//! Memory that is lent: whole pages between two pages that must not be touched. A buffer lies flush against the one or the other, so that a
//! step out of it on that side ends the program; the bytes on its other side are known, and compared after each call.

use std::ffi::{c_char, c_int, c_void};
use std::ptr;

const PAGE: usize = 4096;
const NONE: c_int = 0;
const READ: c_int = 1;
const WRITE: c_int = 2;
const SHARED: c_int = 1;
const PRIVATE: c_int = 2;
const FIXED: c_int = 16;
const ANONYMOUS: c_int = 32;

unsafe extern "C" {
    fn mmap(at: *mut c_void, len: usize, protection: c_int, flags: c_int, file: c_int, offset: i64) -> *mut c_void;
    fn mprotect(at: *mut c_void, len: usize, protection: c_int) -> c_int;
    fn memfd_create(name: *const c_char, flags: u32) -> c_int;
    fn ftruncate(file: c_int, len: i64) -> c_int;
}

fn map(at: *mut u8, len: usize, protection: c_int, flags: c_int, file: c_int) -> *mut u8 {
    let got = unsafe { mmap(at.cast(), len, protection, flags, file, 0) };
    assert!(got as isize != -1, "no memory to map");
    got.cast()
}

/// Which page that must not be touched a buffer lies against.
#[derive(Clone, Copy, Debug, PartialEq)]
pub enum Side {
    End,
    Start,
}

pub struct Region {
    /// the pages as they are lent
    lent: *mut u8,
    /// the same memory, writable from here
    own: *mut u8,
    size: usize,
    /// what the memory held before the call
    image: Vec<u8>,
}

impl Region {
    /// Pages to write into.
    pub fn writable(pages: usize) -> Region {
        let size = pages * PAGE;
        let all = map(ptr::null_mut(), size + 2 * PAGE, NONE, PRIVATE | ANONYMOUS, -1);
        let lent = all.wrapping_add(PAGE);
        assert_eq!(unsafe { mprotect(lent.cast(), size, READ | WRITE) }, 0);
        Region::filled(lent, lent, size)
    }

    /// Pages that can only be read where they are lent: the same memory is mapped a second time to be filled.
    pub fn readable(pages: usize) -> Region {
        let size = pages * PAGE;
        let file = unsafe { memfd_create(c"lent".as_ptr(), 0) };
        assert_eq!(unsafe { ftruncate(file, size as i64) }, 0);
        let own = map(ptr::null_mut(), size, READ | WRITE, SHARED, file);
        let all = map(ptr::null_mut(), size + 2 * PAGE, NONE, PRIVATE | ANONYMOUS, -1);
        let lent = map(all.wrapping_add(PAGE), size, READ, SHARED | FIXED, file);
        Region::filled(lent, own, size)
    }

    fn filled(lent: *mut u8, own: *mut u8, size: usize) -> Region {
        let image: Vec<u8> = (0..size).map(|k| (k * 167 % 251) as u8 ^ 0x5a).collect();
        unsafe { ptr::copy_nonoverlapping(image.as_ptr(), own, size) };
        Region { lent, own, size, image }
    }

    fn now(&self) -> &[u8] {
        unsafe { std::slice::from_raw_parts(self.own, self.size) }
    }

    fn start(&self, len: usize, side: Side) -> usize {
        if side == Side::End { self.size - len } else { 0 }
    }

    /// A buffer with this content; its address.
    pub fn lend(&mut self, content: &[u8], side: Side) -> *mut u8 {
        let at = self.start(content.len(), side);
        self.image[at..at + content.len()].copy_from_slice(content);
        unsafe { ptr::copy_nonoverlapping(content.as_ptr(), self.own.add(at), content.len()) };
        self.lent.wrapping_add(at)
    }

    /// Whether all is as it was but the first `reach` bytes of the buffer of `len` bytes.
    pub fn kept(&self, len: usize, reach: usize, side: Side) -> bool {
        let at = self.start(len, side);
        self.now()[..at] == self.image[..at] && self.now()[at + reach..] == self.image[at + reach..]
    }

    /// The buffer after the call.
    pub fn content(&self, len: usize, side: Side) -> &[u8] {
        let at = self.start(len, side);
        &self.now()[at..at + len]
    }

    /// Puts back what was before the call.
    pub fn restore(&mut self, len: usize, side: Side) {
        let at = self.start(len, side);
        unsafe { ptr::copy_nonoverlapping(self.image.as_ptr().add(at), self.own.add(at), len) };
    }
}

/// A place for one buffer: one page where it fits, for the comparison's sake, else many.
pub struct Shelf {
    small: Region,
    large: Region,
}

pub const LARGE: usize = 17;

impl Shelf {
    pub fn new(make: fn(usize) -> Region) -> Shelf {
        Shelf { small: make(1), large: make(LARGE) }
    }

    pub fn region(&mut self, len: usize) -> &mut Region {
        if len <= PAGE { &mut self.small } else { &mut self.large }
    }
}
