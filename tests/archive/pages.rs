//! Bytes between two pages that nobody may touch: a call that reads or writes past a slice at either end is ended by a signal.

use std::ffi::{c_int, c_long, c_void};

const PAGE: usize = 4_096;
// Of Linux on x86-64.
const NO_ACCESS: c_int = 0;
const READ_WRITE: c_int = 3;
const PRIVATE_ANONYMOUS: c_int = 0x22;

extern "C" {
    fn mmap(at: *mut c_void, length: usize, access: c_int, flags: c_int, file: c_int, offset: c_long) -> *mut c_void;
    fn mprotect(at: *mut c_void, length: usize, access: c_int) -> c_int;
    fn munmap(at: *mut c_void, length: usize) -> c_int;
}

/// Whole pages, and one more before and behind them.
pub struct Pages {
    first: *mut u8,
    bytes: usize,
}

impl Pages {
    /// With room for `most` bytes.
    pub fn new(most: usize) -> Pages {
        let bytes = most.div_ceil(PAGE) * PAGE;
        // SAFETY: a mapping of its own, of which the pages between the first and the last become ours to write.
        unsafe {
            let all = mmap(std::ptr::null_mut(), bytes + 2 * PAGE, NO_ACCESS, PRIVATE_ANONYMOUS, -1, 0).cast::<u8>();
            assert!(all as isize != -1, "memory is mapped");
            let first = all.add(PAGE);
            assert_eq!(mprotect(first.cast(), bytes, READ_WRITE), 0, "pages are opened");
            Pages { first, bytes }
        }
    }

    pub fn slice(&mut self) -> &mut [u8] {
        // SAFETY: the open pages, which are borrowed as long as the slice is.
        unsafe { std::slice::from_raw_parts_mut(self.first, self.bytes) }
    }

    /// The last bytes before the page behind.
    pub fn at_end(&mut self, length: usize) -> &mut [u8] {
        let from = self.bytes - length;
        &mut self.slice()[from..]
    }

    /// The first bytes behind the page before.
    pub fn at_start(&mut self, length: usize) -> &mut [u8] {
        &mut self.slice()[..length]
    }

    /// Reads a byte before the pages, or behind them: this ends the program.
    pub fn touch(&self, behind: bool) -> u8 {
        let place = if behind { self.first.wrapping_add(self.bytes) } else { self.first.wrapping_sub(1) };
        // SAFETY: none; the byte is mapped, and its page is closed.
        unsafe { place.read_volatile() }
    }
}

impl Drop for Pages {
    fn drop(&mut self) {
        // SAFETY: the mapping of `new`.
        unsafe { munmap(self.first.sub(PAGE).cast(), self.bytes + 2 * PAGE) };
    }
}
