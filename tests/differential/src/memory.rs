//! Memory straight from the system: zeros that need not exist, and bytes beside pages that cannot be touched.

use std::ffi::c_void;

unsafe extern "C" {
    fn mmap(at: *mut c_void, length: usize, access: i32, flags: i32, file: i32, offset: i64) -> *mut c_void;
    fn mprotect(at: *mut c_void, length: usize, access: i32) -> i32;
    fn munmap(at: *mut c_void, length: usize) -> i32;
}

// As Linux on x86-64 has them.
const NOTHING: i32 = 0;
const READ: i32 = 1;
const READ_WRITE: i32 = 1 | 2;
const PRIVATE_ANONYMOUS: i32 = 0x02 | 0x20;
const NO_RESERVE: i32 = 0x4000;
const PAGE: usize = 4096;

/// Zeros that take an address each and, until they are read, no memory.
pub struct Zeros {
    at: *mut c_void,
    count: usize,
}

impl Zeros {
    pub fn new(count: usize) -> Zeros {
        // SAFETY: a new mapping of nothing in particular overlaps no memory in use.
        let at = unsafe { mmap(std::ptr::null_mut(), count, READ, PRIVATE_ANONYMOUS | NO_RESERVE, -1, 0) };
        assert!(at as isize != -1, "there is no room for {count} addresses");
        Zeros { at, count }
    }

    pub fn slice(&self) -> &[u8] {
        // SAFETY: the mapping holds `count` readable bytes, is never written, and lives as long as self.
        unsafe { std::slice::from_raw_parts(self.at.cast(), self.count) }
    }
}

impl Drop for Zeros {
    fn drop(&mut self) {
        // SAFETY: this very mapping was made in `new`, and no slice of it outlives self.
        unsafe { munmap(self.at, self.count) };
    }
}

/// On which side of the bytes the forbidden page lies hard by.
#[derive(Clone, Copy)]
pub enum Side {
    Before,
    Behind,
}

/// Bytes between two pages that cannot be touched, hard by one of them.
pub struct Fenced {
    at: *mut c_void,
    mapped: usize,
    from: usize,
    count: usize,
}

impl Fenced {
    pub fn new(bytes: &[u8], side: Side) -> Fenced {
        let inner = bytes.len().next_multiple_of(PAGE);
        let mapped = inner + 2 * PAGE;
        // SAFETY: a new mapping of nothing in particular overlaps no memory in use; then the pages between its first and
        // its last, which no one has seen yet, are opened.
        let at = unsafe {
            let at = mmap(std::ptr::null_mut(), mapped, NOTHING, PRIVATE_ANONYMOUS, -1, 0);
            assert!(at as isize != -1, "there is no room for {mapped} bytes");
            assert!(inner == 0 || mprotect(at.byte_add(PAGE), inner, READ_WRITE) == 0, "the pages do not open");
            at
        };
        let from = match side {
            Side::Before => PAGE,
            Side::Behind => PAGE + inner - bytes.len(),
        };
        let mut fenced = Fenced { at, mapped, from, count: bytes.len() };
        fenced.bytes().copy_from_slice(bytes);
        fenced
    }

    pub fn slice(&self) -> &[u8] {
        // SAFETY: these bytes lie in the open pages and live as long as self.
        unsafe { std::slice::from_raw_parts(self.at.byte_add(self.from).cast(), self.count) }
    }

    pub fn bytes(&mut self) -> &mut [u8] {
        // SAFETY: as above, and self is borrowed for as long as the slice.
        unsafe { std::slice::from_raw_parts_mut(self.at.byte_add(self.from).cast(), self.count) }
    }

    /// A list of lengths that was put here as its bytes.
    pub fn lengths(&self) -> &[u32] {
        assert!(self.from.is_multiple_of(4) && self.count.is_multiple_of(4), "these are not the bytes of a list");
        // SAFETY: as for `slice`; the bytes begin at a multiple of four and are whole entries.
        unsafe { std::slice::from_raw_parts(self.at.byte_add(self.from).cast(), self.count / 4) }
    }
}

impl Drop for Fenced {
    fn drop(&mut self) {
        // SAFETY: this very mapping was made in `new`, and no slice of it outlives self.
        unsafe { munmap(self.at, self.mapped) };
    }
}
