//! Fresh memory: pages that no one has touched, so that the first store to each pays for it; and warm memory, which has
//! been in use before. At some megabytes the difference outweighs all else, so that every time says which it is.

use std::ffi::c_void;

unsafe extern "C" {
    fn mmap(at: *mut c_void, length: usize, access: i32, flags: i32, file: i32, offset: i64) -> *mut c_void;
    fn munmap(at: *mut c_void, length: usize) -> i32;
    // Of the GNU C library, whose allocator Rust's vectors use here.
    fn mallopt(parameter: i32, value: i32) -> i32;
    fn malloc_trim(keep: usize) -> i32;
}

/// Zeroed pages straight from the system.
pub struct Fresh {
    at: *mut c_void,
    count: usize,
}

impl Fresh {
    pub fn new(count: usize) -> Fresh {
        const READ_WRITE: i32 = 1 | 2;
        const PRIVATE_ANONYMOUS: i32 = 0x02 | 0x20;
        // SAFETY: a new mapping of nothing in particular overlaps no memory in use.
        let at = unsafe { mmap(std::ptr::null_mut(), count, READ_WRITE, PRIVATE_ANONYMOUS, -1, 0) };
        assert!(at as isize != -1, "there is no room for {count} bytes");
        Fresh { at, count }
    }

    pub fn bytes(&mut self) -> &mut [u8] {
        // SAFETY: the mapping holds `count` bytes to read and write, and self is borrowed for as long as the slice.
        unsafe { std::slice::from_raw_parts_mut(self.at.cast(), self.count) }
    }
}

impl Drop for Fresh {
    fn drop(&mut self) {
        // SAFETY: this very mapping was made in `new`, and no slice of it outlives self.
        unsafe { munmap(self.at, self.count) };
    }
}

const TRIM_THRESHOLD: i32 = -1;
const MMAP_THRESHOLD: i32 = -3;
const MMAP_MAX: i32 = -4;

/// From here on the allocator hands out untouched pages for whatever is large, and has given back what it had.
pub fn allocate_fresh() {
    // SAFETY: these set numbers of the allocator and give back free memory; nothing in use is touched.
    unsafe {
        mallopt(MMAP_MAX, 65_536);
        mallopt(MMAP_THRESHOLD, 128 * 1024);
        mallopt(TRIM_THRESHOLD, 128 * 1024);
        malloc_trim(0);
    }
}

/// From here on the allocator keeps all that is given back to it, and hands it out again.
pub fn allocate_warm() {
    // SAFETY: as above. -1 as a threshold is the largest number there is.
    unsafe {
        mallopt(MMAP_MAX, 0);
        mallopt(TRIM_THRESHOLD, -1);
    }
}
