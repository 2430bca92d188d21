//! Memory between two pages that may not be touched, so that an access outside faults.

use std::ffi::c_void;
use std::mem::size_of;
use std::{io, ptr, slice};

// As Linux on x86-64 has them, where the archive is for.
const PAGE: usize = 4_096;
const PROT_NONE: i32 = 0;
const PROT_READ_WRITE: i32 = 1 | 2;
const MAP_PRIVATE_ANONYMOUS: i32 = 0x02 | 0x20;

extern "C" {
    fn mmap(
        at: *mut c_void,
        length: usize,
        protection: i32,
        flags: i32,
        file: i32,
        offset: i64,
    ) -> *mut c_void;
    fn mprotect(at: *mut c_void, length: usize, protection: i32) -> i32;
    fn munmap(at: *mut c_void, length: usize) -> i32;
}

pub struct Arena {
    mapped: *mut u8,
    pages: usize,
}

// SAFETY: the mapping is its own, and is lent by it alone.
unsafe impl Send for Arena {}

impl Arena {
    pub fn new(pages: usize) -> Self {
        let length = (pages + 2) * PAGE;
        // SAFETY: a new mapping at an address of the system's choice; its inner pages are opened.
        let mapped = unsafe { mmap(ptr::null_mut(), length, PROT_NONE, MAP_PRIVATE_ANONYMOUS, -1, 0) };
        assert!(mapped as isize != -1, "mmap: {}", io::Error::last_os_error());
        let mapped = mapped.cast::<u8>();
        let opened = unsafe { mprotect(mapped.add(PAGE).cast(), pages * PAGE, PROT_READ_WRITE) };
        assert!(opened == 0, "mprotect: {}", io::Error::last_os_error());
        Self { mapped, pages }
    }

    /// How many elements there is room for.
    pub fn room<T>(&self) -> usize {
        self.pages * PAGE / size_of::<T>()
    }

    /// A buffer that ends where the last page does, or starts where the first does. T is a number.
    pub fn lend<T: Copy>(&mut self, len: usize, at_end: bool) -> &mut [T] {
        assert!(len <= self.room::<T>());
        let offset = if at_end { self.pages * PAGE - len * size_of::<T>() } else { 0 };
        // SAFETY: it lies within the opened pages and is aligned, and every bit pattern is a number.
        unsafe { slice::from_raw_parts_mut(self.mapped.add(PAGE + offset).cast(), len) }
    }
}

impl Drop for Arena {
    fn drop(&mut self) {
        // SAFETY: nothing is lent any more.
        unsafe { munmap(self.mapped.cast(), (self.pages + 2) * PAGE) };
    }
}
