//! The lent buffers, and the calls.

use crate::sys;

/// The buffers of one call, of any lengths and contents.
pub struct Lent<'a> {
    pub out: &'a mut [u8],
    pub work32: &'a mut [u32],
    pub work64: &'a mut [u64],
    /// The cleaning's spare memory.
    pub first: &'a mut [u8],
    pub second: &'a mut [u8],
}

impl Lent<'_> {
    /// One pass; the spare memory is not lent.
    pub fn pass(&mut self, unit: &[u8]) -> sys::Answer {
        // SAFETY: each pointer and length is that of a slice, and no two of the slices overlap. The library
        // reads the unit, reads and writes the others, and touches nothing else.
        unsafe {
            sys::lampruda_pass(
                unit.as_ptr(),
                unit.len(),
                self.out.as_mut_ptr(),
                self.out.len(),
                self.work32.as_mut_ptr(),
                self.work32.len(),
                self.work64.as_mut_ptr(),
                self.work64.len(),
            )
        }
    }

    /// Up to three passes.
    pub fn clean(&mut self, unit: &[u8]) -> sys::Cleaned {
        // SAFETY: as above.
        unsafe {
            sys::lampruda_clean(
                unit.as_ptr(),
                unit.len(),
                self.out.as_mut_ptr(),
                self.out.len(),
                self.work32.as_mut_ptr(),
                self.work32.len(),
                self.work64.as_mut_ptr(),
                self.work64.len(),
                self.first.as_mut_ptr(),
                self.first.len(),
                self.second.as_mut_ptr(),
                self.second.len(),
            )
        }
    }
}
