//! All short functions, each by its number.

use crate::sys;

/// How many there are.
pub const SHORT_COUNT: u32 = 346_176;

/// More bytes than the longest has.
const ROOM: usize = 256;

/// The unit of a short function's number; `None` past the last.
///
/// ```no_run
/// let unit = lampruda::short_unit(0).unwrap();
/// assert_eq!(lampruda::short_number(&unit), Some(0));
/// ```
pub fn short_unit(number: u32) -> Option<Vec<u8>> {
    let mut out = vec![0; ROOM];
    // The buffer is lent for the call alone.
    let made = unsafe { sys::lampruda_short_unit(number, out.as_mut_ptr(), out.len()) };
    match made.kind {
        sys::SHORT_UNIT => out.truncate(made.number as usize),
        sys::SHORT_PAST => return None,
        _ => unreachable!("there is room for the longest"),
    }
    Some(out)
}

/// The number of a short function's unit; `None` for all other bytes.
pub fn short_number(unit: &[u8]) -> Option<u32> {
    // The bytes are read alone.
    let found = unsafe { sys::lampruda_short_number(unit.as_ptr(), unit.len()) };
    (found.kind == sys::SHORT_NUMBER).then_some(found.number)
}
