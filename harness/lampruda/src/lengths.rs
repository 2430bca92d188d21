//! The lengths that bytes ask for.

use unit::buffers::WORKED_ON;
use unit::{Entry, Header, Lengths, Section, HEADER_LEN, MAX_LOCAL_SLOTS};

/// What these bytes need: nothing where their answer depends on no buffer, because they are no unit by their
/// header, have more lines than places, or are not worked on. So a damaged header asks for no more memory than the largest function.
pub fn needed(unit: &[u8]) -> Lengths {
    let Some(bytes) = unit.get(..HEADER_LEN) else {
        return Lengths::default();
    };
    let header = Header::read(bytes);
    let n = header.count(Section::Code);
    let l = header.count(Section::Lines);
    let code_fits = (unit.len() - HEADER_LEN) / Section::Code.entry_len() >= n as usize;
    let worked_on = WORKED_ON.contains(&n) && header.defer == 0;
    if code_fits && l <= n && worked_on && header.local_slots <= MAX_LOCAL_SLOTS {
        Lengths::stated(n, header.local_slots, l)
    } else {
        Lengths::default()
    }
}
