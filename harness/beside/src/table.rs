//! Document 01's table of answers, as far as it speaks of bytes and lengths.

use crate::guarded::Call;
use lampruda::sys;
use unit::{Answer, Lengths, Section, Unit};

/// The answer where the rows up to refusal 4 decide it.
pub fn first_rows(call: Call, bytes: &[u8], lent: Lengths) -> Option<Answer> {
    let Some(unit) = Unit::check(bytes) else {
        return Some(Answer::NO_UNIT);
    };
    let header = unit.header();
    if let Some(refusal) = unit.refusal() {
        Some(refusal)
    } else if !unit.is_worked_on() {
        Some(Answer::Unchanged)
    } else if !lent.suffice(&call.lent(unit.stated_lengths())) {
        Some(Answer::SHORT_BUFFER)
    } else if header.count(Section::Metadata) != header.count(Section::Code) {
        Some(Answer::Refused { number: 3, place: 0 })
    } else if header.count(Section::Types) != header.local_slots {
        Some(Answer::Refused { number: 4, place: 0 })
    } else {
        None
    }
}

/// What the library returns for an answer, and what it writes.
pub fn returned(answer: &Answer) -> (sys::Answer, &[u8]) {
    match answer {
        Answer::Unchanged => (sys::Answer { kind: sys::UNCHANGED, number: 0, place: 0 }, &[]),
        Answer::Refused { number, place } => {
            (sys::Answer { kind: sys::REFUSED, number: *number, place: *place }, &[])
        }
        Answer::Rewritten { bytes } => {
            let number = u32::from_le_bytes(bytes[..4].try_into().unwrap());
            (sys::Answer { kind: sys::REWRITTEN, number, place: 0 }, bytes)
        }
    }
}
