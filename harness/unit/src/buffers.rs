//! The lengths of the lent buffers, for a function of n instructions, s local slots and l lines.

use crate::entries::{Entry, Line};
use crate::result::{Retained, RESULT_HEADER_LEN};
use std::ops::RangeInclusive;

/// The numbers of instructions that are worked on: "unchanged: n under 2, above 65,536, or defer".
pub const WORKED_ON: RangeInclusive<u32> = 2..=65_536;

/// Dead stores are skipped "when w × blocks exceeds 2,097,152".
pub const MAX_LIVENESS_WORDS: u64 = 2_097_152;

/// "w = local slots / 64 rounded up"
pub fn liveness_words(s: u64) -> u64 {
    s.div_ceil(64)
}

/// "Output buffer: 16 + 28n bytes"; document 02, L3: "Output room grows by 8 bytes and 8 per entry".
pub fn output(n: u64, l: u64) -> u64 {
    RESULT_HEADER_LEN as u64 + Retained::LEN as u64 * n + Line::LEN as u64 * l
}

/// "Work: 16n + 16 numbers of 32 bits"
pub fn work32(n: u64) -> u64 {
    16 * n + 16
}

/// "and of 64 bits 24n + 4s + w + 3 × w × the lesser of n and 2,097,152 / w rounded down (the last two
/// terms absent for w = 0)"
pub fn work64(n: u64, s: u64) -> u64 {
    let w = liveness_words(s);
    let liveness = match MAX_LIVENESS_WORDS.checked_div(w) {
        Some(blocks) => w + 3 * w * n.min(blocks),
        None => 0,
    };
    24 * n + 4 * s + liveness
}

/// The lengths of the buffers of one call, in elements. The last two are the cleaning's: "2 × (16 + 28n) spare
/// bytes", and with L3 twice as much more.
#[derive(Clone, Copy, Debug, Default, Eq, PartialEq)]
pub struct Lengths {
    pub out: usize,
    pub work32: usize,
    pub work64: usize,
    pub first: usize,
    pub second: usize,
}

impl Lengths {
    pub fn stated(n: u32, s: u32, l: u32) -> Self {
        let [n, s, l] = [n, s, l].map(u64::from);
        let [out, work32, work64] = [output(n, l), work32(n), work64(n, s)].map(|length| length as usize);
        Self { out, work32, work64, first: out, second: out }
    }

    /// One pass is lent no spare memory.
    pub fn of_one_pass(self) -> Self {
        Self { first: 0, second: 0, ..self }
    }

    /// Whether no buffer is "shorter than stated".
    pub fn suffice(&self, stated: &Self) -> bool {
        self.lengths().into_iter().zip(stated.lengths()).all(|(lent, asked)| lent >= asked)
    }

    pub fn lengths(&self) -> [usize; 5] {
        [self.out, self.work32, self.work64, self.first, self.second]
    }
}

impl From<[usize; 5]> for Lengths {
    fn from([out, work32, work64, first, second]: [usize; 5]) -> Self {
        Self { out, work32, work64, first, second }
    }
}
