//! Document 01's answers and their text forms.

use crate::entries::Instruction;
use crate::hex;
use crate::refusal::Refusal;
use crate::result::{Retained, Rewritten};
use std::fmt;

/// The answer of one pass.
#[derive(Clone, Debug, Eq, PartialEq)]
pub enum Answer {
    Unchanged,
    Refused {
        number: u32,
        place: u32,
    },
    /// The output's first 24 + 28n' + 8l' bytes.
    Rewritten {
        bytes: Vec<u8>,
    },
}

impl Answer {
    /// "refused 1, place 0: unit not as above"
    pub const NO_UNIT: Self = Self::Refused { number: Refusal::NoUnit as u32, place: 0 };

    /// "refused 2, place 0: a lent buffer shorter than stated"
    pub const SHORT_BUFFER: Self = Self::Refused { number: Refusal::ShortBuffer as u32, place: 0 };

    /// Document 02, L3: "(11, place 0: places not strictly rising or not below n; checked directly after 1.)"
    pub const LINE_PLACES: Self = Self::Refused { number: Refusal::LinePlaces as u32, place: 0 };

    pub fn rewritten(result: &Rewritten) -> Self {
        Self::Rewritten { bytes: result.encode() }
    }

    /// What the listing program prints, "in decimal, the answer and then new place, old place, op, flags, a, b,
    /// c".
    pub fn listing(&self) -> String {
        format!("{}\n{}", self.words(), self.lines())
    }

    /// The answer without its result.
    fn words(&self) -> String {
        match self {
            Self::Rewritten { bytes } => format!("rewritten {}", retained(bytes)),
            answer => answer.to_string(),
        }
    }

    /// A line for each retained instruction.
    fn lines(&self) -> String {
        let Self::Rewritten { bytes } = self else {
            return String::new();
        };
        let result = Rewritten::decode(bytes).expect("a rewritten answer has a result");
        let line = |(place, entry): (usize, &Retained)| {
            let Instruction { op, flags, a, b, c } = entry.instruction;
            format!("{place} {} {op} {flags} {a} {b} {c}\n", entry.old_place)
        };
        result.retained.iter().enumerate().map(line).collect()
    }
}

/// The answer of the cleaning: it "adds the number of the last pass run, 1 where none ran".
#[derive(Clone, Debug, Eq, PartialEq)]
pub struct Cleaned {
    pub answer: Answer,
    pub pass: u32,
}

impl Cleaned {
    /// The listing, with the number of the last pass run at the end of its first line.
    pub fn listing(&self) -> String {
        format!("{} {}\n{}", self.answer.words(), self.pass, self.answer.lines())
    }
}

/// A rewritten answer's n', the first word of its bytes.
fn retained(bytes: &[u8]) -> u32 {
    u32::from_le_bytes(bytes[..4].try_into().unwrap())
}

/// `unchanged`, `refused K P` or `rewritten N HEX`.
impl fmt::Display for Answer {
    fn fmt(&self, f: &mut fmt::Formatter) -> fmt::Result {
        match self {
            Self::Unchanged => write!(f, "unchanged"),
            Self::Refused { number, place } => write!(f, "refused {number} {place}"),
            Self::Rewritten { bytes } => write!(f, "rewritten {} {}", retained(bytes), hex::encode(bytes)),
        }
    }
}

/// `unchanged J`, `refused K P J` or `rewritten N J HEX`.
impl fmt::Display for Cleaned {
    fn fmt(&self, f: &mut fmt::Formatter) -> fmt::Result {
        match &self.answer {
            Answer::Rewritten { bytes } => {
                write!(f, "rewritten {} {} {}", retained(bytes), self.pass, hex::encode(bytes))
            }
            answer => write!(f, "{answer} {}", self.pass),
        }
    }
}
