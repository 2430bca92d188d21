//! The proved library for Rust hosts.
//!
//! A [`Workspace`] has the memory that the library is lent. It grows as units ask for it, so that a host keeps
//! one for each thread and cleans unit after unit with it.
//!
//! ```no_run
//! # fn main() -> std::io::Result<()> {
//! let unit = std::fs::read("law.unit")?;
//! let mut workspace = lampruda::Workspace::default();
//! match workspace.clean(&unit).answer {
//!     lampruda::Answer::Unchanged => println!("unchanged"),
//!     lampruda::Answer::Refused { number, place } => println!("refused {number} at {place}"),
//!     lampruda::Answer::Rewritten(result) => std::fs::write("law.result", result)?,
//! }
//! # Ok(())
//! # }
//! ```
//!
//! A result is laid out as a unit again by [`as_unit`]; [`run`] and [`step`] run a unit at the desk, and
//! [`charge`] says what such a run costs.

mod again;
mod desk;
mod fate;
mod flow;
mod lengths;
mod lent;
mod operand;
mod passes;
mod short;
pub mod sys;

pub use again::{as_unit, lay_out};
pub use desk::{charge, charge_in_numbers, run, run_in_numbers, step, Charged, Next, Stop, PRICES};
pub use fate::{fates, Fate};
pub use lengths::needed;
pub use lent::Lent;
pub use operand::{operand, Operand};
pub use passes::{cleaned_fates, Pass};
pub use short::{short_number, short_unit, SHORT_COUNT};

use unit::Lengths;

/// The answer of one pass.
#[derive(Clone, Copy, Debug, Eq, PartialEq)]
pub enum Answer<'a> {
    /// The function given is the result.
    Unchanged,
    Refused {
        number: u32,
        place: u32,
    },
    /// The output's first 24 + 28n' + 8l' bytes.
    Rewritten(&'a [u8]),
}

impl<'a> Answer<'a> {
    /// What the library returned, with the output that it was lent.
    pub fn new(returned: sys::Answer, out: &'a [u8]) -> Self {
        let sys::Answer { kind, number, place } = returned;
        match kind {
            sys::UNCHANGED => Self::Unchanged,
            sys::REFUSED => Self::Refused { number, place },
            sys::REWRITTEN => Self::Rewritten(&out[..unit::Rewritten::len_at(out)]),
            _ => unreachable!("the library returns kinds 0 to 2"),
        }
    }
}

impl From<Answer<'_>> for unit::Answer {
    fn from(answer: Answer) -> Self {
        match answer {
            Answer::Unchanged => Self::Unchanged,
            Answer::Refused { number, place } => Self::Refused { number, place },
            Answer::Rewritten(bytes) => Self::Rewritten { bytes: bytes.to_vec() },
        }
    }
}

/// The answer of the cleaning.
#[derive(Clone, Copy, Debug, Eq, PartialEq)]
pub struct Cleaned<'a> {
    pub answer: Answer<'a>,
    /// The number of the last pass run, 1 where none ran.
    pub passes: u32,
}

/// The memory that the library is lent.
#[derive(Default)]
pub struct Workspace {
    out: Vec<u8>,
    work32: Vec<u32>,
    work64: Vec<u64>,
    first: Vec<u8>,
    second: Vec<u8>,
}

impl Workspace {
    /// One pass over a unit; any bytes will do.
    pub fn pass(&mut self, unit: &[u8]) -> Answer<'_> {
        let returned = self.lend(needed(unit).of_one_pass()).pass(unit);
        Answer::new(returned, &self.out)
    }

    /// Up to three passes over a unit; any bytes will do.
    pub fn clean(&mut self, unit: &[u8]) -> Cleaned<'_> {
        let returned = self.lend(needed(unit)).clean(unit);
        Cleaned { answer: Answer::new(returned.answer(), &self.out), passes: returned.passes }
    }

    /// Parts of these lengths. The work buffers are all 0 between calls, as the library leaves them so.
    fn lend(&mut self, lengths: Lengths) -> Lent<'_> {
        Lent {
            out: grown(&mut self.out, lengths.out),
            work32: grown(&mut self.work32, lengths.work32),
            work64: grown(&mut self.work64, lengths.work64),
            first: grown(&mut self.first, lengths.first),
            second: grown(&mut self.second, lengths.second),
        }
    }
}

fn grown<T: Clone + Default>(buffer: &mut Vec<T>, len: usize) -> &mut [T] {
    if buffer.len() < len {
        buffer.resize(len, T::default());
    }
    &mut buffer[..len]
}
