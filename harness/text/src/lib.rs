//! Units as text, one line for each instruction; [`FORMAT`] says how it is written.
//!
//! Every unit has a text, and assembling that text gives the unit back, byte for byte. A [`Tariff`] is read from a text
//! of such words too.

mod assemble;
mod disassemble;
mod names;
mod number;
mod opcode;
mod tariff;
mod word;

pub use assemble::assemble;
pub use disassemble::{disassemble, Lines};
pub use names::{distance, is_loop_hint, op, target, TYPES};
pub use number::grouped;
pub use opcode::{Opcode, BINARY, UNARY};
pub use tariff::{Breach, Tariff};
pub use word::Error;

/// How a text is written, for people.
pub const FORMAT: &str = include_str!("format.txt");
