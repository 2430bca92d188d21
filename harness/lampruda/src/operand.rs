//! An operand for a wanted outcome.

use crate::sys;

/// The right word that is asked for.
#[derive(Clone, Copy, Debug, Eq, PartialEq)]
pub enum Operand {
    /// The smallest, unsigned.
    Word(u64),
    /// No word does it.
    None,
    /// The opcode is none of the 17 integer binary ones.
    NotCovered,
}

/// The smallest right word, unsigned, for which an integer binary opcode gives a wanted word.
///
/// ```no_run
/// assert_eq!(lampruda::operand(21, 12, 36), lampruda::Operand::Word(3)); // MulI
/// ```
pub fn operand(opcode: u8, left: u64, wanted: u64) -> Operand {
    // It takes and returns numbers alone.
    let sys::Right { kind, word } = unsafe { sys::lampruda_operand(opcode, left, wanted) };
    match kind {
        sys::WORD => Operand::Word(word),
        sys::NONE => Operand::None,
        sys::NOT_COVERED => Operand::NotCovered,
        _ => unreachable!("the library returns kinds 0 to 2"),
    }
}
