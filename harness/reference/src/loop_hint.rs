//! Loop hints, of which some refusals need to know.

use crate::instruction::{Instruction, Opcode, HINT_LOOP};

/// A reached loop hint.
pub struct LoopHint {
    pub place: u32,
    pub exit: u32,
    /// Its LoopEnd, if that lies in the function: then the hint is sound.
    pub end: Option<u32>,
}

pub fn is_loop_hint(instruction: &Instruction) -> bool {
    instruction.opcode() == Opcode::Hint && instruction.flags == HINT_LOOP
}
