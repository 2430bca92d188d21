//! What the steps of one pass make of a function.

use crate::instruction::Instruction;
use std::ops::Range;

/// By place, as the Rust has it before the jump rounds.
pub struct Stages {
    /// The numbered code.
    pub code: Vec<unit::Instruction>,
    pub reached: Vec<bool>,
    /// Reached, and no plain hint.
    pub useful: Vec<bool>,
    /// Useful, and no dead store.
    pub stored: Vec<bool>,
    /// The slots that are read, array ranges too.
    pub reads: Vec<Vec<Range<u16>>>,
    /// The slots that are surely written.
    pub sure_writes: Vec<Vec<Range<u16>>>,
    /// Where the run goes on, as liveness has it.
    pub edges: Vec<[Option<usize>; 2]>,
    /// The last of its block.
    pub last: Vec<bool>,
    /// A pure store into scalar slots.
    pub scalar_store: Vec<bool>,
    /// Not by place: whether there are slots, and liveness is sure to stay inside both limits.
    pub live_found: bool,
}

impl From<&Instruction> for unit::Instruction {
    fn from(instruction: &Instruction) -> Self {
        let Instruction { op, flags, a, b, c } = *instruction;
        Self { op, flags, a, b, c }
    }
}
