//! What became of each instruction of a function that was rewritten.

use crate::flow::Flow;
use std::fmt;
use text::{distance, is_loop_hint, Opcode};
use unit::{Instruction, Parts, Rewritten, Unit};

/// What one pass made of an instruction.
#[derive(Clone, Copy, Debug, Eq, Ord, PartialEq, PartialOrd)]
pub enum Fate {
    /// As it was, but for where its branch leads.
    Kept,
    /// Another slot that holds the same value is read.
    Operand,
    /// Its known result is loaded.
    Folded,
    /// Its result is copied from a slot that holds it.
    Copied,
    /// A conditional jump that is always taken became Jump.
    AlwaysTaken,
    Unreachable,
    PlainHint,
    /// A conditional jump that is never taken.
    NeverTaken,
    DeadStore,
    /// A jump to where the code goes on anyway.
    IdleJump,
}

impl Fate {
    pub fn is_removed(self) -> bool {
        self >= Self::Unreachable
    }

    /// What became of the instruction that a pass retained.
    pub fn of_retained(given: &Instruction, retained: &Instruction) -> Self {
        let moves = distance(given).is_some() || is_loop_hint(given);
        match Opcode::from_u8(retained.op) {
            _ if retained.op == given.op && (retained == given || moves && retained.a == given.a) => {
                Self::Kept
            }
            _ if retained.op == given.op => Self::Operand,
            Some(Opcode::LoadInt) => Self::Folded,
            Some(Opcode::Copy) => Self::Copied,
            _ => Self::AlwaysTaken,
        }
    }
}

impl fmt::Display for Fate {
    fn fmt(&self, f: &mut fmt::Formatter) -> fmt::Result {
        f.pad(match self {
            Self::Kept => "kept",
            Self::Operand => "operand replaced",
            Self::Folded => "folded",
            Self::Copied => "copied",
            Self::AlwaysTaken => "always taken",
            Self::Unreachable => "unreachable",
            Self::PlainHint => "plain hint",
            Self::NeverTaken => "never taken",
            Self::DeadStore => "dead store",
            Self::IdleJump => "idle jump",
        })
    }
}

/// The fate of each instruction of a unit that one pass has rewritten.
pub fn fates(unit: &Unit, result: &Rewritten) -> Vec<Fate> {
    let parts = Parts::decode(unit);
    let flow = Flow::new(&parts);
    let mut retained = result.retained.iter().peekable();
    let fate = |(place, given): (usize, &Instruction)| match retained
        .next_if(|entry| entry.old_place as usize == place)
    {
        Some(entry) => Fate::of_retained(given, &entry.instruction),
        None => removed(&flow, place, given),
    };
    parts.code.iter().enumerate().map(fate).collect()
}

/// In the order of "optimize.rs, removal": what is reached and no hint is a pure store or a jump.
fn removed(flow: &Flow, place: usize, given: &Instruction) -> Fate {
    match Opcode::from_u8(given.op) {
        _ if !flow.reached[place] => Fate::Unreachable,
        Some(Opcode::Hint) => Fate::PlainHint,
        Some(Opcode::JumpIf | Opcode::JumpIfNot) if flow.taken[place] == Some(false) => Fate::NeverTaken,
        Some(Opcode::Jump | Opcode::JumpIf | Opcode::JumpIfNot) => Fate::IdleJump,
        _ => Fate::DeadStore,
    }
}
