//! The names of metadata kinds, types and constants, and the forms of instructions.

use crate::opcode::Opcode;
use unit::{Instruction, Kind};

/// A Hint with these flags is a loop hint.
const LOOP_FLAGS: u8 = 1;

/// The slot types, by number.
pub const TYPES: [&str; 6] = ["Value", "GcBase", "GcRef", "Interface0", "Interface1", "Float"];

/// The kinds of constants, by number.
pub const CONSTANTS: [&str; 5] = ["nil", "bool", "int", "float", "string"];

/// The kinds of select cases, by number.
pub const CASES: [&str; 2] = ["send", "receive"];

/// An opcode's name, or `op` and its byte for those that are Invalid.
pub fn opcode(op: u8) -> String {
    match Opcode::from_u8(op) {
        None => format!("op{op}"),
        Some(opcode) => opcode.name().into(),
    }
}

/// The byte of an opcode's name.
pub fn op(name: &str) -> Option<u8> {
    let invalid = || {
        let op = name.strip_prefix("op")?.parse().ok()?;
        (opcode(op) == name).then_some(op)
    };
    Opcode::from_name(name).map(|opcode| opcode as u8).or_else(invalid)
}

pub fn kind(name: &str) -> Option<Kind> {
    Kind::ALL.into_iter().find(|kind| format!("{kind:?}") == name)
}

/// What an instruction's operands are.
#[derive(Clone, Copy, Debug, Eq, PartialEq)]
pub enum Form {
    /// a, b and c.
    Fields,
    /// a and imm32.
    Value,
    /// A target, after a where the opcode reads it.
    Jump { condition: bool },
    /// a, b and a target.
    ForLoop,
}

pub fn form(op: u8) -> Form {
    match Opcode::from_u8(op) {
        Some(Opcode::LoadInt) => Form::Value,
        Some(Opcode::Jump) => Form::Jump { condition: false },
        Some(Opcode::JumpIf | Opcode::JumpIfNot) => Form::Jump { condition: true },
        Some(Opcode::ForLoop) => Form::ForLoop,
        _ => Form::Fields,
    }
}

/// A plain loop hint, to which its operands and metadata are added.
pub fn loop_hint() -> Instruction {
    Instruction { op: Opcode::Hint as u8, flags: LOOP_FLAGS, ..Instruction::default() }
}

pub fn is_loop_hint(instruction: &Instruction) -> bool {
    instruction.op == Opcode::Hint as u8 && instruction.flags == LOOP_FLAGS
}

/// The place that a branch leads to, which may lie outside the function.
pub fn target(place: usize, instruction: &Instruction) -> Option<i64> {
    Some(place as i64 + distance(instruction)?)
}

/// How far a branch goes from its own place.
pub fn distance(instruction: &Instruction) -> Option<i64> {
    match form(instruction.op) {
        Form::Jump { .. } => Some(i64::from(instruction.imm32() as i32)),
        Form::ForLoop => Some(i64::from(instruction.c as i16) + 1),
        Form::Fields | Form::Value => None,
    }
}
