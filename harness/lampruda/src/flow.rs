//! Which branches are decided by known integers, and which places are then reached: document 01's rules again, as
//! far as they tell unreachable code from dead stores.

use std::collections::HashMap;
use text::{is_loop_hint, Opcode};
use unit::{Constant, Instruction, Parts};
use unit::{CONSTANT_BOOL, CONSTANT_FLOAT, CONSTANT_INT, CONSTANT_NIL, TYPE_FLOAT, TYPE_VALUE};

/// The flow of a function that passes the checks up to refusal 9.
pub struct Flow {
    /// Whether the conditional jump at a place is taken, where that is known.
    pub taken: Vec<Option<bool>>,
    pub reached: Vec<bool>,
}

impl Flow {
    pub fn new(parts: &Parts) -> Self {
        let taken = decided(parts);
        let reached = reached(parts, &taken);
        Self { taken, reached }
    }
}

fn opcode(instruction: &Instruction) -> Option<Opcode> {
    Opcode::from_u8(instruction.op)
}

/// A branch's target, which refusal 8 keeps inside the function.
fn target(place: usize, instruction: &Instruction) -> Option<usize> {
    usize::try_from(text::target(place, instruction)?).ok()
}

/// "A block starts at place 0, at each branch target, and after each Jump, JumpIf, JumpIfNot, ForLoop, Return
/// and Panic."
fn leaders(code: &[Instruction]) -> Vec<bool> {
    let mut leaders = vec![false; code.len()];
    let mut mark = |place: usize| leaders.get_mut(place).into_iter().for_each(|leader| *leader = true);
    mark(0);
    for (place, instruction) in code.iter().enumerate() {
        let target = target(place, instruction);
        if target.is_some() || matches!(opcode(instruction), Some(Opcode::Return | Opcode::Panic)) {
            target.into_iter().for_each(&mut mark);
            mark(place + 1);
        }
    }
    leaders
}

/// "JumpIf and JumpIfNot on a known integer become Jump or plain Hint."
fn decided(parts: &Parts) -> Vec<Option<bool>> {
    let mut taken = vec![None; parts.code.len()];
    let mut known = Known::default();
    for ((place, instruction), starts) in parts.code.iter().enumerate().zip(leaders(&parts.code)) {
        if starts {
            known.0.clear();
        }
        match opcode(instruction) {
            Some(Opcode::JumpIf) => taken[place] = known.get(instruction.a).map(|word| word != 0),
            Some(Opcode::JumpIfNot) => taken[place] = known.get(instruction.a).map(|word| word == 0),
            opcode => known.step(opcode, instruction, parts),
        }
    }
    taken
}

/// The words of the slots that hold a known integer.
#[derive(Default)]
struct Known(HashMap<u16, u64>);

impl Known {
    fn get(&self, slot: u16) -> Option<u64> {
        self.0.get(&slot).copied()
    }

    /// "CopyN, a non-scalar destination, LoadConst of a String or a missing constant, and every impure opcode
    /// clear all values"
    fn step(&mut self, opcode: Option<Opcode>, instruction: &Instruction, parts: &Parts) {
        let destination = parts.types.get(usize::from(instruction.a));
        let scalar = matches!(destination, Some(&(TYPE_VALUE | TYPE_FLOAT)));
        match opcode.filter(|_| scalar).and_then(|opcode| self.stored(opcode, instruction, &parts.constants))
        {
            None => self.0.clear(),
            Some(Some(word)) => drop(self.0.insert(instruction.a, word)),
            Some(None) => drop(self.0.remove(&instruction.a)),
        }
    }

    /// What a pure instruction stores: the word, where it is a known integer; `None` for those that clear.
    fn stored(
        &self,
        opcode: Opcode,
        instruction: &Instruction,
        constants: &[Constant],
    ) -> Option<Option<u64>> {
        use Opcode::*;
        let left = self.get(instruction.b);
        let binary =
            |fold: fn(u64, u64) -> u64| Some(left.zip(self.get(instruction.c)).map(|(l, r)| fold(l, r)));
        match opcode {
            LoadInt => Some(Some(i64::from(instruction.imm32() as i32) as u64)),
            LoadConst => constants.get(usize::from(instruction.b)).and_then(constant),
            Copy => Some(left),
            AddI => binary(u64::wrapping_add),
            SubI => binary(u64::wrapping_sub),
            MulI => binary(u64::wrapping_mul),
            And => binary(|l, r| l & r),
            Or => binary(|l, r| l | r),
            Xor => binary(|l, r| l ^ r),
            AndNot => binary(|l, r| l & !r),
            EqI => binary(|l, r| (l == r).into()),
            NeI => binary(|l, r| (l != r).into()),
            LtI => binary(|l, r| ((l as i64) < r as i64).into()),
            LeI => binary(|l, r| (l as i64 <= r as i64).into()),
            GtI => binary(|l, r| (l as i64 > r as i64).into()),
            GeI => binary(|l, r| (l as i64 >= r as i64).into()),
            LtU => binary(|l, r| (l < r).into()),
            LeU => binary(|l, r| (l <= r).into()),
            GtU => binary(|l, r| (l > r).into()),
            GeU => binary(|l, r| (l >= r).into()),
            NegI => Some(left.map(u64::wrapping_neg)),
            Not => Some(left.map(|word| !word)),
            BoolNot => Some(left.map(|word| (word == 0).into())),
            Trunc => Some(left.map(|word| truncated(word, instruction.flags))),
            // "Floats never fold."
            NegF | NegF32 | ConvI2F | ConvF2I | ConvF64F32 | ConvF32F64 | AddF | AddF32 | SubF | SubF32
            | MulF | MulF32 | DivF | DivF32 | EqF | EqF32 | NeF | NeF32 | LtF | LtF32 | LeF | LeF32 | GtF
            | GtF32 | GeF | GeF32 => Some(None),
            _ => None,
        }
    }
}

fn constant(constant: &Constant) -> Option<Option<u64>> {
    match constant.kind {
        CONSTANT_NIL => Some(Some(0)),
        CONSTANT_BOOL | CONSTANT_INT => Some(Some(constant.value)),
        CONSTANT_FLOAT => Some(None),
        _ => None,
    }
}

/// "Trunc keeps the low 1, 2 or 4 bytes by flags modulo 128 (otherwise the whole word), sign-extended where flags
/// reach 128."
fn truncated(word: u64, flags: u8) -> u64 {
    let unused = match flags % 128 {
        width @ (1 | 2 | 4) => 64 - 8 * u32::from(width),
        _ => 0,
    };
    match flags < 128 {
        true => word << unused >> unused,
        false => ((word << unused) as i64 >> unused) as u64,
    }
}

/// "from place 0 by the rewritten branches; a sound loop hint, flags 1, also reaches its end and an exit below n"
fn reached(parts: &Parts, taken: &[Option<bool>]) -> Vec<bool> {
    let mut reached = vec![false; parts.code.len()];
    let mut pending = vec![0];
    while let Some(place) = pending.pop() {
        match reached.get_mut(place) {
            Some(reached) if !*reached => *reached = true,
            _ => continue,
        }
        let instruction = &parts.code[place];
        let (falls, jumps) = match opcode(instruction) {
            Some(Opcode::Jump) => (false, true),
            Some(Opcode::Return | Opcode::Panic) => (false, false),
            _ => (taken[place] != Some(true), taken[place] != Some(false)),
        };
        if jumps {
            pending.extend(target(place, instruction));
        }
        if is_loop_hint(instruction) {
            pending.extend([instruction.imm32() as usize, parts.metadata[place].end_pc as usize]);
        }
        if falls {
            pending.push(place + 1);
        }
    }
    reached
}
