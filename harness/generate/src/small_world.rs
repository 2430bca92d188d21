//! All short functions: two Value slots, 24 instructions, functions of 2, 3 and 4 of them.

use reference::Opcode;
use unit::{Instruction, Metadata, Parts, Unit, TYPE_VALUE};

/// The functions' lengths, shorter first.
const LENGTHS: [u32; 3] = [2, 3, 4];

/// How many there are.
pub const COUNT: u64 = 346_176;

/// The 24 instructions, in their order.
fn instructions() -> Vec<Instruction> {
    let imm32 = |opcode: Opcode, a: u16, value: i32| {
        let mut instruction = Instruction { op: opcode as u8, a, ..Instruction::default() };
        instruction.set_imm32(value as u32);
        instruction
    };
    let op = |opcode: Opcode, a: u16, b: u16, c: u16| Instruction { op: opcode as u8, flags: 0, a, b, c };
    let pairs = || [(0, 0), (0, 1), (1, 0), (1, 1)].into_iter();
    let mut all = Vec::new();
    all.extend(pairs().map(|(a, value)| imm32(Opcode::LoadInt, a, value.into())));
    all.extend(pairs().map(|(a, b)| op(Opcode::Copy, a, b, 0)));
    all.extend([0, 1].into_iter().flat_map(|a| pairs().map(move |(b, c)| op(Opcode::AddI, a, b, c))));
    all.extend(pairs().map(|(a, forward)| imm32(Opcode::JumpIf, a, if forward == 1 { 1 } else { -1 })));
    all.extend([-1, 1].map(|distance| imm32(Opcode::Jump, 0, distance)));
    all.extend([0, 1].map(|count| op(Opcode::Return, 0, count, 0)));
    all
}

/// The small world, its functions numbered from 0.
pub struct SmallWorld {
    instructions: Vec<Instruction>,
}

impl Default for SmallWorld {
    fn default() -> Self {
        Self { instructions: instructions() }
    }
}

impl SmallWorld {
    /// "and its number from it": of the function that stands in these bytes, if they are its unit.
    pub fn number(&self, bytes: &[u8]) -> Option<u64> {
        let parts = Parts::decode(&Unit::check(bytes)?);
        let base = self.instructions.len() as u64;
        let length = parts.code.len() as u32;
        let before: u64 = LENGTHS.into_iter().filter(|&shorter| shorter < length).map(|n| base.pow(n)).sum();
        let digits = parts.code.iter().map(|code| self.instructions.iter().position(|known| known == code));
        let rank = digits.into_iter().try_fold(0, |so_far, digit| Some(base * so_far + digit? as u64))?;
        let number = LENGTHS.contains(&length).then_some(before + rank)?;
        (self.unit(number)? == bytes).then_some(number)
    }

    /// "shorter first, then by the earliest differing instruction"
    pub fn unit(&self, number: u64) -> Option<Vec<u8>> {
        let base = self.instructions.len() as u64;
        let mut rest = number;
        let length = LENGTHS.into_iter().find(|&length| {
            let count = base.pow(length);
            let found = rest < count;
            rest = rest.wrapping_sub(if found { 0 } else { count });
            found
        })?;
        let digits = (0..length).rev().map(|digit| rest / base.pow(digit) % base);
        let parts = Parts {
            code: digits.map(|digit| self.instructions[digit as usize]).collect(),
            metadata: vec![Metadata::default(); length as usize],
            local_slots: 2,
            types: vec![TYPE_VALUE; 2],
            ..Parts::default()
        };
        Some(parts.encode())
    }
}

#[cfg(test)]
mod tests {
    use super::*;
    use std::collections::HashSet;

    #[test]
    fn each_once() {
        let world = SmallWorld::default();
        assert_eq!(world.instructions.len(), 24);
        let units: HashSet<Vec<u8>> = (0..COUNT).map(|number| world.unit(number).unwrap()).collect();
        assert_eq!(units.len() as u64, COUNT);
        assert_eq!(world.unit(COUNT), None);
    }
}
