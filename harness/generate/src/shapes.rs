//! Functions of a given length and shape, to be timed.

use crate::draft::Draft;
use crate::laws;
use crate::rng::Rng;
use reference::Opcode;
use unit::{Constant, Parts, CONSTANT_INT, TYPE_FLOAT};

/// A named shape of functions.
#[derive(Clone, Copy)]
pub struct Shape {
    pub name: &'static str,
    draw: fn(&mut Rng, usize) -> Parts,
}

impl Shape {
    /// The shape's unit of n instructions, at least 2.
    pub fn unit(&self, seed: u64, n: usize) -> Vec<u8> {
        (self.draw)(&mut Rng::new(seed, n as u64), n).encode()
    }
}

/// No law looks like these: loads of constants alone; the worst known of our table, whose hash is fixed: constants chosen to
/// fall in one bucket of it, along one path for as long as they can; a row of jumps, which takes every jump round; and the worst
/// known of the look for the lowest slot.
pub const EXTREMES: [Shape; 4] = [
    Shape { name: "constants only", draw: constants_only },
    Shape { name: "one bucket", draw: one_bucket },
    Shape { name: "row of jumps", draw: row_of_jumps },
    Shape { name: "far holders", draw: far_holders },
];

pub const SHAPES: [Shape; 6] = [
    Shape { name: "material law", draw: laws::law },
    Shape { name: "many slots", draw: laws::law_of_many_slots },
    Shape { name: "one block", draw: one_block },
    Shape { name: "blocks of 5 to 50", draw: short_blocks },
    Shape { name: "all different", draw: all_different },
    Shape { name: "all the same", draw: all_the_same },
];

/// Half of the slots hold integers, half floats.
const HALF: u16 = 50;

fn frame(rng: &mut Rng, n: usize) -> Draft<'_> {
    let mut draft = Draft::new(rng, n, 2 * usize::from(HALF));
    draft.parts.types[usize::from(HALF)..].fill(TYPE_FLOAT);
    draft
}

/// A Return of one slot as the last instruction.
fn end(mut draft: Draft) -> Parts {
    draft.op(Opcode::Return, 0, 0, 1, 0);
    draft.parts
}

/// Arithmetic of a law, none of which clears the values: a fifth of it is a recent expression again.
fn arithmetic(draft: &mut Draft) {
    let float = draft.rng.percent(65);
    let base = if float { HALF } else { 0 };
    let mut slot = || {
        let bound = if draft.rng.percent(75) { 6 } else { usize::from(HALF) };
        base + draft.rng.below(bound) as u16
    };
    let (a, b, c) = (slot(), slot(), slot());
    let recent = draft.place().min(12);
    if recent > 0 && draft.rng.percent(20) {
        let before = draft.parts.code[draft.place() - 1 - draft.rng.below(recent)];
        if is_arithmetic(before.op) && (before.a >= HALF) == float {
            return draft.op(Opcode::from_u8(before.op), 0, a, before.b, before.c);
        }
    }
    let opcode = draft.rng.pick(if float { &FLOAT } else { &INTEGER });
    draft.op(opcode, 0, a, b, c);
}

const FLOAT: [Opcode; 4] = [Opcode::AddF, Opcode::SubF, Opcode::MulF, Opcode::DivF];
const INTEGER: [Opcode; 4] = [Opcode::AddI, Opcode::SubI, Opcode::MulI, Opcode::And];

fn is_arithmetic(op: u8) -> bool {
    FLOAT.iter().chain(&INTEGER).any(|&opcode| opcode as u8 == op)
}

fn one_block(rng: &mut Rng, n: usize) -> Parts {
    let mut draft = frame(rng, n);
    while draft.place() + 1 < n {
        arithmetic(&mut draft);
    }
    end(draft)
}

/// Each block ends with a branch back to its start, or round the next one.
fn short_blocks(rng: &mut Rng, n: usize) -> Parts {
    let mut starts = vec![0];
    while let Some(start) = starts.last().map(|last| last + rng.within(5..=50)).filter(|&start| start < n - 1)
    {
        starts.push(start);
    }
    starts.push(n - 1);
    let mut draft = frame(rng, n);
    for block in 0..starts.len() - 1 {
        let last = starts[block + 1] - 1;
        while draft.place() < last {
            arithmetic(&mut draft);
        }
        let after_next = starts[(block + 2).min(starts.len() - 1)];
        let target = if draft.rng.percent(30) { starts[block] } else { after_next };
        let slot = draft.rng.below(6) as u16;
        let opcode = draft.rng.pick(&[Opcode::JumpIf, Opcode::JumpIfNot]);
        draft.branch(opcode, slot, target as i64);
    }
    end(draft)
}

/// No two expressions are equal: each has an operand that was stored just before its turn.
fn all_different(rng: &mut Rng, n: usize) -> Parts {
    let mut draft = frame(rng, n);
    while draft.place() + 1 < n {
        let slot = HALF + (draft.place() % usize::from(HALF)) as u16;
        let other = HALF + draft.rng.below(usize::from(HALF)) as u16;
        draft.op(Opcode::AddF, 0, slot, slot, other);
    }
    end(draft)
}

/// One expression, over and over, into slots that it does not read.
fn all_the_same(rng: &mut Rng, n: usize) -> Parts {
    let mut draft = frame(rng, n);
    while draft.place() + 1 < n {
        let slot = HALF + 2 + (draft.place() % usize::from(HALF - 2)) as u16;
        draft.op(Opcode::AddF, 0, slot, HALF, HALF + 1);
    }
    end(draft)
}

/// Known integers, no two the same.
fn constants_only(rng: &mut Rng, n: usize) -> Parts {
    let mut draft = frame(rng, n);
    while draft.place() + 1 < n {
        let (place, slot) = (draft.place(), draft.place() % usize::from(HALF));
        draft.load_int(slot as u16, place as i32);
    }
    end(draft)
}

/// The factor of a constant in the table's hash (crates/values/src/entries.rt).
const FACTOR: u64 = 11_400_714_819_323_198_485;

/// The high halves are such that their products by the factor, modulo 2^32, are 0, 1, 2 and so on: the bits that choose the bucket
/// never differ. The low halves are 0: the first 32 steps of a look-up go the same way.
fn one_bucket(rng: &mut Rng, n: usize) -> Parts {
    // An odd number is its own inverse modulo 8, and each step doubles the bits.
    let inverse = (0..5)
        .fold(FACTOR, |inverse, _| inverse.wrapping_mul(2_u64.wrapping_sub(FACTOR.wrapping_mul(inverse))));
    let mut draft = frame(rng, n);
    while draft.place() + 1 < n {
        let place = draft.place();
        let value = inverse.wrapping_mul(place as u64) << 32;
        draft.parts.constants.push(Constant::new(CONSTANT_INT, value));
        draft.op(Opcode::LoadConst, 0, (place % usize::from(HALF)) as u16, place as u16, 0);
    }
    end(draft)
}

/// Jumps in a row to the place after them, each also branched to: a round drops the last of them.
fn row_of_jumps(rng: &mut Rng, n: usize) -> Parts {
    let mut draft = frame(rng, n);
    let first = n / 2;
    while draft.place() < first {
        let jump = first + draft.place();
        draft.branch(Opcode::JumpIf, 0, jump as i64);
    }
    while draft.place() + 1 < n {
        draft.branch(Opcode::Jump, 0, n as i64 - 1);
    }
    end(draft)
}

/// A value in the first slot and in the last, as many slots as instructions, of which the first is overwritten again and again:
/// every other instruction looks at all slots.
fn far_holders(rng: &mut Rng, n: usize) -> Parts {
    let s = n.min(usize::from(u16::MAX));
    let mut draft = Draft::new(rng, n, s);
    while draft.place() + 1 < n {
        if draft.place() % 2 == 0 {
            draft.op(Opcode::Copy, 0, 0, (s - 1) as u16, 0);
        } else {
            draft.load_int(0, 0);
        }
    }
    end(draft)
}

#[cfg(test)]
mod tests {
    use super::*;
    use std::collections::BTreeSet;
    use unit::{Answer, Unit, TYPE_GC_BASE, TYPE_VALUE};

    #[test]
    fn shapes_are_rewritten() {
        for shape in SHAPES.iter().chain(&EXTREMES) {
            for n in [20, 200, 2_000] {
                let answer = reference::pass(&shape.unit(1, n));
                assert!(matches!(answer, Answer::Rewritten { .. }), "{} of {n}: {answer:?}", shape.name);
            }
        }
    }

    #[test]
    fn many_slots_are_all_in_use() {
        let bytes = laws::law_of_many_slots(&mut Rng::new(1, 65_536), 65_536).encode();
        let unit = Unit::check(&bytes).unwrap();
        let of_type = |slot_type| unit.types().filter(|&found| found == slot_type).count();
        assert_eq!([TYPE_VALUE, TYPE_FLOAT, TYPE_GC_BASE].map(of_type), [400, 400, 6]);
        let written = unit.code().filter(|found| is_arithmetic(found.op)).map(|found| found.a);
        let followed = unit.code().filter(|found| found.op == Opcode::PtrGet as u8).map(|found| found.b);
        assert_eq!(written.chain(followed).collect::<BTreeSet<u16>>().len(), 806);
    }
}
