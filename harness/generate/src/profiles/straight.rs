//! Code in one block, and everything together.

use super::flow::{hint, known};
use crate::draft::{Draft, ROOM};
use crate::rng::Rng;
use reference::Opcode;
use unit::{Metadata, Parts};

/// A small function's length.
pub(super) fn few(rng: &mut Rng) -> usize {
    if rng.percent(70) {
        rng.within(2..=7)
    } else {
        rng.within(8..=12)
    }
}

/// Straight-line integer and float code with redundancies.
pub(super) fn straight(rng: &mut Rng) -> Parts {
    let (n, s) = (few(rng), rng.within(1..=8));
    let float = rng.pick(&[0, 20, 60]);
    let mut draft = Draft::new(rng, n, s).with_types().with_tables(3);
    let returns = draft.rng.percent(85);
    while draft.place() + usize::from(returns) < n {
        if draft.rng.percent(30) {
            draft.again();
        } else {
            draft.pure(float);
        }
    }
    if returns {
        draft.give_back();
    }
    draft.finish()
}

/// LoadConst of every kind and of missing constants, and what is made of them.
pub(super) fn constants(rng: &mut Rng) -> Parts {
    let (n, s) = (few(rng), rng.within(2..=5));
    let mut draft = Draft::new(rng, n, s).with_types();
    for _ in 0..draft.rng.within(0..=6) {
        let constant = draft.constant();
        draft.parts.constants.push(constant);
    }
    while !draft.is_full() {
        if draft.place() + 1 == n && draft.rng.percent(80) {
            draft.give_back();
            break;
        }
        match draft.rng.below(8) {
            0..=3 => draft.load_const(),
            4 => draft.again(),
            5 => draft.any_branch(),
            _ => draft.pure(10),
        }
    }
    draft.finish()
}

/// Few values in many slots of several types: copied, overwritten and restored, with clearings between.
pub(super) fn holders(rng: &mut Rng) -> Parts {
    let (n, s) = (rng.within(4..=24), rng.within(3..=12));
    let mut draft = Draft::new(rng, n, s).with_types();
    while draft.place() + 1 < n {
        let (a, b, c) = (draft.slot(), draft.slot(), draft.slot());
        match draft.rng.below(20) {
            0..=10 => draft.op(Opcode::Copy, 0, a, b, 0),
            11 => {
                let value = draft.rng.below(2) as i32;
                draft.load_int(a, value);
            }
            12 => draft.op(Opcode::AddF, 0, a, b, c),
            13..=16 => draft.again(),
            17 | 18 => draft.op(Opcode::AddF, 0, a, 0, 1),
            _ => draft.op(Opcode::Hint, 0, 0, 0, 0),
        }
    }
    draft.give_back();
    draft.finish()
}

/// Everything together, in functions of up to 60 instructions.
pub(super) fn mixed(rng: &mut Rng) -> Parts {
    let n = rng.within(8..=60);
    let s = ROOM + rng.within(3..=70);
    let mut draft = Draft::new(rng, n, s).with_types().with_tables(4);
    let dangerous = draft.rng.percent(15);
    while !draft.is_full() {
        match draft.rng.below(20) {
            0..=7 => draft.pure(40),
            8..=11 => draft.again(),
            12 | 13 => draft.any_branch(),
            14 => draft.op(Opcode::Hint, 0, 0, 0, 0),
            15 => known(&mut draft),
            16 => {
                let end = draft.rng.within(draft.place().min(n - 1)..=n - 1);
                if dangerous {
                    hint(&mut draft, end);
                } else {
                    let exit = draft.rng.within(0..=n) as u32;
                    draft.loop_hint(exit, Metadata::loop_end(end as u32));
                }
            }
            17 => draft.give_back(),
            18 => draft.single_slots(),
            _ => {
                let op = draft.rng.below(Opcode::COUNT) as u8;
                let loop_hint = op == Opcode::Hint as u8;
                if !loop_hint {
                    draft.any_opcode(op);
                }
            }
        }
    }
    draft.finish()
}
