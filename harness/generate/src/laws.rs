//! Functions like the users' material laws: long blocks of float and integer arithmetic with redundancies,
//! branches, counted loops with loop hints, calls now and then.

use crate::draft::Draft;
use crate::rng::Rng;
use reference::Opcode;
use unit::{Function, Metadata, Parts, TYPE_FLOAT, TYPE_GC_BASE};

pub fn draw(rng: &mut Rng) -> Parts {
    let n = match rng.below(10) {
        0..=5 => rng.within(200..=1_000),
        6..=8 => rng.within(1_001..=4_000),
        _ => rng.within(4_001..=9_700),
    };
    law(rng, n)
}

/// A law of n instructions.
pub fn law(rng: &mut Rng, n: usize) -> Parts {
    let s = rng.within(24..=300);
    let mut draft = Draft::new(rng, n, s);
    draft.parts.types[s / 2..].fill(TYPE_FLOAT);
    written(draft, Frame { half: s / 2, references: 0, pace: usize::MAX })
}

/// A law of n instructions and 806 slots: 400 hold integers, 400 floats, 6 references. As a compiler gives every value a slot
/// of its own as long as there are any, the newest slots are the busy ones, and all have their turn.
pub fn law_of_many_slots(rng: &mut Rng, n: usize) -> Parts {
    let frame = Frame { half: 400, references: 6, pace: 4 };
    let s = 2 * frame.half + frame.references;
    let mut draft = Draft::new(rng, n, s);
    draft.parts.types[frame.half..].fill(TYPE_FLOAT);
    draft.parts.types[2 * frame.half..].fill(TYPE_GC_BASE);
    written(draft, frame)
}

/// Which slots the instructions of a law name.
#[derive(Clone, Copy)]
struct Frame {
    /// So many slots hold integers, and as many after them floats.
    half: usize,
    /// So many after those hold references.
    references: usize,
    /// Three operands in four are among six neighbours, which move on by a slot every so many instructions.
    pace: usize,
}

impl Frame {
    /// A slot of the half that holds integers, or of the half that holds floats.
    fn slot(self, draft: &mut Draft, float: bool) -> u16 {
        let base = if float { self.half } else { 0 };
        let index = if draft.rng.percent(75) {
            draft.place() / self.pace + draft.rng.below(6)
        } else {
            draft.rng.below(self.half)
        };
        (base + index % self.half) as u16
    }

    fn reference(self, draft: &mut Draft) -> u16 {
        (2 * self.half + draft.rng.below(self.references)) as u16
    }
}

fn written(mut draft: Draft, frame: Frame) -> Parts {
    for _ in 0..12 {
        let constant = draft.constant();
        draft.parts.constants.push(constant);
    }
    draft.parts.functions.push(Function { param_slots: 2, ret_slots: 1 });
    draft.parts.externs.push(1);
    let longest = draft.rng.pick(&[12, 60, 400]);
    while draft.place() + 1 < draft.n {
        let room = draft.n - 1 - draft.place();
        segment(&mut draft, frame, room, longest, 2);
    }
    draft.op(Opcode::Return, 0, 0, 1, 0);
    draft.finish()
}

/// One to `room` instructions: a block, a branch round a block, a loop, or a call.
fn segment(draft: &mut Draft, frame: Frame, room: usize, longest: usize, depth: usize) {
    let way = if room < 12 || depth == 0 { 0 } else { draft.rng.below(10) };
    match way {
        6 | 7 => {
            let inner = draft.rng.within(1..=(room - 1).min(longest));
            let (index, target) = (frame.slot(draft, false), draft.place() + 1 + inner);
            let opcode = draft.rng.pick(&[Opcode::JumpIf, Opcode::JumpIfNot]);
            draft.branch(opcode, index, target as i64);
            body(draft, frame, inner, longest, depth);
        }
        8 => {
            let inner = draft.rng.within(1..=(room - 2).min(longest));
            let start = draft.place() + 1;
            let end = start + inner;
            draft.loop_hint(end as u32 + 1, Metadata::loop_end(end as u32));
            body(draft, frame, inner, longest, depth);
            let (index, limit) = (frame.slot(draft, false), frame.slot(draft, false));
            draft.for_loop(0, index, limit, start as i64);
        }
        9 => {
            let opcode = draft.rng.pick(&[Opcode::Call, Opcode::CallExtern, Opcode::GlobalSet, Opcode::DivI]);
            draft.any_opcode(opcode as u8);
        }
        _ => {
            for _ in 0..draft.rng.within(1..=room.min(longest)) {
                arithmetic(draft, frame);
            }
        }
    }
}

/// Segments of `len` instructions together.
fn body(draft: &mut Draft, frame: Frame, len: usize, longest: usize, depth: usize) {
    let end = draft.place() + len;
    while draft.place() < end {
        let room = end - draft.place();
        segment(draft, frame, room, longest, depth - 1);
    }
}

fn arithmetic(draft: &mut Draft, frame: Frame) {
    if frame.references > 0 && draft.rng.percent(4) {
        return access(draft, frame);
    }
    let float = draft.rng.percent(65);
    let mut slot = || frame.slot(draft, float);
    let (a, b, c) = (slot(), slot(), slot());
    match draft.rng.below(20) {
        0 | 1 if !float => {
            let value = draft.rng.below(9) as i32;
            draft.load_int(a, value);
        }
        2 => {
            let index = draft.rng.below(draft.parts.constants.len()) as u16;
            draft.op(Opcode::LoadConst, 0, a, index, 0);
        }
        3 => draft.op(Opcode::Copy, 0, a, b, 0),
        4..=7 => draft.again(),
        _ if float => {
            let opcode =
                draft.rng.pick(&[Opcode::AddF, Opcode::SubF, Opcode::MulF, Opcode::DivF, Opcode::NegF]);
            draft.op(opcode, 0, a, b, c);
        }
        _ => {
            let opcode =
                draft.rng.pick(&[Opcode::AddI, Opcode::SubI, Opcode::MulI, Opcode::LtI, Opcode::EqI]);
            draft.op(opcode, 0, a, b, c);
        }
    }
}

/// A value that a reference leads to is read or written, or a reference copied.
fn access(draft: &mut Draft, frame: Frame) {
    let (reference, value) = (frame.reference(draft), frame.slot(draft, true));
    let offset = draft.rng.below(16) as u16;
    match draft.rng.below(10) {
        0 => {
            let copy = frame.reference(draft);
            draft.op(Opcode::Copy, 0, copy, reference, 0);
        }
        1..=3 => draft.op(Opcode::PtrSet, 0, reference, offset, value),
        _ => draft.op(Opcode::PtrGet, 0, value, reference, offset),
    }
}
