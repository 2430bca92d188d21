//! Functions for a run at the desk: of the instructions that it executes, with now and then another.

use crate::draft::{Draft, ROOM};
use crate::rng::Rng;
use reference::Opcode;
use unit::{Kind, Metadata, Parts};

/// More than one pass works on.
const LONG: usize = 65_537;

pub(super) fn desk(rng: &mut Rng) -> Parts {
    let n = match rng.below(20_000) {
        0 => LONG + rng.below(3),
        1..=200 => 0,
        201..=800 => 1,
        801..=11_000 => rng.within(2..=10),
        11_001..=18_500 => rng.within(11..=30),
        _ => rng.within(31..=150),
    };
    let s = match rng.below(20) {
        0 => 0,
        1..=14 => rng.within(1..=6),
        _ => ROOM + rng.within(1..=12),
    };
    let mut draft = Draft::new(rng, n, s).with_types().with_tables(4);
    draft.parts.defer = u32::from(draft.rng.percent(5));
    let ways = Ways { end: draft.rng.percent(25), others: draft.rng.pick(&[0, 0, 2, 8]) };
    while !draft.is_full() {
        if s == 0 {
            without_slots(&mut draft, ways);
        } else if draft.place() + 1 == n {
            last(&mut draft, ways);
        } else {
            segment(&mut draft, ways);
        }
    }
    if draft.rng.percent(15) {
        scatter_metadata(&mut draft);
    }
    draft.finish()
}

/// What may occur in a function.
#[derive(Clone, Copy)]
struct Ways {
    /// Branches to n, which one pass refuses.
    end: bool,
    /// Other instructions, in percent.
    others: usize,
}

/// Metadata of any kind for hints, Return and Panic, which ask for none.
fn scatter_metadata(draft: &mut Draft) {
    for place in 0..draft.place() {
        let op = draft.parts.code[place].op;
        if [Opcode::Hint, Opcode::Return, Opcode::Panic].iter().any(|&opcode| opcode as u8 == op) {
            let kind = draft.rng.pick(&Kind::ALL);
            draft.parts.metadata[place] = draft.short_metadata(kind);
        }
    }
}

/// Instructions that name no slot of an empty frame.
fn without_slots(draft: &mut Draft, ways: Ways) {
    let any = draft.rng.word() as u16;
    match draft.rng.below(10) {
        0 | 1 => draft.op(Opcode::Return, 0, any, 0, 0),
        2 => draft.op(Opcode::CopyN, 0, any, any, 0),
        3 if ways.others > 0 => draft.op(Opcode::SelectBegin, 0, 0, 0, 0),
        4..=6 => jump(draft, ways),
        _ => hint(draft),
    }
}

/// A run ends here by Return, by Panic, by a jump to n, or since nothing follows.
fn last(draft: &mut Draft, ways: Ways) {
    match draft.rng.below(20) {
        0..=10 => give_back(draft),
        11..=14 => panic(draft),
        15 | 16 => jump(draft, ways),
        _ => executed(draft),
    }
}

/// A loop that counts down, a branch, an end, another instruction, or one that is executed.
fn segment(draft: &mut Draft, ways: Ways) {
    if draft.rng.percent(ways.others) {
        return other(draft);
    }
    let room = draft.n - draft.place();
    match draft.rng.below(40) {
        0..=3 if room > 8 => countdown(draft, ways),
        4..=7 => jump(draft, ways),
        8 => give_back(draft),
        9 => panic(draft),
        10 => hint(draft),
        11 | 12 => draft.again(),
        _ => executed(draft),
    }
}

/// Its counter and its 1 are in the last slots, which others seldom store to.
fn countdown(draft: &mut Draft, ways: Ways) {
    let s = draft.parts.types.len();
    let (counter, one) = (s as u16 - 1, s.saturating_sub(2) as u16);
    let rounds = draft.rng.within(1..=6) as i32;
    draft.load_int(counter, rounds);
    let start = draft.place();
    for _ in 0..draft.rng.within(1..=4) {
        if draft.rng.percent(ways.others) {
            other(draft);
        } else {
            executed(draft);
        }
    }
    draft.load_int(one, 1);
    draft.op(Opcode::SubI, 0, counter, counter, one);
    draft.branch(Opcode::JumpIf, counter, start as i64);
}

/// Mostly forward, so that most runs end.
fn jump(draft: &mut Draft, ways: Ways) {
    let n = draft.n;
    let target = if ways.end && draft.rng.percent(40) {
        n as i64
    } else if draft.rng.percent(20) {
        draft.target()
    } else {
        draft.rng.within((draft.place() + 1).min(n - 1)..=n - 1) as i64
    };
    let slot = draft.slot();
    let conditional = !draft.parts.types.is_empty() && draft.rng.percent(75);
    let opcode =
        if conditional { draft.rng.pick(&[Opcode::JumpIf, Opcode::JumpIfNot]) } else { Opcode::Jump };
    draft.branch(opcode, slot, target);
}

fn executed(draft: &mut Draft) {
    let (a, b) = (draft.slot(), draft.slot());
    let flags = draft.rng.word() as u8;
    match draft.rng.below(20) {
        0 | 1 => copy_n(draft),
        2 => draft.op(Opcode::Trunc, flags, a, b, 0),
        3 => hint(draft),
        _ => draft.pure(0),
    }
}

/// Ranges anywhere in the frame, so that most overlap; an empty one may name any slot.
fn copy_n(draft: &mut Draft) {
    let s = draft.parts.types.len();
    let count = draft.rng.within(0..=s);
    let mut start = || match count {
        0 => draft.rng.word() as u16,
        _ => draft.rng.within(0..=s - count) as u16,
    };
    let (a, b) = (start(), start());
    draft.op(Opcode::CopyN, 0, a, b, count as u16);
}

/// Of any flags; a loop hint is mostly sound.
fn hint(draft: &mut Draft) {
    let flags = if draft.rng.percent(50) { 0 } else { draft.rng.word() as u8 };
    if draft.rng.percent(20) {
        let (end, exit) = (draft.rng.below(draft.n) as u32, draft.rng.within(0..=draft.n) as u32);
        draft.loop_hint(exit, Metadata::loop_end(end));
    } else {
        draft.op(Opcode::Hint, flags, 0, 0, 0);
    }
}

/// Any range of the frame, or none at any slot.
fn give_back(draft: &mut Draft) {
    let s = draft.parts.types.len();
    let a = draft.slot();
    match draft.rng.below(10) {
        0 => {
            let any = draft.rng.word() as u16;
            draft.op(Opcode::Return, 0, any, 0, 0);
        }
        1..=3 => {
            let count = draft.rng.within(0..=s - usize::from(a));
            draft.op(Opcode::Return, 0, a, count as u16, 0);
        }
        _ => draft.give_back(),
    }
}

/// It reads two slots.
fn panic(draft: &mut Draft) {
    let pairs = draft.parts.types.len().saturating_sub(1);
    if pairs == 0 {
        return give_back(draft);
    }
    let a = draft.rng.below(pairs) as u16;
    let unread = draft.rng.word();
    draft.op(Opcode::Panic, unread as u8, a, (unread >> 8) as u16, (unread >> 24) as u16);
}

/// An instruction that is not executed.
fn other(draft: &mut Draft) {
    let roomy = draft.parts.types.len() > ROOM;
    match draft.rng.below(6) {
        0 => {
            let (index, limit, target) = (draft.slot(), draft.slot(), draft.target());
            draft.for_loop(0, index, limit, target);
        }
        1 if roomy => draft.any_opcode(Opcode::Call as u8),
        2 if roomy => {
            let op = draft.rng.below(Opcode::COUNT) as u8;
            draft.any_opcode(op);
        }
        3 | 4 => draft.pure(100),
        _ => draft.single_slots(),
    }
}
