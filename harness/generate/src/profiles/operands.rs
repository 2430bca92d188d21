//! Opcodes with their metadata, and operands at the edges.

use super::flow::leave;
use crate::draft::{Draft, ROOM};
use crate::opcodes::{matching, RANGES};
use crate::rng::Rng;
use reference::Opcode;
use unit::{Function, Instruction, Kind, Metadata, Parts, MAX_SELECT_CASES};

/// Any opcode with matching metadata, in a frame with room.
pub(super) fn opcodes(rng: &mut Rng) -> Parts {
    let n = rng.within(2..=8);
    let s = ROOM + rng.within(3..=12);
    let mut draft = Draft::new(rng, n, s).with_types().with_tables(3);
    while !draft.is_full() {
        let op = draft.rng.below(Opcode::COUNT) as u8;
        draft.any_opcode(op);
    }
    draft.finish()
}

/// One opcode byte with metadata of one kind, matching or not.
pub(super) fn pairs(rng: &mut Rng) -> Parts {
    let op = if rng.percent(90) { rng.below(Opcode::COUNT) } else { rng.below(256) };
    let kind = rng.pick(&Kind::ALL);
    pair(rng, op as u8, Some(kind)).finish()
}

/// A function of this opcode byte and a Return, with metadata of this kind or of the opcode's own.
fn pair(rng: &mut Rng, op: u8, kind: Option<Kind>) -> Draft<'_> {
    let mut draft = Draft::new(rng, 2, ROOM + 3);
    for _ in 0..2 {
        let case = draft.case();
        draft.parts.cases.push(case);
    }
    draft.any_opcode(op);
    if let Some(kind) = kind {
        draft.parts.metadata[0] = draft.short_metadata(kind);
    }
    draft.op(Opcode::Return, 0, 0, 0, 0);
    draft
}

/// Every opcode with its own kind of metadata, and those that have one also with none and with another; some
/// bytes above the last opcode. For the recorded answers.
pub fn every_opcode(seed: u64) -> Vec<Vec<u8>> {
    let rng = &mut Rng::new(seed, 1);
    let mut units = Vec::new();
    for op in (0..=Opcode::COUNT as u8).chain([254, 255]) {
        units.push(pair(rng, op, None).parts.encode());
        let own = matching(Opcode::from_u8(op));
        if own != Kind::None {
            let others: Vec<Kind> = Kind::ALL.into_iter().filter(|&kind| kind != own).collect();
            let other = rng.pick(&others);
            units.push(pair(rng, op, Some(Kind::None)).parts.encode());
            units.push(pair(rng, op, Some(other)).parts.encode());
        }
    }
    units
}

/// Any opcodes, with one thing wrong.
pub(super) fn spoiled(rng: &mut Rng) -> Parts {
    let n = rng.within(2..=6);
    let s = ROOM + rng.within(3..=12);
    let mut draft = Draft::new(rng, n, s).with_types().with_tables(2);
    while !draft.is_full() {
        let op = draft.rng.below(Opcode::COUNT) as u8;
        draft.any_opcode(op);
    }
    let place = draft.rng.below(n);
    match draft.rng.below(10) {
        0 => draft.parts.code[place].op = draft.rng.within(Opcode::COUNT..=255) as u8,
        // Metadata of any kind at any opcode, which may be none or the wrong one.
        1 | 2 => {
            let op = draft.rng.below(256) as u8;
            let kind = draft.rng.pick(&Kind::ALL);
            draft.parts.code[place].op = op;
            draft.parts.metadata[place] = draft.short_metadata(kind);
        }
        3 => draft.parts.metadata[place] = Metadata::default(),
        4 | 5 => {
            let field = draft.rng.below(3);
            let slot = edge_slot(draft.rng, s, 1);
            let instruction = &mut draft.parts.code[place];
            *[&mut instruction.a, &mut instruction.b, &mut instruction.c][field] = slot;
        }
        6 => {
            let (first, second) = (edge_length(draft.rng, s), edge_length(draft.rng, s));
            let entry = &mut draft.parts.metadata[place];
            if !entry.is(Kind::SelectExecLayout) {
                (entry.first, entry.second) = (first, second);
            }
        }
        // A static call past the section, with or without the id's high bits.
        7 => {
            let id = draft.parts.functions.len();
            let opcode =
                draft.rng.pick(&[Opcode::Call, Opcode::GoStart, Opcode::DeferPush, Opcode::ErrDeferPush]);
            let flags = draft.rng.pick(&[0, 0, 2, 254]);
            draft.parts.code[place] = Instruction { op: opcode as u8, flags, a: id as u16, b: 0, c: 0 };
        }
        8 => {
            let b = draft.parts.externs.len() as u16;
            draft.parts.code[place] = Instruction { op: Opcode::CallExtern as u8, flags: 0, a: 0, b, c: 0 };
            draft.parts.metadata[place] = draft.short_metadata(Kind::CallExternLayout);
        }
        _ => leave(&mut draft),
    }
    draft.finish()
}

/// A slot near the frame's end or near 65,535, for a range of `len` slots.
fn edge_slot(rng: &mut Rng, s: usize, len: usize) -> u16 {
    let by = rng.below(3);
    let near = |end: usize| (end + by).saturating_sub(len + 1);
    let slot = rng.pick(&[0, 1, near(s), near(s), near(65_535), near(65_536), s, 65_535]);
    slot.min(65_535) as u16
}

/// A length near the frame's size, 65,535, 65,536 or 2^32 − 1.
fn edge_length(rng: &mut Rng, s: usize) -> u32 {
    let near = [0, 1, 2, s.saturating_sub(1), s, s + 1, 65_534, 65_535, 65_536, 65_537];
    if rng.percent(80) {
        rng.pick(&near) as u32
    } else {
        rng.pick(&[u32::MAX, u32::MAX - 1, 0x8000_0000, 0x1_0000])
    }
}

/// A range's length in 16 bits.
fn length16(len: usize) -> u16 {
    len.min(65_535) as u16
}

/// Ranges that end at the frame's end or at slot 65,535, just inside and just outside.
pub(super) fn edges(rng: &mut Rng) -> Parts {
    let s = match rng.below(20) {
        0 => 65_535,
        1 => 65_534,
        _ => rng.pick(&[0, 1, 2, 3, 8, 63, 64, 65]),
    };
    let n = rng.within(2..=4);
    let len = if rng.percent(60) { rng.below(9) } else { edge_length(rng, s) as usize };
    let place = rng.below(n - 1);
    let mut draft = Draft::new(rng, n, s);
    for _ in 0..2 {
        let other = edge_length(draft.rng, s) as u16;
        let (param_slots, ret_slots) = draft.rng.pick(&[(length16(len), other), (other, length16(len))]);
        draft.parts.functions.push(Function { param_slots, ret_slots });
        draft.parts.externs.push(length16(len));
        let mut case = draft.case();
        case.queue = edge_slot(draft.rng, s, 1);
        case.slot = edge_slot(draft.rng, s, len);
        case.elem_slots = length16(len);
        draft.parts.cases.push(case);
    }
    while draft.place() < place {
        draft.op(Opcode::SelectBegin, 0, 0, 0, 0);
    }
    edge_instruction(&mut draft, len);
    while !draft.is_full() {
        draft.op(Opcode::Return, 0, 0, 0, 0);
    }
    draft.finish()
}

/// An instruction with slots at the edges for ranges of `len` slots, some of them well inside.
fn edge_instruction(draft: &mut Draft, len: usize) {
    let ranges = draft.rng.percent(60);
    let op = if ranges { draft.rng.pick(&RANGES) as u8 } else { draft.rng.below(Opcode::COUNT) as u8 };
    let (s, place) = (draft.parts.types.len(), draft.place());
    draft.any_opcode(op);
    let [a, b, c] = [(); 3].map(|()| {
        let inside = draft.rng.percent(40);
        if inside {
            draft.rng.below(s.max(1)) as u16
        } else {
            edge_slot(draft.rng, s, len)
        }
    });
    let second = if draft.rng.percent(50) { len as u32 } else { edge_length(draft.rng, s) };
    let array_len = draft.rng.pick(&[0, 1, 2, 3, 255, 65_535]);
    let metadata = &mut draft.parts.metadata[place];
    if !metadata.is(Kind::SelectExecLayout) {
        *metadata = Metadata { first: len as u32, second, array_len, ..*metadata };
    }
    let instruction = &mut draft.parts.code[place];
    let at_edges = Instruction { a, b, c, ..*instruction };
    // Fields that are no slots stay as they are, or are the range's length.
    *instruction = match Opcode::from_u8(op) {
        Opcode::Jump | Opcode::Hint | Opcode::LoadInt => *instruction,
        Opcode::JumpIf | Opcode::JumpIfNot => Instruction { a, ..*instruction },
        Opcode::ForLoop => Instruction { a, b, ..*instruction },
        Opcode::Call | Opcode::GoStart | Opcode::DeferPush | Opcode::ErrDeferPush => {
            Instruction { b, c, ..*instruction }
        }
        Opcode::CallExtern => Instruction { a, c, ..*instruction },
        Opcode::CopyN => Instruction { c: length16(len), ..at_edges },
        Opcode::Return => Instruction { b: length16(len), ..at_edges },
        Opcode::GlobalGetN | Opcode::GlobalSetN => Instruction { flags: len as u8, ..at_edges },
        _ => at_edges,
    };
}

/// SelectExec with ranges of cases, some empty, some overlapping, some about as many as a select may have, and
/// MapIterNext, between stores into the slots that they perhaps write and reads of them, in several blocks.
pub(super) fn selects(rng: &mut Rng) -> Parts {
    let n = rng.within(2..=9);
    let s = ROOM + rng.within(2..=6);
    let most = MAX_SELECT_CASES as usize;
    let many = rng.percent(20);
    let cases = if many { rng.within(most - 1..=most + 3) } else { rng.within(0..=4) };
    let mut draft = Draft::new(rng, n, s).with_types();
    for _ in 0..cases {
        let mut case = draft.case();
        if draft.rng.percent(50) {
            case.slot = draft.slot();
            case.elem_slots = 1;
        }
        draft.parts.cases.push(case);
    }
    while draft.place() + 1 < n {
        match draft.rng.below(16) {
            0..=2 => draft.any_opcode(Opcode::SelectExec as u8),
            3..=5 => map_iter_next(&mut draft),
            6 => {
                let opcode = draft.rng.pick(&[
                    Opcode::SelectBegin,
                    Opcode::SelectSend,
                    Opcode::SelectRecv,
                    Opcode::MapIterNext,
                ]);
                draft.any_opcode(opcode as u8);
            }
            7 => draft.give_back(),
            8 => draft.any_branch(),
            9..=12 => {
                let (slot, value) = (draft.slot(), draft.rng.below(3) as i32);
                draft.load_int(slot, value);
            }
            _ => draft.pure(20),
        }
        if many && draft.rng.percent(30) {
            let metadata = draft.parts.metadata.last_mut().expect("there is an instruction");
            *metadata = Metadata { second: cases as u32, ..Metadata::new(Kind::SelectExecLayout) };
        }
    }
    draft.give_back();
    draft.finish()
}

/// MapIterNext with its iterator in the frame's last slots, so that key and value are seldom among them.
fn map_iter_next(draft: &mut Draft) {
    let (a, c) = (draft.slot().min(3), draft.slot());
    let b = (draft.parts.types.len() - 7) as u16;
    let metadata = draft.short_metadata(Kind::MapIterNext);
    draft.push(Instruction { op: Opcode::MapIterNext as u8, flags: 0, a, b, c }, metadata);
}
