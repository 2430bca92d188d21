//! Branches, loops and jumps.

use super::straight::few;
use crate::draft::Draft;
use crate::rng::Rng;
use reference::Opcode;
use unit::{Kind, Metadata, Parts};

/// Branches forward, backward, to themselves and to the last place; now and then one that leaves.
pub(super) fn branches(rng: &mut Rng) -> Parts {
    let (n, s) = (few(rng), rng.within(1..=5));
    let mut draft = Draft::new(rng, n, s).with_types().with_tables(2);
    while !draft.is_full() {
        if draft.place() + 1 == n && draft.rng.percent(70) {
            draft.give_back();
            break;
        }
        match draft.rng.below(20) {
            0..=5 => draft.any_branch(),
            6 => draft.single_slots(),
            7 => draft.op(Opcode::Hint, 0, 0, 0, 0),
            8 => draft.give_back(),
            9..=11 => draft.again(),
            12..=14 => known(&mut draft),
            _ => draft.pure(20),
        }
    }
    if draft.rng.percent(6) {
        leave(&mut draft);
    }
    draft.finish()
}

/// A small known integer, which decides a branch on its slot.
pub(super) fn known(draft: &mut Draft) {
    let (slot, value) = (draft.slot(), draft.rng.below(2) as i32);
    draft.load_int(slot, value);
}

/// Puts a branch that leaves 0 to n − 1 in some place.
pub(super) fn leave(draft: &mut Draft) {
    let place = draft.rng.below(draft.n);
    let (after, after_metadata) = (draft.parts.code.split_off(place), draft.parts.metadata.split_off(place));
    let (slot, target) = (draft.slot(), draft.target_outside());
    match draft.rng.below(4) {
        0 => draft.branch(Opcode::Jump, 0, target),
        1 => draft.branch(Opcode::JumpIf, slot, target),
        2 => draft.branch(Opcode::JumpIfNot, slot, target),
        _ => draft.for_loop(0, slot, slot, target.clamp(-2, draft.n as i64 + 1)),
    }
    draft.parts.code.extend(&after[1..]);
    draft.parts.metadata.extend(&after_metadata[1..]);
}

/// What stands at a loop's end.
fn loop_end(draft: &mut Draft, start: i64) {
    let slot = draft.slot();
    match draft.rng.below(20) {
        0..=6 => {
            let opcode = draft.rng.pick(&[Opcode::JumpIf, Opcode::JumpIfNot]);
            draft.branch(opcode, slot, start);
        }
        7..=11 => {
            let limit = draft.slot();
            draft.for_loop(0, slot, limit, start);
        }
        12..=14 => draft.branch(Opcode::Jump, 0, start),
        // A jump that would go if it were no loop end.
        15 | 16 => {
            let next = (draft.place() + 1).min(draft.n - 1);
            draft.branch(Opcode::Jump, 0, next as i64);
        }
        // Ends that may be removed.
        17 => draft.op(Opcode::Hint, 0, 0, 0, 0),
        18 => draft.load_int(slot, 0),
        _ => draft.pure(20),
    }
}

/// A loop hint for the loop that ends at `end`: mostly sound, now and then with an exit at n or past it, an
/// end outside, or no LoopEnd.
pub(super) fn hint(draft: &mut Draft, end: usize) {
    let n = draft.n as u32;
    let exit = match draft.rng.below(20) {
        0..=11 => end as u32 + 1,
        12..=14 => n,
        15 => draft.rng.pick(&[n + 1, n + 2, 0x7fff_ffff, 0x8000_0000, u32::MAX]),
        _ => draft.rng.within(0..=draft.n) as u32,
    };
    let metadata = match draft.rng.below(40) {
        0 => draft.short_metadata(Kind::None),
        1 => draft.short_metadata(Kind::CallLayout),
        2 => Metadata::loop_end(draft.rng.pick(&[n, n + 1, 0x8000_0000, u32::MAX])),
        3 => draft.short_metadata(Kind::LoopEnd),
        _ => Metadata::loop_end(end as u32),
    };
    draft.loop_hint(exit, metadata);
}

/// Loop hints and ForLoops.
pub(super) fn loops(rng: &mut Rng) -> Parts {
    let (n, s) = (few(rng) + 1, rng.within(1..=5));
    let count = rng.within(1..=2);
    // The loops as (hint, end); a later one may take a place from an earlier one.
    let planned: Vec<(usize, usize)> = (0..count)
        .map(|_| {
            let start = rng.below(n - 1);
            (start, rng.within(start + 1..=n - 1))
        })
        .collect();
    let mut draft = Draft::new(rng, n, s).with_types().with_tables(2);
    while !draft.is_full() {
        let place = draft.place();
        if let Some(&(_, end)) = planned.iter().find(|(start, _)| *start == place) {
            hint(&mut draft, end);
        } else if let Some(&(start, _)) = planned.iter().find(|(_, end)| *end == place) {
            let into = draft.rng.below(2);
            loop_end(&mut draft, (start + into) as i64);
        } else {
            match draft.rng.below(12) {
                0 | 1 => draft.any_branch(),
                2 => draft.single_slots(),
                3 => draft.give_back(),
                4 => draft.op(Opcode::Hint, 0, 0, 0, 0),
                5 | 6 => known(&mut draft),
                7 => draft.again(),
                _ => draft.pure(30),
            }
        }
    }
    draft.finish()
}

/// Jumps over little or nothing, in rows and nested.
pub(super) fn jumps(rng: &mut Rng) -> Parts {
    if rng.percent(20) {
        return row_of_jumps(rng);
    }
    let (n, s) = (rng.within(3..=16), rng.within(1..=3));
    let mut draft = Draft::new(rng, n, s);
    while !draft.is_full() {
        let ahead = (draft.place() + draft.rng.within(0..=4)).min(n - 1) as i64;
        let slot = draft.slot();
        match draft.rng.below(20) {
            0..=8 => draft.branch(Opcode::Jump, 0, ahead),
            9..=12 => draft.branch(Opcode::JumpIf, slot, ahead),
            13 | 14 => draft.op(Opcode::Hint, 0, 0, 0, 0),
            15 => hint(&mut draft, ahead as usize),
            16 => draft.any_branch(),
            17 => draft.give_back(),
            18 => draft.load_int(slot, 1),
            _ => draft.op(Opcode::GlobalSet, 0, 0, slot, 0),
        }
    }
    draft.finish()
}

/// Jumps in a row to the place after them, each also branched to: each round drops the last of them.
fn row_of_jumps(rng: &mut Rng) -> Parts {
    let jumps = rng.within(1..=19);
    let stride = rng.within(1..=2);
    let n = jumps + jumps * stride + 1;
    let mut draft = Draft::new(rng, n, 1);
    for jump in 0..jumps {
        draft.branch(Opcode::JumpIf, 0, (jumps + jump * stride) as i64);
    }
    for _ in 0..jumps {
        draft.branch(Opcode::Jump, 0, n as i64 - 1);
        for _ in 1..stride {
            draft.op(Opcode::Hint, 0, 0, 0, 0);
        }
    }
    draft.op(Opcode::Return, 0, 0, 1, 0);
    draft.finish()
}
