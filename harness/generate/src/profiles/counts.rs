//! Counts that do not agree, and damaged units.

use super::flow::{branches, loops};
use super::operands::spoiled;
use super::straight::straight;
use crate::damage;
use crate::draft::{Draft, ROOM};
use crate::rng::Rng;
use reference::Opcode;
use unit::{Case, Function, Kind, Line, Metadata, Parts, MAX_SELECT_CASES};

/// Counts that do not agree, defer, and functions of no, one and two instructions; in some of them a select of
/// about as many cases as it may have.
pub(super) fn counts(rng: &mut Rng) -> Parts {
    let mut parts = disagreeing(rng);
    if rng.percent(25) && !parts.metadata.is_empty() {
        let most = MAX_SELECT_CASES as usize;
        parts.cases.resize(rng.within(most - 1..=most + 3), Case::default());
        let cases = parts.cases.len() as u32;
        let place = rng.below(parts.metadata.len());
        parts.metadata[place] = Metadata { second: cases, ..Metadata::new(Kind::SelectExecLayout) };
    }
    parts
}

fn disagreeing(rng: &mut Rng) -> Parts {
    let way = rng.below(5);
    if way == 0 {
        let (n, s) = (rng.within(0..=2), rng.pick(&[0, 1, 2, 64]));
        let mut draft = Draft::new(rng, n, s).with_tables(1);
        while !draft.is_full() {
            if s == 0 {
                draft.op(Opcode::Return, 0, 0, 0, 0);
            } else {
                draft.pure(30);
            }
        }
        return draft.finish();
    }
    let mut parts = match rng.below(4) {
        0 => straight(rng),
        1 => branches(rng),
        2 => loops(rng),
        _ => spoiled(rng),
    };
    match way {
        1 => {
            let m = (parts.metadata.len() + rng.pick(&[0, 1, 3, 4])).saturating_sub(2);
            parts.metadata.resize(m, Metadata::default());
        }
        2 => {
            let types = (parts.types.len() + rng.pick(&[0, 1, 3, 4])).saturating_sub(2);
            parts.types.resize(types, 0);
        }
        3 => parts.defer = 1,
        // Two at once: the order of the answers counts.
        _ => {
            parts.metadata.resize(parts.metadata.len() + rng.below(2), Metadata::default());
            parts.types.resize(parts.types.len() + rng.below(2), 0);
            parts.defer = u32::from(rng.percent(20));
        }
    }
    parts
}

/// A good unit with an entry in every section, damaged.
pub(super) fn damaged(rng: &mut Rng) -> Vec<u8> {
    let parts = whole(rng);
    let damages = damage::each(&parts);
    damages[rng.below(damages.len())].apply(&parts.encode())
}

/// A small unit with an entry in every section.
fn whole(rng: &mut Rng) -> Parts {
    let n = rng.within(2..=4);
    let s = ROOM + rng.within(1..=3);
    let mut draft = Draft::new(rng, n, s).with_types();
    draft.parts.functions.push(Function { param_slots: 1, ret_slots: 1 });
    draft.parts.externs.push(1);
    for _ in 0..draft.rng.within(1..=2) {
        let (constant, case) = (draft.constant(), draft.case());
        draft.parts.constants.push(constant);
        draft.parts.cases.push(case);
    }
    draft.any_opcode(Opcode::SelectExec as u8);
    while !draft.is_full() {
        draft.pure(20);
    }
    let mut parts = draft.finish();
    parts.lines = vec![Line { place: 0, line: 7 }, Line { place: 1, line: 9 }];
    parts
}

/// Every damage of one small unit, for the recorded answers.
pub fn every_damage(seed: u64) -> Vec<Vec<u8>> {
    let parts = whole(&mut Rng::new(seed, 0));
    let good = parts.encode();
    damage::each(&parts).iter().map(|damage| damage.apply(&good)).collect()
}
