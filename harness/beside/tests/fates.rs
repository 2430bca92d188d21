//! What became of each instruction is what the reference's own steps did to it.

use generate::{every_opcode, named, small_world, SmallWorld};
use lampruda::{cleaned_fates, fates, Fate, Workspace};
use reference::Opcode;
use std::collections::BTreeMap;
use unit::{Answer, Rewritten, Unit};

const SEED: u64 = 5;

/// How many units are drawn, and every how manieth of the small world is taken.
const DRAWN: u64 = 30_000;
const STEP: u64 = 17;

/// The units that are rewritten, and each fate's count over their instructions.
#[derive(Debug, Default)]
struct Counts {
    units: u64,
    fates: BTreeMap<Fate, u64>,
}

fn compare(bytes: &[u8], counts: &mut Counts) {
    let (Some(unit), Answer::Rewritten { bytes }) = (Unit::check(bytes), reference::pass(bytes)) else {
        return;
    };
    counts.units += 1;
    let result = Rewritten::decode(&bytes).unwrap();
    let ours = fates(&unit, &result);
    let theirs = by_stages(&unit, &result);
    assert_eq!(ours, theirs, "{}", text::disassemble(&unit));
    ours.into_iter().for_each(|fate| *counts.fates.entry(fate).or_default() += 1);
}

fn by_stages(unit: &Unit, result: &Rewritten) -> Vec<Fate> {
    let stages = reference::Prepared::new(unit).stages().expect("a rewritten function passes the checks");
    let mut retained = vec![false; stages.code.len()];
    result.retained.iter().for_each(|entry| retained[entry.old_place as usize] = true);
    let fate = |(place, given): (usize, unit::Instruction)| {
        let numbered = &stages.code[place];
        if !stages.reached[place] {
            Fate::Unreachable
        } else if !stages.useful[place] {
            if given.op == Opcode::Hint as u8 {
                Fate::PlainHint
            } else {
                Fate::NeverTaken
            }
        } else if !stages.stored[place] {
            Fate::DeadStore
        } else if !retained[place] {
            Fate::IdleJump
        } else if given == *numbered {
            Fate::Kept
        } else if given.op == numbered.op {
            Fate::Operand
        } else {
            match Opcode::from_u8(numbered.op) {
                Opcode::LoadInt => Fate::Folded,
                Opcode::Copy => Fate::Copied,
                _ => Fate::AlwaysTaken,
            }
        }
    };
    unit.code().enumerate().map(fate).collect()
}

#[test]
fn fates_are_what_the_steps_did() {
    let mut counts = Counts::default();
    (0..DRAWN).for_each(|index| compare(&generate::survey(SEED, index).1, &mut counts));
    named::all().iter().for_each(|named| compare(&named.unit, &mut counts));
    every_opcode(SEED).iter().for_each(|unit| compare(unit, &mut counts));
    let world = SmallWorld::default();
    let numbers = (0..small_world::COUNT).step_by(STEP as usize);
    numbers.for_each(|number| compare(&world.unit(number).unwrap(), &mut counts));
    println!("{counts:?}");
    assert!(counts.units >= 20_000);
    assert_eq!(counts.fates.len(), 10, "every fate occurs");
}

/// The passes one by one end where the library's cleaning does, and say of each instruction whether it is left.
#[test]
fn passes_are_those_of_the_cleaning() {
    let mut workspace = Workspace::default();
    let mut last = [0; 3];
    for index in 0..DRAWN {
        let bytes = generate::survey(SEED, index).1;
        let Some(unit) = Unit::check(&bytes) else { continue };
        let cleaned = workspace.clean(&bytes);
        let (answer, count) = (Answer::from(cleaned.answer), cleaned.passes);
        let passes = workspace.passes(&unit, count);
        assert_eq!(passes.len(), count as usize, "unit {index}");
        let Answer::Rewritten { bytes } = answer else { continue };
        let result = Rewritten::decode(&bytes).unwrap();
        let (pass, made) =
            passes.iter().filter_map(|pass| Some((pass, pass.result.as_ref()?))).next_back().unwrap();
        let mut composed = made.clone();
        composed
            .retained
            .iter_mut()
            .for_each(|entry| entry.old_place = pass.origins[entry.old_place as usize]);
        assert_eq!(composed, result, "unit {index}");
        let mut left = result.retained.iter().map(|entry| entry.old_place).peekable();
        for (place, (fate, pass)) in cleaned_fates(&unit, &result, &passes).into_iter().enumerate() {
            let retained = left.next_if(|old| *old as usize == place).is_some();
            assert_eq!((retained, retained), (!fate.is_removed(), pass == 0), "unit {index}, place {place}");
        }
        last[count as usize - 1] += 1;
    }
    println!("rewritten, by the number of the last pass run: {last:?}");
    assert!(last[1] > 1_000 && last[2] > 1_000);
}
