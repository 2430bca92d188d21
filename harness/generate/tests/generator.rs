//! The generator: the same units on every machine, and units at all.

use generate::{DESK, PROFILES};
use reference::Opcode::{self, *};
use unit::{Parts, Unit};

const SEED: u64 = 1;

fn hash(bytes: &[u8], hash: u64) -> u64 {
    bytes.iter().fold(hash, |hash, byte| (hash ^ u64::from(*byte)).wrapping_mul(0x0100_0000_01b3))
}

/// A change of the generator changes this number, and the recorded answers with it.
#[test]
fn same_units_everywhere() {
    let hashed =
        (0..500).map(|index| generate::survey(SEED, index).1).fold(0, |so_far, unit| hash(&unit, so_far));
    assert_eq!(hashed, EXPECTED);
}

const EXPECTED: u64 = 2_123_840_791_886_097_326;

#[test]
fn profiles_draw_units() {
    for profile in PROFILES.iter().filter(|profile| profile.name != "damaged") {
        let count = if profile.weight < 100 { 3 } else { 500 };
        for index in 0..count {
            let bytes = profile.unit(SEED, index);
            let unit = Unit::check(&bytes).unwrap_or_else(|| panic!("{} {index}", profile.name));
            assert_eq!(Parts::decode(&unit).encode(), bytes, "{} {index}", profile.name);
        }
    }
}

/// All instructions that a run at the desk executes occur, and others; some functions are short, and some have defer.
#[test]
fn desk_draws_units() {
    let units: Vec<Vec<u8>> = (0..2_000).map(|index| DESK.unit(SEED, index)).collect();
    let units: Vec<Parts> =
        units.iter().map(|bytes| Parts::decode(&Unit::check(bytes).expect("a unit"))).collect();
    for n in [0, 1] {
        assert!(units.iter().any(|parts| parts.code.len() == n));
    }
    assert!(units.iter().any(|parts| parts.defer == 1));
    let occurs =
        |opcode: Opcode| units.iter().flat_map(|parts| &parts.code).any(|code| code.op == opcode as u8);
    let executed = [
        Hint, LoadInt, LoadConst, Copy, CopyN, AddI, SubI, MulI, NegI, EqI, NeI, LtI, LtU, LeI, LeU, GtI,
        GtU, GeI, GeU, And, Or, Xor, AndNot, Not, BoolNot, Jump, JumpIf, JumpIfNot, Return, Trunc, Panic,
    ];
    assert!(executed.into_iter().chain([ForLoop, AddF, Call]).all(occurs));
}

#[test]
fn damage_is_mostly_damage() {
    let damages = generate::every_damage(SEED);
    let units = damages.iter().filter(|bytes| Unit::check(bytes).is_some()).count();
    assert!(units < damages.len() / 10, "{units} of {}", damages.len());
}
