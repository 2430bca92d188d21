//! `beside never-above`: what one pass and the cleaning rewrite is never charged above the given function.
//!
//! "If LoadInt and Copy cost no more than any unary or binary pure opcode, and Jump no more than either conditional
//! jump, and the given function returns, panics or runs out at its end within the step limit, the rewritten one is never
//! charged above it." Without any one of these it now and then is, which has to be found too.

use crate::charge::prices;
use crate::counts::Table;
use crate::likewise::{each_rewritten, Rewriting, CALLS, FRAMES, PATIENCE};
use crate::options::Options;
use crate::run::frame_words;
use generate::Rng;
use lampruda::{charge_in_numbers, sys};
use std::cmp::Ordering;
use text::Opcode::{self, *};
use text::{BINARY, UNARY};

/// So many units show everything.
const COUNT: u64 = 50_000;

pub fn run(options: Options) -> Result<(), String> {
    each_rewritten("never-above", options, COUNT, &TABLE, never_above)
}

/// What is found of charges: the row.
#[derive(Clone, Copy)]
enum Found {
    /// Those by which the rewritten function is the cheaper one, and those that are the same.
    Cheaper = 1,
    Same,
    /// Those by which it is dearer: where LoadInt costs more than an operator, where Copy does, where Jump costs more
    /// than a conditional jump, and where the given function does not end.
    ByLoadInt,
    ByCopy,
    ByJump,
    Endless,
}

const ROWS: usize = 7;

const TABLE: Table<ROWS, 2> = Table {
    columns: CALLS,
    name: |row| {
        let dearer = ["dearer by LoadInt", "dearer by Copy", "dearer by Jump", "dearer without end"];
        ["rewritten", "cheaper", "the same"].into_iter().chain(dearer).nth(row).expect("a row")
    },
    occurs: |_, _| true,
};

/// Charges of both from the same frames, within the same limits and by the same tariffs.
fn never_above(rng: &mut Rng, rewriting: Rewriting, count: &mut dyn FnMut(usize)) -> Result<(), String> {
    let Rewriting { desk, given, rewritten } = rewriting;
    let mut count = |found: Found| count(found as usize);
    for _ in 0..FRAMES {
        let words = frame_words(rng, desk.s);
        let charges = |limit, tariff: &[u16]| {
            [given, rewritten].map(|unit| charge_in_numbers(unit, &mut words.clone(), limit, tariff).cents)
        };
        let (stop, steps) = desk.run(&mut words.clone(), PATIENCE);
        let ends = ![sys::OTHER, sys::LIMIT].contains(&stop.kind);
        if ends {
            for limit in [steps, steps + rng.below(100) as u32, u32::MAX] {
                let tariff = fair(rng);
                let [before, after] = charges(limit, &tariff);
                match after.cmp(&before) {
                    Ordering::Less => count(Found::Cheaper),
                    Ordering::Equal => count(Found::Same),
                    Ordering::Greater => {
                        let cents = format!("{after} cents, and given {before}");
                        return Err(format!("limit {limit}, {words:?}: {cents}, prices {tariff:?}"));
                    }
                }
            }
            for (premise, found) in PREMISES.iter().zip([Found::ByLoadInt, Found::ByCopy, Found::ByJump]) {
                let [before, after] = charges(steps, &premise.broken(rng));
                if after > before {
                    count(found);
                }
            }
        }
        let too_few = if ends { steps } else { PATIENCE };
        let [before, after] = charges(rng.below(too_few as usize) as u32, &fair(rng));
        if after > before {
            count(Found::Endless);
        }
    }
    Ok(())
}

/// A premise on prices: one opcode costs no more than any of some others.
struct Premise {
    one: Opcode,
    others: fn() -> Vec<usize>,
}

const PREMISES: [Premise; 3] = [
    Premise { one: LoadInt, others: operators },
    Premise { one: Copy, others: operators },
    Premise { one: Jump, others: || [JumpIf, JumpIfNot].map(|opcode| opcode as usize).into() },
];

/// The 47 unary and binary pure opcodes.
fn operators() -> Vec<usize> {
    UNARY.into_iter().chain(BINARY).map(|opcode| opcode as usize).collect()
}

impl Premise {
    /// The price that the one may have at most.
    fn most(&self, tariff: &[u16]) -> u16 {
        (self.others)().into_iter().map(|op| tariff[op]).min().expect("there are others")
    }

    /// Prices that keep the others alone, if there is a price above the most.
    fn broken(&self, rng: &mut Rng) -> Vec<u16> {
        let mut tariff = fair(rng);
        let most = self.most(&tariff);
        tariff[self.one as usize] = rng.within(most.into()..=u16::MAX.into()) as u16;
        tariff
    }
}

/// Prices that keep the premises, every other time just so.
fn fair(rng: &mut Rng) -> Vec<u16> {
    let mut tariff = prices(rng);
    for premise in PREMISES {
        let most = premise.most(&tariff);
        let price = if rng.percent(50) { most } else { rng.below(usize::from(most) + 1) as u16 };
        tariff[premise.one as usize] = price;
    }
    tariff
}

#[cfg(test)]
mod tests {
    use super::*;

    #[test]
    fn premises_are_kept_and_broken() {
        assert_eq!(operators().len(), 47);
        let rng = &mut Rng::new(1, 0);
        let keeps = |tariff: &[u16], premise: &Premise| tariff[premise.one as usize] <= premise.most(tariff);
        for _ in 0..1_000 {
            let tariff = fair(rng);
            assert!(PREMISES.iter().all(|premise| keeps(&tariff, premise)));
        }
        for (index, premise) in PREMISES.iter().enumerate() {
            let tariffs: Vec<Vec<u16>> = (0..1_000).map(|_| premise.broken(rng)).collect();
            for (other, kept) in PREMISES.iter().enumerate() {
                assert_eq!(tariffs.iter().all(|tariff| keeps(tariff, kept)), other != index);
            }
        }
    }
}
