//! The passes of a cleaning one by one, and what became of each instruction in them.

use crate::{as_unit, fates, Answer, Fate, Workspace};
use unit::{Rewritten, Unit};

/// A pass of a cleaning.
pub struct Pass {
    /// What it was given: the unit, or the result before it laid out as a unit again.
    pub unit: Vec<u8>,
    /// For each of its places, the place in the given unit.
    pub origins: Vec<u32>,
    pub result: Option<Rewritten>,
}

impl Workspace {
    /// Up to so many passes, each over the result of the one before: "Cleaning stops at the first pass that does
    /// not rewrite".
    pub fn passes(&mut self, given: &Unit, most: u32) -> Vec<Pass> {
        let places = given.code().count() as u32;
        let mut next =
            Some(Pass { unit: given.bytes().to_vec(), origins: (0..places).collect(), result: None });
        let mut passes = Vec::new();
        while let Some(mut pass) = next.take() {
            if let Answer::Rewritten(bytes) = self.pass(&pass.unit) {
                pass.result = Rewritten::decode(bytes);
                if passes.len() + 1 < most as usize {
                    next = as_unit(&pass.unit, bytes).map(|unit| pass.after(unit));
                }
            }
            passes.push(pass);
        }
        passes
    }
}

impl Pass {
    /// The one over its result, laid out as a unit.
    fn after(&self, unit: Vec<u8>) -> Self {
        let origin = |entry: &unit::Retained| self.origins[entry.old_place as usize];
        let origins = self.result.iter().flat_map(|result| &result.retained).map(origin).collect();
        Self { unit, origins, result: None }
    }
}

/// What became of each instruction of the given unit, and the number of the pass that removed it, 0 where it is
/// retained: then the cleaning's result is compared with what was given.
pub fn cleaned_fates(given: &Unit, result: &Rewritten, passes: &[Pass]) -> Vec<(Fate, u32)> {
    let code: Vec<_> = given.code().collect();
    let mut cleaned = vec![(Fate::Kept, 0); code.len()];
    for (number, pass) in (1..).zip(passes) {
        if let (Some(unit), Some(result)) = (Unit::check(&pass.unit), &pass.result) {
            for (fate, origin) in fates(&unit, result).into_iter().zip(&pass.origins) {
                if fate.is_removed() {
                    cleaned[*origin as usize] = (fate, number);
                }
            }
        }
    }
    for entry in &result.retained {
        let origin = entry.old_place as usize;
        cleaned[origin].0 = Fate::of_retained(&code[origin], &entry.instruction);
    }
    cleaned
}
