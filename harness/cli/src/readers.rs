//! `harness readers`: document 02, L7. "a reachable pure store into scalar slots remains exactly if a path leads from
//! it to a declared read of one of its slots with no sure write of that slot between". The paths are searched place
//! by place, without live slots, and held against what the reference's dead stores leave.

use crate::survey::parse;
use reference::{Prepared, Stages};
use std::ops::Range;
use unit::{Answer, Unit};

/// "lowest kept loop hint whose end was removed or whose exit exceeds n": the one refusal after dead stores.
const UNMOVED_HINT: u32 = 10;

pub fn run(options: &[&str]) -> Result<(), String> {
    let (seed, count) = parse(options)?;
    let Counts { units, remain, gone } = search(seed, count)?;
    println!(
        "{units} units of {count}, {} stores: {remain} remain, each with a reader; {gone} do not, none with one",
        remain + gone
    );
    Ok(())
}

/// The units searched, their stores that remain and those that do not.
#[derive(Default)]
struct Counts {
    units: u64,
    remain: u64,
    gone: u64,
}

fn search(seed: u64, count: u64) -> Result<Counts, String> {
    let mut counts = Counts::default();
    for index in 0..count {
        let (profile, bytes) = generate::survey(seed, index);
        let Some(stages) = stages(&bytes) else { continue };
        counts.units += 1;
        compare(&stages, &mut counts).map_err(|place| {
            let found =
                if stages.stored[place] { "remains without a reader" } else { "has a reader and is gone" };
            format!("seed {seed}, unit {index} ({}): the store at {place} {found}", profile.name)
        })?;
    }
    Ok(counts)
}

/// The steps of the pass over a unit, where it comes as far as dead stores and finds the live slots.
fn stages(bytes: &[u8]) -> Option<Stages> {
    let unit = Unit::check(bytes).filter(Unit::is_worked_on)?;
    match reference::pass(bytes) {
        Answer::Refused { number, .. } if number != UNMOVED_HINT => None,
        _ => Some(Prepared::new(&unit).stages().expect("the function passes the checks")),
    }
    .filter(|stages| stages.live_found)
}

/// Counts the reached stores of a function, or gives the first that remains without a reader or is gone with one.
fn compare(stages: &Stages, counts: &mut Counts) -> Result<(), usize> {
    let mut paths = Paths::new(stages);
    for place in 0..stages.code.len() {
        if !stages.reached[place] || !stages.scalar_store[place] {
            continue;
        }
        match (stages.stored[place], paths.has_reader(place)) {
            (true, true) => counts.remain += 1,
            (false, false) => counts.gone += 1,
            _ => return Err(place),
        }
    }
    Ok(())
}

/// A place on a path, and whether the path has left the store's block before it.
type State = (usize, bool);

/// A search for readers in one function.
struct Paths<'s> {
    stages: &'s Stages,
    /// By place and by whether the block was left: the search that last came there.
    seen: Vec<[u64; 2]>,
    searches: u64,
}

impl<'s> Paths<'s> {
    fn new(stages: &'s Stages) -> Self {
        Self { stages, seen: vec![[0; 2]; stages.code.len()], searches: 0 }
    }

    fn has_reader(&mut self, store: usize) -> bool {
        let stages = self.stages;
        stages.sure_writes[store].iter().cloned().flatten().any(|slot| self.leads_to_reader(store, slot))
    }

    /// Whether a path from the store comes to a read of the slot. "A read reached without leaving the store's block
    /// counts only if its instruction remains; every other read counts, also one reached by leaving and coming back."
    fn leads_to_reader(&mut self, store: usize, slot: u16) -> bool {
        let stages = self.stages;
        self.searches += 1;
        let mut pending: Vec<State> = Vec::new();
        self.go_on((store, false), &mut pending);
        while let Some((place, left)) = pending.pop() {
            let seen = &mut self.seen[place][usize::from(left)];
            if *seen == self.searches {
                continue;
            }
            *seen = self.searches;
            // A place that is gone neither reads nor writes.
            let has = |ranges: &[Range<u16>]| {
                stages.useful[place] && ranges.iter().any(|range| range.contains(&slot))
            };
            if has(&stages.reads[place]) && (left || stages.stored[place]) {
                return true;
            }
            if !has(&stages.sure_writes[place]) {
                self.go_on((place, left), &mut pending);
            }
        }
        false
    }

    /// To the next place of the block, or from its last one along the edges.
    fn go_on(&self, (place, left): State, pending: &mut Vec<State>) {
        if self.stages.last[place] {
            pending.extend(self.stages.edges[place].into_iter().flatten().map(|next| (next, true)));
        } else {
            pending.push((place + 1, left));
        }
    }
}

#[cfg(test)]
mod tests {
    use super::*;

    /// The first store hides behind the second.
    const HIDDEN: &str = "
        .locals 1
        LoadInt 0 1
        LoadInt 0 2
        Return 0 1";

    /// The first store is read by the second in their block alone, and the second by nobody.
    const INSIDE: &str = "
        .locals 3
        LoadInt 0 1
        Copy 1 0
        Return 2 1";

    /// The second store is read by the first, which is gone, but after leaving their block and coming back.
    const COMING_BACK: &str = "
        .locals 3
        again: Copy 1 0
        LoadInt 0 7
        JumpIf 2 again
        Return 2 1";

    /// The bound on the length of the functions in which every flag is turned.
    const SHORT: usize = 60;

    fn stages_of(text: &str) -> Stages {
        stages(&text::assemble(text).unwrap()).unwrap()
    }

    fn check(stages: &Stages) -> Result<(), usize> {
        compare(stages, &mut Counts::default())
    }

    #[test]
    fn stores_of_each_kind() {
        for (text, stored) in
            [(HIDDEN, [false, true]), (INSIDE, [false, false]), (COMING_BACK, [false, true])]
        {
            let stages = stages_of(text);
            assert_eq!(stages.stored[..2], stored, "{text}");
            assert_eq!(check(&stages), Ok(()), "{text}");
        }
    }

    #[test]
    fn a_wrong_flag_is_found() {
        for (text, place) in [(HIDDEN, 0), (HIDDEN, 1), (INSIDE, 0), (COMING_BACK, 0), (COMING_BACK, 1)] {
            let mut stages = stages_of(text);
            stages.stored[place] ^= true;
            assert_eq!(check(&stages), Err(place), "{text}");
        }
        // The first store now has a reader that is said to remain.
        let mut stages = stages_of(INSIDE);
        stages.stored[1] = true;
        assert_eq!(check(&stages), Err(0));
    }

    /// At its own store, or at an earlier one that it reads.
    #[test]
    fn every_wrong_flag_is_found() {
        let mut turned = [0; 2];
        for mut stages in (0..2_000).filter_map(|index| stages(&generate::survey(1, index).1)) {
            for place in 0..stages.code.len() {
                if stages.code.len() > SHORT || !stages.reached[place] || !stages.scalar_store[place] {
                    continue;
                }
                stages.stored[place] ^= true;
                assert!(check(&stages).is_err_and(|found| found <= place));
                stages.stored[place] ^= true;
                turned[usize::from(stages.stored[place])] += 1;
            }
        }
        assert!(turned.iter().all(|&count| count >= 1_000), "{turned:?}");
    }

    #[test]
    fn both_kinds_occur_often() {
        let Counts { remain, gone, .. } = search(1, 2_000).unwrap();
        assert!(remain >= 5_000 && gone >= 5_000, "{remain} and {gone}");
    }
}
