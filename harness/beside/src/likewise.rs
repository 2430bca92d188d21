//! `beside likewise`: what one pass and the cleaning rewrite, laid out as a unit again, ends as the given function does.
//!
//! "Whenever a given function returns, panics or runs out at its end in k steps, the rewritten one, from the same frame,
//! ends likewise, with the same words read, in at most k." The answer has no count of steps: k is the limit.

use crate::arena::Arena;
use crate::counts::{Counts, Table};
use crate::desk::Desk;
use crate::guarded::Call;
use crate::options::Options;
use crate::run::{each_unit, frame_words, lend};
use generate::Rng;
use lampruda::sys::{self, Stop};
use lampruda::{lay_out, run_in_numbers, Answer, Workspace};
use unit::{Rewritten, Unit};

/// So many units show every end.
const COUNT: u64 = 20_000;

/// A run that takes more steps is taken for one without end.
pub const PATIENCE: u32 = 5_000;

/// So many frames are tried with each result.
pub const FRAMES: usize = 4;

pub fn run(options: Options) -> Result<(), String> {
    each_rewritten("likewise", options, COUNT, &TABLE, likewise)
}

/// A function that can be run, as a unit and at the interpreter's desk, and what a call makes of it.
pub struct Rewriting<'a> {
    pub desk: Desk,
    pub given: &'a [u8],
    pub rewritten: &'a [u8],
}

/// Has what pass and cleaning rewrite of all units compared with what was given, and counts what is found, by row. Row 0
/// is of the units that are rewritten.
pub fn each_rewritten<const ROWS: usize>(
    command: &'static str,
    options: Options,
    count: u64,
    table: &Table<ROWS, 2>,
    compare: impl Fn(&mut Rng, Rewriting, &mut dyn FnMut(usize)) -> Result<(), String> + Sync,
) -> Result<(), String> {
    let found = each_unit(
        command,
        options,
        count,
        |(rewriter, counts): &mut (Rewriter, Counts<ROWS, 2>), rng, _, given| {
            rewriter.each(rng, given, |rng, column, rewritten| {
                counts.count(0, column);
                let desk = Desk::new(given);
                let desk = desk.map_err(|refused| format!("given, and by the interpreter {refused:?}"))?;
                let rewriting = Rewriting { desk, given, rewritten };
                compare(rng, rewriting, &mut |row| counts.count(row, column))
            })
        },
    )?;
    let mut counts = Counts::default();
    found.workers.iter().for_each(|(_, worker)| counts.add(worker));
    println!("seed {}: {} units", found.seed, found.count);
    counts.print(table);
    found.differences.report()?;
    if found.count >= count {
        counts.is_full(table)?;
    }
    Ok(())
}

/// What is found of runs: the row.
enum Found {
    /// Runs of the given function that end by Return, by Panic, at the end of the code; and those that do not.
    Returned = 1,
    Panicked,
    Ended,
    Endless,
    /// Runs of the rewritten function that take fewer steps, and those that read from another slot.
    Shorter,
    Elsewhere,
}

const ROWS: usize = 7;

const TABLE: Table<ROWS, 2> = Table {
    columns: CALLS,
    name: |row| ["rewritten", "returned", "panicked", "ended", "no end", "shorter", "elsewhere"][row],
    occurs: |_, _| true,
};

/// The calls that rewrite, as columns.
pub const CALLS: [&str; 2] = ["one pass", "cleaned"];

/// Makes units of what the calls rewrite.
#[derive(Default)]
struct Rewriter {
    workspace: Workspace,
    lent: Lent,
}

impl Rewriter {
    /// Has the results of a unit compared, laid out as units again, each with its column.
    fn each(
        &mut self,
        rng: &mut Rng,
        bytes: &[u8],
        mut compare: impl FnMut(&mut Rng, usize, &[u8]) -> Result<(), String>,
    ) -> Result<(), String> {
        for (column, call) in [Call::Pass, Call::Clean].into_iter().enumerate() {
            let answer = match call {
                Call::Pass => self.workspace.pass(bytes),
                Call::Clean => self.workspace.clean(bytes).answer,
            };
            let Answer::Rewritten(result) = answer else { continue };
            let unit = Unit::check(bytes).expect("what is rewritten is a unit");
            let wanted = Rewritten::decode(result).expect("rewritten to a result").as_unit(&unit);
            let of_call = |text: String| format!("{call:?}: {text}");
            if self.lent.lay_out(rng, bytes, result).map_err(of_call)? != wanted {
                return Err(of_call("laid out as another unit".into()));
            }
            compare(rng, column, &wanted).map_err(of_call)?;
        }
        Ok(())
    }
}

/// The memory that a result is laid out in.
pub struct Lent {
    pub unit: Arena,
    pub result: Arena,
    pub out: Arena,
}

impl Default for Lent {
    fn default() -> Self {
        // Room for the longest function that is worked on, with a line on every place.
        let [unit, result, out] = [(); 3].map(|()| Arena::new(640));
        Self { unit, result, out }
    }
}

impl Lent {
    /// In a buffer of the given unit's length, which is always long enough, and whose rest stays.
    fn lay_out(&mut self, rng: &mut Rng, unit: &[u8], result: &[u8]) -> Result<&[u8], String> {
        let noise = rng.word() as u8;
        let given = lend(&mut self.unit, rng, unit);
        let made = lend(&mut self.result, rng, result);
        let out = self.out.lend::<u8>(unit.len(), rng.percent(50));
        out.fill(noise);
        let laid = lay_out(given, made, out);
        let (front, rest) = out.split_at((laid.length as usize).min(unit.len()));
        if laid.kind != sys::LAID_UNIT || laid.number != 0 || laid.place != 0 {
            return Err(format!("{laid:?}"));
        }
        if given != unit || made != result || rest.iter().any(|&byte| byte != noise) {
            return Err("touched more than the unit that is laid out".into());
        }
        Ok(front)
    }
}

/// Runs of both from the same frames within the same limits.
fn likewise(rng: &mut Rng, rewriting: Rewriting, count: &mut dyn FnMut(usize)) -> Result<(), String> {
    let Rewriting { desk, given, rewritten } = rewriting;
    let mut count = |found: Found| count(found as usize);
    let after = Desk::new(rewritten).map_err(|refused| format!("and by the interpreter {refused:?}"))?;
    for _ in 0..FRAMES {
        let words = frame_words(rng, desk.s);
        let (stop, steps) = desk.run(&mut words.clone(), PATIENCE);
        count(match stop.kind {
            sys::RETURNED => Found::Returned,
            sys::PANICKED => Found::Panicked,
            sys::ENDED => Found::Ended,
            _ => Found::Endless,
        });
        // As few steps as will do, and more.
        let limits = match stop.kind {
            sys::OTHER | sys::LIMIT => vec![rng.below(PATIENCE as usize) as u32],
            _ => vec![steps, steps + rng.below(100) as u32, u32::MAX],
        };
        for limit in limits {
            let said = |text: String| format!("limit {limit}, {words:?}: {text}");
            let [mut frame, mut frame_after, mut frame_own] = [(); 3].map(|()| words.clone());
            let stopped = run_in_numbers(given, &mut frame, limit);
            let stopped_after = run_in_numbers(rewritten, &mut frame_after, limit);
            let (own, steps_after) = after.run(&mut frame_own, limit);
            if own != stopped_after || frame_own != frame_after {
                return Err(said(format!("rewritten {stopped_after:?}, and the interpreter {own:?}")));
            }
            if [sys::OTHER, sys::LIMIT].contains(&stop.kind) {
                continue;
            }
            let same = stopped == stop
                && stopped_after.kind == stopped.kind
                && stopped_after.second == stopped.second
                && read(stopped, &frame) == read(stopped_after, &frame_after);
            if !same {
                return Err(said(format!("{stopped:?}, and rewritten {stopped_after:?}")));
            }
            if limit == steps && steps_after < steps {
                count(Found::Shorter);
            }
            if limit == steps && stopped_after.first != stopped.first {
                count(Found::Elsewhere);
            }
        }
    }
    Ok(())
}

/// The words that were read.
fn read(stop: Stop, frame: &[u64]) -> &[u64] {
    match stop.second {
        0 => &[],
        count => &frame[stop.first as usize..][..count as usize],
    }
}
