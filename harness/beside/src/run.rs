//! `beside run`: runs at the desk and single steps of them beside an interpreter, unit and frame between guarded pages.

use crate::arena::Arena;
use crate::counts::{Counts, Table};
use crate::desk::{stop, Desk};
use crate::differences::Differences;
use crate::options::Options;
use crate::{compare, faults, mutate, operand, parallel};
use generate::small_world::{SmallWorld, COUNT as SHORT};
use generate::{Rng, DESK, EXTREMES, SHAPES};
use lampruda::run_in_numbers;
use lampruda::sys::{self, Stop};
use unit::{Entry, Header, Unit, HEADER_LEN, MAX_LOCAL_SLOTS};

/// So many units show every answer.
const COUNT: u64 = 50_000;

/// A run that takes more steps, and more than twice as many as there are instructions, is taken for one without end.
const PATIENCE: u32 = 2_000;

/// So many instructions are checked when a run is made step by step: each step checks them all.
const CHECKED: usize = 20_000;

pub fn run(options: Options) -> Result<(), String> {
    let found =
        each_unit("run", options, COUNT, |worker: &mut Worker, rng, _, unit| worker.compare(rng, unit))?;
    let mut counts = Counts::default();
    found.workers.iter().for_each(|worker| counts.add(&worker.counts));
    let [runs, steps] = [Of::Run, Of::Step].map(|of| counts.sum(of as usize));
    println!("seed {}: {} units, {runs} runs, {steps} steps", found.seed, found.count);
    counts.print(&TABLE);
    found.differences.report()?;
    if found.count >= COUNT {
        counts.is_full(&TABLE)?;
    }
    Ok(())
}

/// What a subcommand over `Units` has found: its workers, and where the library differs.
pub struct Found<W> {
    pub seed: u64,
    pub count: u64,
    pub workers: Vec<W>,
    pub differences: Differences,
}

/// Has as many units compared as `--count` says, from the number `--from` on.
pub fn each_unit<W: Default + Send>(
    command: &'static str,
    mut options: Options,
    count: u64,
    compare: impl Fn(&mut W, &mut Rng, &Units, &[u8]) -> Result<(), String> + Sync,
) -> Result<Found<W>, String> {
    let seed = options.number("seed", 1)?;
    let from = options.number("from", 0)?;
    let count = options.number("count", count)?;
    options.done()?;
    faults::report(command, seed);
    let units = Units::new(seed);
    let done = parallel::each(count, <(W, Differences)>::default, |(worker, differences), index| {
        let number = from + index;
        let (name, unit) = units.draw(number);
        faults::under_way(number);
        if let Err(text) = compare(worker, &mut Rng::new(seed, number), &units, &unit) {
            differences.note(number, name, text, unit);
        }
    });
    let mut found = Found { seed, count, workers: Vec::new(), differences: Differences::default() };
    for (worker, differences) in done {
        found.workers.push(worker);
        found.differences.add(differences);
    }
    Ok(found)
}

/// Units of all sorts: first those of `beside compare` that are always there, then drawn ones.
pub struct Units {
    seed: u64,
    fixed: Vec<(String, Vec<u8>)>,
    world: SmallWorld,
}

impl Units {
    pub fn new(seed: u64) -> Self {
        Self { seed, fixed: compare::fixed(seed), world: SmallWorld::default() }
    }

    pub fn draw(&self, number: u64) -> (String, Vec<u8>) {
        if let Some(fixed) = self.fixed.get(number as usize) {
            return fixed.clone();
        }
        let rng = &mut Rng::new(self.seed, number);
        match rng.below(100) {
            0..=54 => (DESK.name.into(), DESK.unit(self.seed, number)),
            55..=59 => {
                let mut unit = DESK.unit(self.seed, number);
                (0..rng.within(1..=3)).for_each(|_| mutate::spoil(rng, &mut unit));
                ("spoiled desk".into(), unit)
            }
            60..=81 => {
                let (profile, unit) = generate::survey(self.seed, number);
                (profile.name.into(), unit)
            }
            82..=91 => ("any bytes".into(), mutate::bytes(rng)),
            92 => {
                let shape = if rng.percent(50) { rng.pick(&SHAPES) } else { rng.pick(&EXTREMES) };
                (shape.name.into(), shape.unit(number, rng.within(2..=200)))
            }
            _ => {
                let number = rng.below(SHORT as usize) as u64;
                ("small world".into(), self.world.unit(number).expect("a number below the count"))
            }
        }
    }
}

/// Words of a frame: small ones decide branches, the others turn signs and wrap.
pub fn frame_words(rng: &mut Rng, len: usize) -> Vec<u64> {
    let small = rng.percent(30);
    let word = |_| match rng.below(4) {
        0 => rng.below(4) as u64,
        1 => (rng.below(4) as u64).wrapping_neg(),
        _ if small => rng.below(2) as u64,
        _ => operand::any_word(rng),
    };
    (0..len).map(word).collect()
}

/// One worker's memory and what it has found.
struct Worker {
    unit: Arena,
    frame: Arena,
    counts: Counts<ROWS, 2>,
}

impl Default for Worker {
    fn default() -> Self {
        let [unit, frame] = arenas();
        Self { unit, frame, counts: Counts::default() }
    }
}

/// Room for a function that is too long for one pass, with a line on every place, and for the longest frame.
pub fn arenas() -> [Arena; 2] {
    [640, 136].map(Arena::new)
}

impl Worker {
    /// Runs of a unit with several frames and limits, single steps from any place, and a run step by step.
    fn compare(&mut self, rng: &mut Rng, bytes: &[u8]) -> Result<(), String> {
        let desk = Desk::new(bytes);
        let unit = lend(&mut self.unit, rng, bytes);
        let mut call = Call { unit, frame: &mut self.frame, counts: &mut self.counts, desk: &desk };
        let s = slots(bytes);
        let runs = if desk.is_ok() { 4 } else { 1 };
        for _ in 0..runs {
            let words = frame_words(rng, s);
            let limit = limit(rng, &desk, &words);
            call.run(rng, &words, limit)?;
            let place = place(rng, bytes);
            call.step(rng, &words, place)?;
        }
        let length = wrong_length(rng, s);
        let words = frame_words(rng, length);
        let (limit, place) = (limit(rng, &desk, &words), place(rng, bytes));
        call.run(rng, &words, limit)?;
        call.step(rng, &words, place)?;
        if let Ok(desk) = &desk {
            let words = frame_words(rng, s);
            let most = (CHECKED / desk.n().max(1)).min(200);
            let limit = rng.below(most + 1) as u32;
            call.step_by_step(rng, &words, limit)?;
        }
        match call.unit == bytes {
            true => Ok(()),
            false => Err("the unit is touched".into()),
        }
    }
}

/// The number of local slots by the header, if that is one of a unit.
pub fn slots(bytes: &[u8]) -> usize {
    match bytes.get(..HEADER_LEN).map(Header::read) {
        Some(header) if header.local_slots <= MAX_LOCAL_SLOTS => header.local_slots as usize,
        _ => 3,
    }
}

/// A wrong length: about s, none, or more.
pub fn wrong_length(rng: &mut Rng, s: usize) -> usize {
    match rng.below(5) {
        0 | 1 => s + 1,
        2 | 3 => s.checked_sub(1).unwrap_or(2),
        _ if s > 0 && rng.percent(50) => 0,
        _ => s + rng.within(2..=80),
    }
}

/// 0, 1, a few, about the number of steps that the run takes, or more than enough.
pub fn limit(rng: &mut Rng, desk: &Result<Desk, Stop>, words: &[u64]) -> u32 {
    let few = rng.below(30) as u32;
    let Ok(desk) = desk else { return rng.pick(&[0, 1, few, PATIENCE]) };
    let patience = PATIENCE.max(2 * desk.n() as u32);
    let (stopped, steps) = desk.run(&mut words.to_vec(), patience);
    let enough = if stopped.kind == sys::LIMIT { patience } else { u32::MAX };
    match rng.below(10) {
        0 => 0,
        1 => 1,
        2 => few,
        3 | 4 => steps.saturating_sub(1),
        5 | 6 => steps,
        7 => steps + 1,
        _ => rng.pick(&[patience, enough]),
    }
}

/// A place: in the code, at its end, behind it.
fn place(rng: &mut Rng, bytes: &[u8]) -> u32 {
    let n = Unit::check(bytes).map_or(0, |unit| unit.code().count());
    match rng.below(10) {
        0 => n as u32,
        1 => n as u32 + 1,
        2 => rng.pick(&[u32::MAX, 0x7fff_ffff, 0x8000_0000, 65_535, 65_536]),
        _ => rng.below(n.max(1)) as u32,
    }
}

/// A unit between guarded pages, and a frame to be lent between others.
struct Call<'a> {
    unit: &'a [u8],
    frame: &'a mut Arena,
    counts: &'a mut Counts<ROWS, 2>,
    desk: &'a Result<Desk, Stop>,
}

impl Call<'_> {
    /// A run is as the interpreter's, in its answer and in each word of the frame.
    fn run(&mut self, rng: &mut Rng, words: &[u64], limit: u32) -> Result<(), String> {
        let frame = lend(self.frame, rng, words);
        let given = run_in_numbers(self.unit, frame, limit);
        let mut wanted_frame = words.to_vec();
        let wanted = match self.desk {
            Ok(desk) => desk.run(&mut wanted_frame, limit).0,
            Err(refused) => *refused,
        };
        self.counts.count(row(wanted), Of::Run as usize);
        same(given, frame, wanted, &wanted_frame).map_err(|text| format!("run of {limit}: {text} {words:?}"))
    }

    /// So is one step.
    fn step(&mut self, rng: &mut Rng, words: &[u64], place: u32) -> Result<(), String> {
        let frame = lend(self.frame, rng, words);
        let given = step_at_the_desk(self.unit, frame, place);
        let mut wanted_frame = words.to_vec();
        let wanted = match self.desk {
            Ok(desk) => desk.step(&mut wanted_frame, place),
            Err(refused) => *refused,
        };
        self.counts.count(row(wanted), Of::Step as usize);
        same(given, frame, wanted, &wanted_frame).map_err(|text| format!("step at {place}: {text} {words:?}"))
    }

    /// Steps one after the other, from place 0 on, are the run.
    fn step_by_step(&mut self, rng: &mut Rng, words: &[u64], limit: u32) -> Result<(), String> {
        let mut wanted_frame = words.to_vec();
        let wanted = run_in_numbers(self.unit, &mut wanted_frame, limit);
        let frame = lend(self.frame, rng, words);
        let (mut place, mut steps) = (0, 0);
        let stopped = loop {
            let before = frame.to_vec();
            let due = step_at_the_desk(self.unit, frame, place);
            self.counts.count(row(due), Of::Step as usize);
            let is_step = [sys::GOES, sys::RETURNED, sys::PANICKED].contains(&due.kind);
            if is_step && steps == limit {
                frame.copy_from_slice(&before);
                break stop(sys::LIMIT, 0, 0);
            }
            if due.kind != sys::GOES {
                break due;
            }
            (place, steps) = (due.first, steps + 1);
        };
        same(stopped, frame, wanted, &wanted_frame)
            .map_err(|text| format!("steps up to {limit}: {text} {words:?}"))
    }
}

/// A copy at one end of the memory or at the other. T is a number.
pub fn lend<'a, T: Copy>(arena: &'a mut Arena, rng: &mut Rng, given: &[T]) -> &'a mut [T] {
    let lent = arena.lend::<T>(given.len(), rng.percent(50));
    lent.copy_from_slice(given);
    lent
}

fn step_at_the_desk(unit: &[u8], frame: &mut [u64], place: u32) -> Stop {
    // Both are lent for the call alone.
    unsafe { sys::lampruda_step(unit.as_ptr(), unit.len(), frame.as_mut_ptr(), frame.len(), place) }
}

pub fn same(given: Stop, frame: &[u64], wanted: Stop, wanted_frame: &[u64]) -> Result<(), String> {
    if given != wanted {
        return Err(format!("{given:?}, expected {wanted:?}"));
    }
    match frame.iter().zip(wanted_frame).position(|(word, wanted)| word != wanted) {
        Some(slot) => {
            Err(format!("{given:?}, slot {slot} is {:#x}, expected {:#x}", frame[slot], wanted_frame[slot]))
        }
        None => Ok(()),
    }
}

/// What was called: the column.
#[derive(Clone, Copy)]
enum Of {
    Run,
    Step,
}

/// A step is never at the limit, and a run never goes on; neither has a tariff.
const TABLE: Table<ROWS, 2> = Table {
    columns: ["runs", "steps"],
    name: |row| ANSWERS[row].2,
    occurs: |row, column| {
        let never = [sys::GOES, sys::LIMIT][column];
        ANSWERS[row].0 != never && ANSWERS[row].1 != TARIFF
    },
};

pub const ROWS: usize = 17;

/// The number of a refused tariff.
pub const TARIFF: u32 = 15;

/// The answers of the desk, refusals in their order: kind, number of a refusal, and a name.
pub const ANSWERS: [(u32, u32, &str); ROWS] = [
    (sys::RETURNED, 0, "returned"),
    (sys::PANICKED, 0, "panicked"),
    (sys::ENDED, 0, "ended"),
    (sys::OTHER, 0, "other"),
    (sys::LIMIT, 0, "limit"),
    (sys::GOES, 0, "goes on"),
    (sys::REFUSED, 1, "refused 1"),
    (sys::REFUSED, 11, "refused 11"),
    (sys::REFUSED, 13, "refused 13"),
    (sys::REFUSED, 3, "refused 3"),
    (sys::REFUSED, 4, "refused 4"),
    (sys::REFUSED, 5, "refused 5"),
    (sys::REFUSED, 6, "refused 6"),
    (sys::REFUSED, 7, "refused 7"),
    (sys::REFUSED, 8, "refused 8"),
    (sys::REFUSED, 12, "refused 12"),
    (sys::REFUSED, TARIFF, "refused 15"),
];

/// The row of an answer.
pub fn row(stop: Stop) -> usize {
    let number = if stop.kind == sys::REFUSED { stop.first } else { 0 };
    let found = ANSWERS.iter().position(|answer| (answer.0, answer.1) == (stop.kind, number));
    found.expect("an answer of the desk")
}
