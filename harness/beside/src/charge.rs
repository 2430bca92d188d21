//! `beside charge`: charged runs beside the interpreter and another way to add up, with prices of all sorts; unit, frame
//! and tariff between guarded pages.
//!
//! "A tariff holds 256 prices of 16 bits, one per opcode byte; the charge is the price of all executed instructions,
//! divided by 1,000 and rounded up to a whole cent."

use crate::arena::Arena;
use crate::counts::{Counts, Table};
use crate::desk::{refused, Desk};
use crate::options::Options;
use crate::run::{self, each_unit, frame_words, same, ANSWERS, TARIFF};
use generate::Rng;
use lampruda::sys::{self, Charged, Stop};
use lampruda::{charge_in_numbers, run_in_numbers, PRICES};
use text::Opcode::{self, *};

/// So many units show everything.
const COUNT: u64 = 50_000;

/// So many frames are tried with a unit that is not refused, and so many tariffs with each frame.
const FRAMES: usize = 3;
const TARIFFS: usize = 3;

pub fn run(options: Options) -> Result<(), String> {
    let found =
        each_unit("charge", options, COUNT, |worker: &mut Worker, rng, _, unit| worker.compare(rng, unit))?;
    let (mut answers, mut bills) = (Counts::default(), Counts::default());
    for worker in &found.workers {
        answers.add(&worker.answers);
        bills.add(&worker.bills);
    }
    let runs = answers.sum(0) + answers.sum(1);
    println!("seed {}: {} units, {runs} charged runs", found.seed, found.count);
    answers.print(&ANSWER_TABLE);
    bills.print(&BILL_TABLE);
    found.differences.report()?;
    if found.count >= COUNT {
        answers.is_full(&ANSWER_TABLE)?;
        bills.is_full(&BILL_TABLE)?;
        charge_the_most()?;
    }
    Ok(())
}

/// "No charge exceeds 281,470,681,678 cents, which a jump to itself at the highest limit and price reaches." It takes as
/// long as all the rest.
fn charge_the_most() -> Result<(), String> {
    let unit = text::assemble("Jump +0").expect("the text is one of a unit");
    let charged = charge_in_numbers(&unit, &mut [], u32::MAX, &[u16::MAX; PRICES]);
    match charged {
        Charged { kind: sys::LIMIT, first: 0, second: 0, cents: 281_470_681_678 } => Ok(()),
        _ => Err(format!("at the highest limit and price {charged:?}")),
    }
}

/// A tariff of another length is refused 15, but behind every other refusal.
const ANSWER_TABLE: Table<{ run::ROWS }, 2> = Table {
    columns: ["256 prices", "others"],
    name: |row| ANSWERS[row].2,
    occurs: |row, column| {
        let (kind, number, _) = ANSWERS[row];
        if column == 0 {
            kind != sys::GOES && number != TARIFF
        } else {
            kind == sys::REFUSED
        }
    },
};

/// What is found of tariffs and of what they make of a run: the rows.
const BILLS: [(Bill, &str); 14] = [
    (Bill::Length(0), "no price"),
    (Bill::Length(1), "1 price"),
    (Bill::Length(255), "255 prices"),
    (Bill::Length(256), "256 prices"),
    (Bill::Length(257), "257 prices"),
    (Bill::Length(512), "512 prices"),
    (Bill::Nothing, "for nothing"),
    (Bill::Over(0), "whole cents"),
    (Bill::Over(1), "1 over"),
    (Bill::Over(999), "999 over"),
    (Bill::Alone(Hint), "Hint alone"),
    (Bill::Alone(Jump), "Jump alone"),
    (Bill::Alone(Return), "Return alone"),
    (Bill::Alone(Panic), "Panic alone"),
];

enum Bill {
    /// So many prices.
    Length(usize),
    /// The steps cost nothing.
    Nothing,
    /// So many thousandths over whole cents.
    Over(u128),
    /// All that is paid is paid for one opcode.
    Alone(Opcode),
}

impl Bill {
    /// Whether it is one of these prices, and of what was executed for this price, which a refusal has none of.
    fn is_of(&self, tariff: &[u16], executed: &Executed, price: Option<u128>) -> bool {
        match *self {
            Self::Length(prices) => tariff.len() == prices,
            Self::Nothing => price == Some(0),
            Self::Over(rest) => price.is_some_and(|price| price > 0 && price % 1_000 == rest),
            Self::Alone(opcode) => price.is_some() && executed.alone(tariff) == Some(opcode as u8),
        }
    }
}

const BILL_TABLE: Table<{ BILLS.len() }, 1> =
    Table { columns: ["runs"], name: |row| BILLS[row].1, occurs: |_, _| true };

/// How often each opcode byte was executed.
struct Executed([u64; PRICES]);

impl Executed {
    /// What all of them cost together, in thousandths of a cent.
    fn price(&self, tariff: &[u16]) -> u128 {
        self.0.iter().zip(tariff).map(|(&count, &price)| u128::from(count) * u128::from(price)).sum()
    }

    /// The opcode byte that all is paid for.
    fn alone(&self, tariff: &[u16]) -> Option<u8> {
        let mut paid = (0..=u8::MAX).filter(|&op| self.0[usize::from(op)] > 0 && tariff[usize::from(op)] > 0);
        paid.next().filter(|_| paid.next().is_none())
    }
}

/// One worker's memory and what it has found.
struct Worker {
    unit: Arena,
    frame: Arena,
    tariff: Arena,
    answers: Counts<{ run::ROWS }, 2>,
    bills: Counts<{ BILLS.len() }, 1>,
}

impl Default for Worker {
    fn default() -> Self {
        let [unit, frame] = run::arenas();
        Self { unit, frame, tariff: Arena::new(1), answers: Counts::default(), bills: Counts::default() }
    }
}

impl Worker {
    /// Runs of a unit with several frames and limits, the last of them with a frame of a wrong length.
    fn compare(&mut self, rng: &mut Rng, bytes: &[u8]) -> Result<(), String> {
        let desk = Desk::new(bytes);
        let s = run::slots(bytes);
        let frames = if desk.is_ok() { FRAMES } else { 1 };
        for number in 0..=frames {
            let length = if number < frames { s } else { run::wrong_length(rng, s) };
            let words = frame_words(rng, length);
            let limit = run::limit(rng, &desk, &words);
            self.charge(rng, bytes, &desk, &words, limit)
                .map_err(|text| format!("limit {limit}: {text} {words:?}"))?;
        }
        Ok(())
    }

    /// With each tariff a charged run is the run, and costs what its steps do.
    fn charge(
        &mut self,
        rng: &mut Rng,
        bytes: &[u8],
        desk: &Result<Desk, Stop>,
        words: &[u64],
        limit: u32,
    ) -> Result<(), String> {
        let mut executed = Executed([0; PRICES]);
        let mut frame_after = words.to_vec();
        let stop = match desk {
            Ok(desk) => desk.run_noting(&mut frame_after, limit, |op| executed.0[usize::from(op)] += 1).0,
            Err(refused) => *refused,
        };
        let mut frame_of_run = words.to_vec();
        let stop_of_run = run_in_numbers(bytes, &mut frame_of_run, limit);
        same(stop_of_run, &frame_of_run, stop, &frame_after)?;

        let unit = run::lend(&mut self.unit, rng, bytes);
        for _ in 0..TARIFFS {
            let prices = tariff(rng, &executed);
            let (wanted, wanted_frame) = match prices.len() {
                PRICES => (stop, &frame_after[..]),
                _ if stop.kind == sys::REFUSED => (stop, words),
                _ => (refused(TARIFF, 0), words),
            };
            self.answers.count(run::row(wanted), usize::from(prices.len() != PRICES));
            let price = (wanted.kind != sys::REFUSED).then(|| executed.price(&prices));
            let cents = price.map_or(0, |price| price.div_ceil(1_000) as u64);

            let frame = run::lend(&mut self.frame, rng, words);
            let tariff = run::lend(&mut self.tariff, rng, &prices);
            let charged = charge_in_numbers(unit, frame, limit, tariff);
            same(charged.stop(), frame, wanted, wanted_frame)
                .map_err(|text| format!("{} prices: {text}", prices.len()))?;
            if charged.cents != cents {
                return Err(format!("{} cents, expected {cents}, prices {prices:?}", charged.cents));
            }
            if unit != bytes || tariff != prices {
                return Err("the unit or the tariff is touched".into());
            }
            for (row, (bill, _)) in BILLS.iter().enumerate() {
                if bill.is_of(&prices, &executed, price) {
                    self.bills.count(row, 0);
                }
            }
        }
        Ok(())
    }
}

/// A tariff for a run: now and then one of a wrong length, or one whose sum is at whole cents or next to them.
fn tariff(rng: &mut Rng, executed: &Executed) -> Vec<u16> {
    let mut tariff = prices(rng);
    if rng.percent(15) {
        let len = rng.pick(&[0, 1, 255, 257, 512]);
        tariff.resize_with(len, || rng.word() as u16);
        return tariff;
    }
    // An opcode that was executed once decides on the thousandths.
    let once: Vec<usize> = (0..PRICES).filter(|&op| executed.0[op] == 1).collect();
    if !once.is_empty() && rng.percent(30) {
        let op = rng.pick(&once);
        tariff[op] = 0;
        let missing = 2_000 + rng.pick(&[0, 1, 999]) - executed.price(&tariff) as usize % 1_000;
        tariff[op] = (missing % 1_000 + 1_000 * rng.below(64)) as u16;
    }
    tariff
}

/// Prices about which rounding turns, and the highest.
const EDGES: [u16; 6] = [0, 1, 999, 1_000, 1_001, u16::MAX];

/// 256 prices: all the same, each of an edge, small, whole cents, any, or none but for one opcode.
pub fn prices(rng: &mut Rng) -> Vec<u16> {
    let same = rng.pick(&EDGES);
    let sort = rng.below(6);
    if sort == 0 {
        let op = rng.pick(&[Hint, LoadInt, Copy, AddI, Jump, JumpIf, JumpIfNot, Return, Panic]);
        let mut tariff = vec![0; PRICES];
        tariff[op as usize] = same;
        return tariff;
    }
    let price = |_| match sort {
        1 => same,
        2 => rng.pick(&EDGES),
        3 => rng.below(4) as u16,
        4 => 1_000 * rng.below(65) as u16,
        _ => rng.word() as u16,
    };
    (0..PRICES).map(price).collect()
}
