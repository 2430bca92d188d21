//! The desk's part of `beside bench`: loops of integer instructions beside a plain interpreter in C, and the same loops
//! with a charge beside those without, in nanoseconds a step; and how long a run takes to start, beside one pass that
//! refuses by its last check.

use generate::{Rng, SHAPES};
use lampruda::sys::{self, Stop};
use lampruda::{charge_in_numbers, needed, run_in_numbers, Answer, Workspace, PRICES};
use std::hint::black_box;
use std::time::Instant;
use text::Opcode::{self, *};
use unit::{Entry, Instruction, Metadata, Parts, Section, Unit, TYPE_VALUE};

// src/plain.c
extern "C" {
    fn plain_run(code: *const u64, n: usize, constants: *const [u64; 2], frame: *mut u64, limit: u32)
        -> Stop;
}

/// Steps of a sample: each function goes round until then.
const STEPS: u32 = 100_000;

/// Instructions that a sample of starts checks at least.
const CHECKED: usize = 40_000;

/// Samples of each, taken in turn.
const SAMPLES: usize = 601;

const LAWS: [usize; 3] = [20, 970, 9_700];

pub fn run(seed: u64) -> Result<(), String> {
    println!("desk run, nanoseconds a step, medians of {SAMPLES} samples of {STEPS} steps; seed {seed}");
    println!(
        "{:<18}{:>13}{:>10}{:>11}{:>8}{:>10}{:>8}",
        "loop", "instructions", "ours", "plain", "times", "charged", "times"
    );
    for (name, unit) in loops(seed) {
        steps(name, &unit)?;
    }
    println!("to start at the desk, or to be refused 8 at the last place by one pass, microseconds a call");
    println!("{:<18}{:>13}{:>10}{:>11}{:>11}{:>8}", "", "instructions", "desk", "pass", "zeroing", "times");
    LAWS.into_iter().try_for_each(|n| start(seed, n))
}

/// Functions that go round and round.
fn loops(seed: u64) -> Vec<(&'static str, Vec<u8>)> {
    let texts = [
        ("sum of squares", SUM_OF_SQUARES),
        ("two branches", TWO_BRANCHES),
        ("copied ranges", COPIED_RANGES),
    ];
    let assembled =
        texts.map(|(name, text)| (name, text::assemble(text).expect("the text is one of a unit")));
    let mut loops = assembled.to_vec();
    loops.push(("straight line", straight_line(&mut Rng::new(seed, 0), 3_000).encode()));
    loops
}

const SUM_OF_SQUARES: &str = "
    .locals 4
            LoadInt 0 0
            LoadInt 1 2000000000
            LoadInt 2 1
      next: MulI 3 1 1
            AddI 0 0 3
            SubI 1 1 2
            JumpIf 1 next
            Return 0 1";

/// A branch by the bits of a sequence that no predictor knows, and one that is taken every other time.
const TWO_BRANCHES: &str = "
    .locals 8
    .const int 6364136223846793005
    .const int 1442695040888963407
            LoadConst 1 0
            LoadConst 2 1
            LoadInt 3 0
      next: MulI 0 0 1
            AddI 0 0 2
            Trunc 4 0 flags=0x84
            LtI 5 4 3
            JumpIf 5 less
            Xor 6 6 0
      less: BoolNot 7 7
            JumpIfNot 7 next
            SubI 6 6 4
            Jump next";

const COPIED_RANGES: &str = "
    .locals 32
            LoadInt 31 1
      next: CopyN 1 0 8
            AddI 0 0 31
            CopyN 10 12 16
            Xor 28 28 0
            Copy 29 0
            Jump next";

/// Random integer instructions, and a jump back to the first.
fn straight_line(rng: &mut Rng, n: usize) -> Parts {
    let opcodes: [Opcode; 22] = [
        AddI, SubI, MulI, And, Or, Xor, AndNot, EqI, NeI, LtI, LtU, LeI, LeU, GtI, GtU, GeI, GeU, NegI, Not,
        BoolNot, Copy, LoadInt,
    ];
    const SLOTS: usize = 32;
    let mut code: Vec<Instruction> = (1..n)
        .map(|_| {
            let op = rng.pick(&opcodes);
            let [a, b, c] = [(); 3].map(|()| rng.below(SLOTS) as u16);
            Instruction { op: op as u8, flags: 0, a, b, c }
        })
        .collect();
    let mut back = Instruction { op: Jump as u8, ..Instruction::default() };
    back.set_imm32((-(code.len() as i32)) as u32);
    code.push(back);
    Parts {
        metadata: vec![Metadata::default(); code.len()],
        code,
        local_slots: SLOTS as u32,
        types: vec![TYPE_VALUE; SLOTS],
        ..Parts::default()
    }
}

/// A unit as the plain interpreter takes it: words that are aligned.
struct Plain {
    code: Vec<u64>,
    constants: Vec<[u64; 2]>,
}

impl Plain {
    fn new(unit: &Unit) -> Self {
        let word = |bytes: &[u8]| u64::from_le_bytes(bytes.try_into().expect("eight bytes"));
        Self {
            code: unit.section(Section::Code).chunks_exact(Instruction::LEN).map(word).collect(),
            constants: unit.constants().map(|constant| [constant.kind.into(), constant.value]).collect(),
        }
    }

    fn run(&self, frame: &mut [u64], limit: u32) -> Stop {
        let n = self.code.len();
        // SAFETY: the functions timed name slots of the frame and constants that there are.
        unsafe { plain_run(self.code.as_ptr(), n, self.constants.as_ptr(), frame.as_mut_ptr(), limit) }
    }
}

/// The prices of a sample, and what it costs then.
const TARIFF: [u16; PRICES] = [20; PRICES];
const CENTS: u64 = STEPS as u64 / 50;

/// The runs of a function, which have to be the same, and their row.
fn steps(name: &str, bytes: &[u8]) -> Result<(), String> {
    let unit = Unit::check(bytes).expect("loops are units");
    let plain = Plain::new(&unit);
    let given: Vec<u64> = (0..u64::from(unit.header().local_slots)).collect();
    let [mut ours, mut theirs, mut charged] = [given.clone(), given.clone(), given];
    let mut samples = [Vec::new(), Vec::new(), Vec::new()];
    let limit = Stop { kind: sys::LIMIT, first: 0, second: 0 };
    for _ in 0..SAMPLES {
        let mut stops = [Stop { kind: sys::REFUSED, ..limit }; 3];
        let mut cents = 0;
        samples[0].push(timed(|| stops[0] = run_in_numbers(black_box(bytes), &mut ours, STEPS)));
        samples[1].push(timed(|| stops[1] = plain.run(black_box(&mut theirs), STEPS)));
        samples[2].push(timed(|| {
            let charge = charge_in_numbers(black_box(bytes), &mut charged, STEPS, &TARIFF);
            (stops[2], cents) = (charge.stop(), charge.cents);
        }));
        if stops != [limit; 3] || ours != theirs || ours != charged || cents != CENTS {
            return Err(format!("{name}: ours, plain and charged {stops:?}, {cents} cents"));
        }
    }
    let (times, times_charged) = (quotient(&samples[0], &samples[1]), quotient(&samples[2], &samples[0]));
    let [ours, theirs, charged] = samples.map(|samples| median(samples) / f64::from(STEPS));
    let n = plain.code.len();
    println!("{name:<18}{n:>13}{ours:>10.2}{theirs:>11.2}{times:>8.2}{charged:>10.2}{times_charged:>8.2}");
    Ok(())
}

/// A law whose last instruction is a jump to n: one pass refuses that by its last check, and the desk does not. A limit
/// of 0 leaves nothing but the checks.
fn start(seed: u64, n: usize) -> Result<(), String> {
    let law = SHAPES[0].unit(seed, n);
    let mut parts = Parts::decode(&Unit::check(&law).expect("laws are units"));
    let last = parts.code.last_mut().expect("a law has instructions");
    *last = Instruction { op: Jump as u8, ..Instruction::default() };
    last.set_imm32(1);
    let unit = parts.encode();
    let mut frame = vec![0; parts.local_slots as usize];
    let mut workspace = Workspace::default();
    let lengths = needed(&unit);
    let (mut work32, mut work64) = (vec![0_u32; lengths.work32], vec![0_u64; lengths.work64]);
    let refused = Answer::Refused { number: 8, place: n as u32 - 1 };
    if workspace.pass(&unit) != refused || run_in_numbers(&unit, &mut frame, 0).kind == sys::REFUSED {
        return Err(format!("law of {n}: not refused 8 by the pass alone"));
    }
    let calls = CHECKED.div_ceil(n);
    let mut samples = [Vec::new(), Vec::new(), Vec::new()];
    for _ in 0..SAMPLES {
        samples[0].push(timed(|| {
            for _ in 0..calls {
                black_box(run_in_numbers(black_box(&unit), &mut frame, 0));
            }
        }));
        samples[1].push(timed(|| {
            for _ in 0..calls {
                black_box(workspace.pass(black_box(&unit)));
            }
        }));
        // What of it is the zeroing of the work buffers, which the desk is not lent.
        samples[2].push(timed(|| {
            for _ in 0..calls {
                black_box(&mut work32[..]).fill(0);
                black_box(&mut work64[..]).fill(0);
            }
        }));
    }
    let times = quotient(&samples[0], &samples[1]);
    let [desk, pass, zeroing] = samples.map(|samples| median(samples) / calls as f64 / 1_000.0);
    let name = SHAPES[0].name;
    println!("{name:<18}{n:>13}{desk:>10.2}{pass:>11.2}{zeroing:>11.2}{times:>8.2}");
    Ok(())
}

/// In nanoseconds.
fn timed(work: impl FnOnce()) -> f64 {
    let begun = Instant::now();
    work();
    begun.elapsed().as_nanos() as f64
}

fn median(mut samples: Vec<f64>) -> f64 {
    samples.sort_by(f64::total_cmp);
    samples[samples.len() / 2]
}

/// Of neighbouring samples, so that what else the machine does falls on both.
fn quotient(ours: &[f64], theirs: &[f64]) -> f64 {
    median(ours.iter().zip(theirs).map(|(ours, theirs)| ours / theirs).collect())
}
