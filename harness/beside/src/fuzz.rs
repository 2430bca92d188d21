//! `beside fuzz`: any bytes and any lengths, every buffer between pages that may not be touched.

use crate::arena::Arena;
use crate::faults::{self, again, IDLE};
use crate::guarded::Call;
use crate::options::Options;
use crate::table::{first_rows, returned};
use crate::{mutate, parallel};
use generate::Rng;
use lampruda::{sys, Lent};
use std::fmt;
use std::io::{self, IsTerminal, Write};
use std::process;
use std::sync::atomic::{AtomicBool, AtomicU64, Ordering};
use std::thread;
use std::time::{Duration, Instant};
use unit::{hex, Answer, Cleaned, Lengths, Rewritten, Section, Unit};

const COUNT: u64 = 10_000_000;

/// How many calls a thread takes at once.
const SHARE: u64 = 256;

/// A call that takes longer is taken for one that does not return.
const LONGEST: Duration = Duration::from_secs(60);

/// One call in so many is held against the reference too.
const REFERRED: usize = 16;

pub fn run(mut options: Options) -> Result<(), String> {
    let seed = options.number("seed", 1)?;
    let from = options.number("from", 0)?;
    let seconds = options.text("seconds");
    let count = options.number("count", if seconds.is_some() { u64::MAX - from } else { COUNT })?;
    options.done()?;
    let seconds = seconds.map(|text| text.parse().map_err(|_| format!("--seconds {text}: not a number")));
    let fuzz = Fuzz {
        seed,
        end: from.saturating_add(count),
        deadline: seconds.transpose()?.map(|seconds| Instant::now() + Duration::from_secs(seconds)),
        next: AtomicU64::new(from),
        stop: AtomicBool::new(false),
    };
    faults::report("fuzz", seed);
    let current: Vec<AtomicU64> = (0..parallel::threads()).map(|_| AtomicU64::new(IDLE)).collect();
    let done: Vec<Result<Counts, String>> = thread::scope(|scope| {
        let handles: Vec<_> = current.iter().map(|current| scope.spawn(|| fuzz.work(current))).collect();
        watch(&current, || handles.iter().all(|handle| handle.is_finished()));
        handles.into_iter().map(|handle| handle.join().expect("a worker panicked")).collect()
    });
    let mut all = Counts::default();
    for counts in done {
        all.add(&counts?);
    }
    println!("seed {seed}: {} calls, each returned and was well-formed", all.calls);
    println!("{} unchanged, {} rewritten, {} refused", all.kinds[0], all.kinds[2], all.kinds[1]);
    println!("{} of them held against the reference", all.referred);
    Ok(())
}

/// Shows how far the workers are, and ends the process if one of them hangs.
fn watch(current: &[AtomicU64], is_done: impl Fn() -> bool) {
    let mut seen: Vec<(u64, Instant)> = current.iter().map(|_| (IDLE, Instant::now())).collect();
    while !is_done() {
        thread::sleep(Duration::from_millis(200));
        for (seen, current) in seen.iter_mut().zip(current) {
            let call = current.load(Ordering::Relaxed);
            if call != seen.0 {
                *seen = (call, Instant::now());
            } else if call != IDLE && seen.1.elapsed() > LONGEST {
                eprintln!("call {call} does not return; {}", again(call));
                process::exit(1);
            }
        }
        let furthest = seen.iter().map(|seen| seen.0).filter(|&call| call != IDLE).max();
        if let (Some(call), true) = (furthest, io::stderr().is_terminal()) {
            // What is shown in passing may fail.
            let _ = write!(io::stderr(), "\rcall {call} ");
        }
    }
}

#[derive(Default)]
struct Counts {
    calls: u64,
    kinds: [u64; 3],
    referred: u64,
}

impl Counts {
    fn add(&mut self, other: &Self) {
        self.calls += other.calls;
        self.referred += other.referred;
        self.kinds.iter_mut().zip(other.kinds).for_each(|(kind, other)| *kind += other);
    }
}

struct Fuzz {
    seed: u64,
    end: u64,
    deadline: Option<Instant>,
    next: AtomicU64,
    stop: AtomicBool,
}

impl Fuzz {
    fn work(&self, current: &AtomicU64) -> Result<Counts, String> {
        let mut arenas = Arenas::new();
        let mut counts = Counts::default();
        loop {
            let first = self.next.fetch_add(SHARE, Ordering::Relaxed);
            let late = self.deadline.is_some_and(|deadline| Instant::now() > deadline);
            if first >= self.end || late || self.stop.load(Ordering::Relaxed) {
                current.store(IDLE, Ordering::Relaxed);
                return Ok(counts);
            }
            for call in first..self.end.min(first + SHARE) {
                current.store(call, Ordering::Relaxed);
                faults::under_way(call);
                arenas.call(self.seed, call, &mut counts).map_err(|message| {
                    self.stop.store(true, Ordering::Relaxed);
                    current.store(IDLE, Ordering::Relaxed);
                    format!("{message}\n{}", again(call))
                })?;
            }
        }
    }
}

/// The memory of one worker.
struct Arenas {
    unit: Arena,
    out: Arena,
    work32: Arena,
    work64: Arena,
    first: Arena,
    second: Arena,
}

impl Arenas {
    fn new() -> Self {
        Self {
            unit: Arena::new(16),
            out: Arena::new(8),
            work32: Arena::new(16),
            work64: Arena::new(64),
            first: Arena::new(8),
            second: Arena::new(8),
        }
    }

    /// One call, a function of seed and number.
    fn call(&mut self, seed: u64, number: u64, counts: &mut Counts) -> Result<(), String> {
        let rng = &mut Rng::new(seed, number);
        let mut given = mutate::bytes(rng);
        given.truncate(self.unit.room::<u8>());
        let rooms = [
            self.out.room::<u8>(),
            self.work32.room::<u32>(),
            self.work64.room::<u64>(),
            self.first.room::<u8>(),
            self.second.room::<u8>(),
        ];
        let call = rng.pick(&[Call::Pass, Call::Clean]);
        let lengths = call.lent(mutate::lengths(rng, lampruda::needed(&given), rooms));
        let noise = rng.word() | 0x0101_0101_0101_0101;

        let unit = self.unit.lend::<u8>(given.len(), rng.percent(50));
        unit.copy_from_slice(&given);
        let mut lent = Lent {
            out: self.out.lend(lengths.out, rng.percent(50)),
            work32: self.work32.lend(lengths.work32, rng.percent(50)),
            work64: self.work64.lend(lengths.work64, rng.percent(50)),
            first: self.first.lend(lengths.first, rng.percent(50)),
            second: self.second.lend(lengths.second, rng.percent(50)),
        };
        lent.out.fill(noise as u8);
        lent.work32.fill(noise as u32);
        lent.work64.fill(noise);
        lent.first.fill(noise as u8);
        lent.second.fill(noise as u8);

        let (answer, passes) = call.run(&mut lent, unit);

        let made = Made { call, bytes: &given, lengths, answer, passes, out: lent.out };
        check_work(lent.work32, lent.work64, lent.first, lent.second)
            .and_then(|()| made.check_output(noise as u8))
            .and_then(|()| if unit == given { Ok(()) } else { Err("the unit is touched".into()) })
            .and_then(|()| made.check_answer())
            .and_then(|()| {
                let refer = rng.below(REFERRED) == 0;
                counts.referred += u64::from(refer);
                if refer {
                    made.check_reference()
                } else {
                    Ok(())
                }
            })
            .map_err(|message| format!("call {number}, {made}: {message}\n  {}", hex::encode(&given)))?;
        counts.calls += 1;
        counts.kinds[answer.kind as usize] += 1;
        Ok(())
    }
}

fn check_work(work32: &[u32], work64: &[u64], first: &[u8], second: &[u8]) -> Result<(), String> {
    let zero = work32.iter().all(|&number| number == 0)
        && work64.iter().all(|&number| number == 0)
        && first.iter().chain(second).all(|&byte| byte == 0);
    if zero {
        Ok(())
    } else {
        Err("a work buffer is not all 0".into())
    }
}

/// A call that was made.
struct Made<'a> {
    call: Call,
    bytes: &'a [u8],
    lengths: Lengths,
    answer: sys::Answer,
    passes: u32,
    /// The output as the call left it.
    out: &'a [u8],
}

impl fmt::Display for Made<'_> {
    fn fmt(&self, f: &mut fmt::Formatter) -> fmt::Result {
        let Self { call, lengths, answer, passes, .. } = self;
        write!(f, "{call:?} with {lengths:?}: {answer:?}, pass {passes}")
    }
}

impl Made<'_> {
    /// The output is as it was, but for what a rewritten answer writes.
    fn check_output(&self, noise: u8) -> Result<(), String> {
        let written = match self.answer.kind {
            sys::REWRITTEN => Rewritten::len_at(self.out),
            _ => 0,
        };
        match self.out.get(written..) {
            None => Err("more retained than the output has room for".into()),
            Some(rest) if rest.iter().any(|&byte| byte != noise) => {
                Err(format!("the output is touched past its first {written} bytes"))
            }
            Some(_) => Ok(()),
        }
    }

    /// The first rows of document 01's table exactly; of the others what holds of every such answer.
    fn check_answer(&self) -> Result<(), String> {
        let answer = self.answer;
        if let Some(wanted) = first_rows(self.call, self.bytes, self.lengths) {
            let same = answer == returned(&wanted).0 && self.passes == 1;
            return if same { Ok(()) } else { Err(format!("expected {wanted} in pass 1")) };
        }
        let n = Unit::check(self.bytes).expect("a unit by the first rows").header().count(Section::Code);
        let well_formed = match answer.kind {
            sys::UNCHANGED => answer == returned(&Answer::Unchanged).0,
            sys::REFUSED => (5..=10).contains(&answer.number) && answer.place < n,
            sys::REWRITTEN => answer.place == 0 && is_result(self.out, n),
            _ => false,
        };
        let last = match (self.call, answer.kind) {
            (Call::Pass, _) | (Call::Clean, sys::UNCHANGED) => 1..=1,
            (Call::Clean, sys::REFUSED) => 1..=3,
            (Call::Clean, _) => 2..=3,
        };
        if well_formed && last.contains(&self.passes) {
            Ok(())
        } else {
            Err("no answer of the table".into())
        }
    }

    /// The reference's answer, where the lengths do not decide.
    fn check_reference(&self) -> Result<(), String> {
        if first_rows(self.call, self.bytes, self.lengths) == Some(Answer::SHORT_BUFFER) {
            return Ok(());
        }
        let expected = match self.call {
            Call::Pass => Cleaned { answer: reference::pass(self.bytes), pass: 1 },
            Call::Clean => reference::clean(self.bytes),
        };
        let (wanted, written) = returned(&expected.answer);
        if self.answer == wanted && self.passes == expected.pass && self.out.starts_with(written) {
            Ok(())
        } else {
            Err(format!("the reference: {expected}"))
        }
    }
}

/// Whether the output starts with a result, its old places rising below n and its lines' places below n'.
fn is_result(out: &[u8], n: u32) -> bool {
    let Some(result) = out.get(..Rewritten::len_at(out)).and_then(Rewritten::decode) else {
        return false;
    };
    let rising = |places: Vec<u32>, end: u32| {
        places.windows(2).all(|pair| pair[0] < pair[1]) && places.iter().all(|&place| place < end)
    };
    let retained = result.retained.len() as u32;
    rising(result.retained.iter().map(|entry| entry.old_place).collect(), n)
        && rising(result.lines.iter().map(|entry| entry.place).collect(), retained)
}
