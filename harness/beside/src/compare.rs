//! `beside compare`: every answer and every byte, ours beside the reference.

use crate::differences::Differences;
use crate::guarded::{Buffers, Call};
use crate::options::Options;
use crate::parallel;
use crate::table::{first_rows, returned};
use crate::tally::Tally;
use generate::{every_damage, every_opcode, named, small_world, Rng, SmallWorld, PROFILES};
use unit::{Answer, Cleaned, Lengths, Unit};

/// Units whose buffers have more elements are called twice only, with buffers as stated and in one other way.
const LARGE: usize = 200_000;

pub fn run(mut options: Options) -> Result<(), String> {
    let seed = options.number("seed", 1)?;
    let count = options.number("count", 100_000)?;
    let profile = options.text("profile");
    let small_world = options.text("small-world").is_some();
    options.done()?;
    let compared = if small_world {
        let world = SmallWorld::default();
        compare(seed, small_world::COUNT, |number| {
            ("small world".into(), world.unit(number).expect("a number below the count"))
        })
    } else if let Some(name) = profile {
        let profile =
            PROFILES.iter().find(|profile| profile.name == name).ok_or(format!("no profile {name}"))?;
        compare(seed, count, |index| (profile.name.into(), profile.unit(seed, index)))
    } else {
        let fixed = fixed(seed);
        compare(seed, fixed.len() as u64 + count, |number| match fixed.get(number as usize) {
            Some((name, unit)) => (name.clone(), unit.clone()),
            None => {
                let (profile, unit) = generate::survey(seed, number - fixed.len() as u64);
                (profile.name.into(), unit)
            }
        })
    };
    report(seed, compared, small_world)
}

/// The named examples, every damage of one unit and every opcode.
pub fn fixed(seed: u64) -> Vec<(String, Vec<u8>)> {
    let named = named::all().into_iter().map(|named| (named.name.into(), named.unit));
    let damages = every_damage(seed).into_iter().map(|unit| ("every damage".into(), unit));
    let opcodes = every_opcode(seed).into_iter().map(|unit| ("every opcode".into(), unit));
    named.chain(damages).chain(opcodes).collect()
}

/// What a worker finds.
#[derive(Default)]
struct Compared {
    units: u64,
    tally: Tally,
    differences: Differences,
}

fn compare(seed: u64, count: u64, unit: impl Fn(u64) -> (String, Vec<u8>) + Sync) -> Compared {
    let workers = parallel::each(count, Compared::default, |compared, number| {
        let (name, unit) = unit(number);
        compared.units += 1;
        if let Err(text) = compare_unit(&mut Rng::new(seed, number), &unit, &mut compared.tally) {
            compared.differences.note(number, name, text, unit);
        }
    });
    workers.into_iter().fold(Compared::default(), |mut all, worker| {
        all.units += worker.units;
        all.tally.add(&worker.tally);
        all.differences.add(worker.differences);
        all
    })
}

fn report(seed: u64, compared: Compared, small_world: bool) -> Result<(), String> {
    println!("seed {seed}: {} units, {} calls", compared.units, compared.tally.calls);
    println!("Answers with buffers as stated; refused 2: every call with a buffer too short.");
    compared.tally.print();
    if small_world {
        let [unchanged, rewritten, refused] = compared.tally.pass();
        println!("unchanged {unchanged}\nrewritten {rewritten}\nrefused {refused}");
    }
    compared.differences.report()
}

/// Both calls with buffers of many lengths.
fn compare_unit(rng: &mut Rng, unit: &[u8], tally: &mut Tally) -> Result<(), String> {
    let stated = Unit::check(unit).map(|unit| unit.stated_lengths());
    let pass = Cleaned { answer: reference::pass(unit), pass: 1 };
    let clean = reference::clean(unit);
    let short = Cleaned { answer: Answer::SHORT_BUFFER, pass: 1 };
    for (call, long) in [(Call::Pass, &pass), (Call::Clean, &clean)] {
        for (way, lengths) in ways(rng, call, stated).into_iter().enumerate() {
            let is_short = first_rows(call, unit, lengths) == Some(Answer::SHORT_BUFFER);
            let expected = if is_short { &short } else { long };
            tally.calls += 1;
            if way == 0 || is_short {
                tally.count(call, &expected.answer, expected.pass);
            }
            compare_call(rng.word(), call, unit, lengths, expected)
                .map_err(|text| format!("{call:?} with {lengths:?}: {text}"))?;
        }
    }
    Ok(())
}

/// The lengths tried: as stated, longer, each one short by one, none at all. Any, for what is no unit.
fn ways(rng: &mut Rng, call: Call, stated: Option<Lengths>) -> Vec<Lengths> {
    let stated = stated.unwrap_or_else(|| [(); 5].map(|()| rng.below(200)).into());
    let exact = call.lent(stated);
    let longer = exact.lengths().map(|length| length + rng.within(1..=40));
    let mut others = vec![call.lent(longer.into()), Lengths::default()];
    for (buffer, length) in exact.lengths().into_iter().enumerate() {
        if length > 0 {
            // The others may be longer than stated.
            let mut short = if rng.percent(50) { exact.lengths() } else { longer };
            short[buffer] = length - 1;
            others.push(call.lent(short.into()));
        }
    }
    if exact.lengths().iter().sum::<usize>() > LARGE {
        others = vec![rng.pick(&others)];
    }
    others.insert(0, exact);
    others
}

/// One call: what it returns, what it writes and what it leaves alone.
fn compare_call(
    seed: u64,
    call: Call,
    unit: &[u8],
    lengths: Lengths,
    expected: &Cleaned,
) -> Result<(), String> {
    let mut buffers = Buffers::new(seed, lengths);
    let given = unit.to_vec();
    let (answer, passes) = call.run(&mut buffers.lend(), &given);
    let (wanted, written) = returned(&expected.answer);
    if answer != wanted {
        return Err(format!("{answer:?}, expected {wanted:?}"));
    }
    if passes != expected.pass {
        return Err(format!("pass {passes} is the last, expected {}", expected.pass));
    }
    let differing = buffers.out.lent().iter().zip(written).position(|(ours, wanted)| ours != wanted);
    if let Some(at) = differing {
        let ours = buffers.out.lent()[at];
        return Err(format!("byte {at} of the output is {ours}, expected {}", written[at]));
    }
    if !buffers.out.is_untouched_from(written.len()) {
        return Err(format!("the output is touched past its first {} bytes", written.len()));
    }
    if given != unit {
        return Err("the unit is touched".into());
    }
    buffers.check()
}
