//! `beside lay-out`: results as units again, from any bytes and in buffers of any lengths, between guarded pages.

use crate::likewise::Lent;
use crate::mutate;
use crate::options::Options;
use crate::run::{each_unit, Units};
use generate::Rng;
use lampruda::sys::{self, Laid};
use lampruda::{lay_out, Answer, Workspace};
use unit::{Instruction, Line, Metadata, Retained, Rewritten, Section, Unit, RESULT_HEADER_LEN};

/// So many calls show every answer.
const COUNT: u64 = 50_000;

/// The answers: laid out; refused 1, 11, 13 and 2; none.
const ANSWERS: [&str; 6] = ["laid out", "refused 1", "refused 11", "refused 13", "refused 2", "none"];

pub fn run(options: Options) -> Result<(), String> {
    let found = each_unit("lay-out", options, COUNT, |worker: &mut Worker, rng, units, unit| {
        let result = worker.result(rng, unit, units);
        let of_result = |text| format!("{text}, of the result {}", unit::hex::encode(&result));
        worker.compare(rng, unit, &result).map_err(of_result)
    })?;
    let mut counts = [0; ANSWERS.len()];
    for worker in found.workers {
        counts.iter_mut().zip(worker.counts).for_each(|(count, other)| *count += other);
    }
    let said: Vec<String> =
        ANSWERS.iter().zip(counts).map(|(answer, found)| format!("{answer} {found}")).collect();
    println!("seed {}: {} calls: {}", found.seed, found.count, said.join(", "));
    found.differences.report()?;
    match ANSWERS.iter().zip(counts).find(|(_, found)| *found == 0) {
        Some((answer, _)) if found.count >= COUNT => Err(format!("not every answer occurred: {answer}")),
        _ => Ok(()),
    }
}

#[derive(Default)]
struct Worker {
    workspace: Workspace,
    lent: Lent,
    counts: [u64; ANSWERS.len()],
}

impl Worker {
    /// A result of the unit or of another, one that no pass makes, or any bytes; now and then spoiled or with more
    /// behind it.
    fn result(&mut self, rng: &mut Rng, unit: &[u8], units: &Units) -> Vec<u8> {
        let mut result = match rng.below(10) {
            0..=4 => self.made(unit).unwrap_or_else(|| drawn(rng, unit)),
            5 => {
                let (_, other) = units.draw(rng.word() >> 20);
                self.made(&other).unwrap_or_default()
            }
            6 => mutate::bytes(rng),
            _ => drawn(rng, unit),
        };
        if rng.percent(30) {
            (0..rng.within(1..=2)).for_each(|_| mutate::spoil(rng, &mut result));
        }
        if rng.percent(30) {
            let more = rng.below(60);
            result.extend((0..more).map(|_| rng.word() as u8));
        }
        result.truncate(self.lent.result.room::<u8>());
        result
    }

    fn made(&mut self, unit: &[u8]) -> Option<Vec<u8>> {
        match self.workspace.pass(unit) {
            Answer::Rewritten(result) => Some(result.to_vec()),
            _ => None,
        }
    }

    fn compare(&mut self, rng: &mut Rng, unit: &[u8], result: &[u8]) -> Result<(), String> {
        let wanted = wanted(unit, result);
        let exact = wanted.as_ref().map_or(unit.len(), Vec::len);
        let len = match rng.below(10) {
            0..=4 => exact,
            5 => exact - 1,
            6 => exact + rng.below(60),
            7 => 0,
            8 => unit.len(),
            _ => rng.below(2 * exact + 1),
        };
        let (noise, at_end) = (rng.word() as u8, [(); 3].map(|()| rng.percent(50)));
        let given = self.lent.unit.lend::<u8>(unit.len(), at_end[0]);
        given.copy_from_slice(unit);
        let lent = self.lent.result.lend::<u8>(result.len(), at_end[1]);
        lent.copy_from_slice(result);
        let out = self.lent.out.lend::<u8>(len.min(self.lent.out.room::<u8>()), at_end[2]);
        out.fill(noise);
        let made = lay_out(given, lent, out);
        let (wanted, laid) = match wanted {
            Err(made) => (made, Vec::new()),
            Ok(laid) if laid.len() > out.len() => (refused(2, 0), Vec::new()),
            Ok(laid) => (Laid { kind: sys::LAID_UNIT, number: 0, place: 0, length: laid.len() as u64 }, laid),
        };
        self.counts[answer(wanted)] += 1;
        let (front, rest) = out.split_at(laid.len());
        if made != wanted {
            Err(format!("in {len} bytes {made:?}, expected {wanted:?}"))
        } else if front != laid || rest.iter().any(|&byte| byte != noise) {
            Err(format!("in {len} bytes {made:?}, but the buffer is another"))
        } else if given != unit || lent != result {
            Err("touched what is only read".into())
        } else {
            Ok(())
        }
    }
}

fn refused(number: u32, place: u32) -> Laid {
    Laid { kind: sys::LAID_REFUSED, number, place, length: 0 }
}

/// Where an answer stands in `ANSWERS`.
fn answer(made: Laid) -> usize {
    match (made.kind, made.number) {
        (sys::LAID_UNIT, _) => 0,
        (sys::LAID_REFUSED, 1) => 1,
        (sys::LAID_REFUSED, 11) => 2,
        (sys::LAID_REFUSED, 13) => 3,
        (sys::LAID_REFUSED, _) => 4,
        _ => 5,
    }
}

/// The unit that is laid out if there is room, or the answer where there is none: 1, 11 and 13 for the unit, then that
/// the bytes do not begin with a result of it.
fn wanted(unit: &[u8], result: &[u8]) -> Result<Vec<u8>, Laid> {
    let unit = Unit::check(unit).ok_or(refused(1, 0))?;
    if let Some(unit::Answer::Refused { number, place }) = unit.refusal() {
        return Err(refused(number, place));
    }
    result_of(&unit, result).map(|result| result.as_unit(&unit)).ok_or(Laid {
        kind: sys::LAID_NONE,
        number: 0,
        place: 0,
        length: 0,
    })
}

/// What stands at the front of these bytes, if it is laid out as a result and has no more instructions, metadata and
/// lines than the unit: a buffer of the unit's length is to be long enough.
fn result_of(unit: &Unit, bytes: &[u8]) -> Option<Rewritten> {
    let front = bytes.get(..RESULT_HEADER_LEN)?;
    let result = Rewritten::decode(bytes.get(..Rewritten::len_at(front))?)?;
    let (n, l) = (result.retained.len(), result.lines.len());
    let most = |section| unit.header().count(section) as usize;
    (n <= most(Section::Code) && n <= most(Section::Metadata) && l <= most(Section::Lines)).then_some(result)
}

/// A result of about as many instructions and lines as the unit has, of any content.
fn drawn(rng: &mut Rng, unit: &[u8]) -> Vec<u8> {
    let counts = Unit::check(unit)
        .map_or([3, 3], |unit| [Section::Code, Section::Lines].map(|section| unit.header().count(section)));
    let [n, l] = counts.map(|count| match rng.below(4) {
        0 => count,
        1 => count + 1,
        _ => rng.below(count.min(40) as usize + 1) as u32,
    });
    let retained = |_| {
        let [code, first, second] = [(); 3].map(|()| rng.word());
        Retained {
            instruction: Instruction {
                op: code as u8,
                flags: (code >> 8) as u8,
                a: (code >> 16) as u16,
                b: (code >> 32) as u16,
                c: (code >> 48) as u16,
            },
            metadata: Metadata {
                kind: (first % 16) as u8,
                has_ok: (first >> 8) as u8 & 1,
                array_len: (first >> 16) as u16,
                first: (first >> 32) as u32,
                second: second as u32,
                end_pc: (second >> 32) as u32,
            },
            old_place: code as u32,
        }
    };
    let retained = (0..n).map(retained).collect();
    let lines = (0..l).map(|place| Line { place, line: rng.word() as u32 }).collect();
    Rewritten { retained, lines }.encode()
}
