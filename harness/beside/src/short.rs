//! `beside short`: the short functions' entries on any numbers, bytes and lengths, between guarded pages, beside the
//! generator's small world.

use crate::arena::Arena;
use crate::options::Options;
use generate::small_world::{SmallWorld, COUNT};
use generate::Rng;
use lampruda::sys;

const SEED: u64 = 1;
const CALLS: u64 = 2_000_000;

/// More bytes than the longest unit has.
const LONGEST: usize = 200;

pub fn run(mut options: Options) -> Result<(), String> {
    let seed = options.number("seed", SEED)?;
    let count = options.number("count", CALLS)?;
    options.done()?;
    let world = SmallWorld::default();
    let mut arena = Arena::new(1);
    let mut numbered = 0;
    for index in 0..count {
        let mut rng = Rng::new(seed, index);
        let wrong = |text: String| format!("seed {seed}, call {index}: {text}");
        made(&mut rng, &world, &mut arena).map_err(wrong)?;
        numbered += u64::from(found(&mut rng, &world, &mut arena).map_err(wrong)?);
    }
    println!("seed {seed}: {count} units made and {count} numbers found, {numbered} of bytes that have one; no difference");
    Ok(())
}

/// A number, now and then past the last.
fn number(rng: &mut Rng) -> u32 {
    match rng.below(20) {
        0 => rng.word() as u32,
        1 => rng.pick(&[0, 575, 576, 14_399, 14_400, 346_175, 346_176, u32::MAX]),
        _ => rng.below(COUNT as usize) as u32,
    }
}

/// The unit of a number in a buffer of any length: written, refused or none, and nothing else touched.
fn made(rng: &mut Rng, world: &SmallWorld, arena: &mut Arena) -> Result<(), String> {
    let (number, noise) = (number(rng), rng.word() as u8);
    let unit = world.unit(number.into());
    let exact = unit.as_ref().map_or(0, Vec::len);
    let len = if rng.percent(50) { rng.below(LONGEST) } else { (exact + rng.below(3)).saturating_sub(1) };
    let out = arena.lend::<u8>(len, rng.percent(50));
    out.fill(noise);
    let made = unsafe { sys::lampruda_short_unit(number, out.as_mut_ptr(), out.len()) };
    let (wanted, written) = match &unit {
        None => (sys::Made { kind: sys::SHORT_PAST, number: 0, place: 0 }, &[][..]),
        Some(unit) if len < unit.len() => {
            (sys::Made { kind: sys::SHORT_REFUSED, number: 2, place: 0 }, &[][..])
        }
        Some(unit) => (sys::Made { kind: sys::SHORT_UNIT, number: unit.len() as u32, place: 0 }, &unit[..]),
    };
    let (front, rest) = out.split_at(written.len());
    if made == wanted && front == written && rest.iter().all(|&byte| byte == noise) {
        Ok(())
    } else {
        Err(format!("number {number} in {len} bytes: {made:?}, expected {wanted:?}"))
    }
}

/// The number of a unit, of a unit that was altered, cut or lengthened, or of any bytes. The result is whether there
/// is one.
fn found(rng: &mut Rng, world: &SmallWorld, arena: &mut Arena) -> Result<bool, String> {
    let mut bytes = world.unit(rng.below(COUNT as usize) as u64).expect("a number below the count");
    match rng.below(6) {
        0 => {}
        1 => bytes.truncate(rng.below(bytes.len() + 1)),
        2 => {
            bytes.extend((0..rng.within(1..=30)).map(|_| if rng.percent(50) { 0 } else { rng.word() as u8 }))
        }
        3 => bytes = (0..rng.below(LONGEST)).map(|_| rng.word() as u8).collect(),
        _ => {
            for _ in 0..rng.within(1..=3) {
                let place = rng.below(bytes.len());
                bytes[place] = if rng.percent(50) { rng.below(25) as u8 } else { rng.word() as u8 };
            }
        }
    }
    let lent = arena.lend::<u8>(bytes.len(), rng.percent(50));
    lent.copy_from_slice(&bytes);
    let found = unsafe { sys::lampruda_short_number(lent.as_ptr(), lent.len()) };
    let wanted = world.number(&bytes);
    let said = (found.kind == sys::SHORT_NUMBER).then_some(u64::from(found.number));
    if said == wanted && (said.is_some() || found == sys::Found { kind: sys::SHORT_NONE, number: 0 }) {
        Ok(wanted.is_some())
    } else {
        Err(format!("{found:?}, expected {wanted:?}, of {}", unit::hex::encode(&bytes)))
    }
}
