//! The library's short functions beside the generator's, and the survey beside the reference.

use generate::small_world::{SmallWorld, COUNT};
use lampruda::sys;
use std::fs;
use unit::Answer;

/// What the program `survey` prints.
const PRINTED: &str = concat!(env!("CARGO_MANIFEST_DIR"), "/../../crates/survey/stdout");

#[test]
fn each_number_has_its_unit() {
    let world = SmallWorld::default();
    assert_eq!(u64::from(lampruda::SHORT_COUNT), COUNT);
    for number in 0..lampruda::SHORT_COUNT {
        let unit = lampruda::short_unit(number).unwrap();
        assert_eq!(Some(&unit), world.unit(number.into()).as_ref(), "{number}");
        assert_eq!(lampruda::short_number(&unit), Some(number));
    }
    for past in [lampruda::SHORT_COUNT, lampruda::SHORT_COUNT + 1, u32::MAX] {
        assert_eq!(lampruda::short_unit(past), None);
    }
}

#[test]
fn other_bytes_have_no_number() {
    let world = SmallWorld::default();
    for number in (0..COUNT).step_by(997) {
        let unit = world.unit(number).unwrap();
        assert_eq!(lampruda::short_number(&unit[..unit.len() - 1]), None);
        assert_eq!(lampruda::short_number(&[unit.clone(), vec![0]].concat()), None);
        for place in 0..unit.len() {
            for flipped in [1, 0x80] {
                let mut other = unit.clone();
                other[place] ^= flipped;
                // Another function of the world, or none.
                let known = lampruda::short_number(&other).and_then(|found| world.unit(found.into()));
                assert!(known.is_none() || known == Some(other), "{number} {place}");
            }
        }
    }
    assert_eq!(lampruda::short_number(&[]), None);
}

#[test]
fn the_buffer_stays_but_for_the_unit() {
    for (number, size) in [(0, 122), (576, 146), (346_175, 170)] {
        for room in [0, 1, size - 1, size, size + 1, size + 40] {
            let mut out = vec![0xa5; room];
            let made = unsafe { sys::lampruda_short_unit(number, out.as_mut_ptr(), out.len()) };
            let (kind, value) =
                if room < size { (sys::SHORT_REFUSED, 2) } else { (sys::SHORT_UNIT, size as u32) };
            assert_eq!(made, sys::Made { kind, number: value, place: 0 });
            let written = if room < size { 0 } else { size };
            assert!(out[written..].iter().all(|&byte| byte == 0xa5));
        }
    }
    let mut out = [0xa5; 256];
    let past = unsafe { sys::lampruda_short_unit(346_176, out.as_mut_ptr(), out.len()) };
    assert_eq!(past, sys::Made { kind: sys::SHORT_PAST, number: 0, place: 0 });
    assert_eq!(out, [0xa5; 256]);
}

#[test]
fn the_survey_is_the_references() {
    let world = SmallWorld::default();
    let (mut unchanged, mut rewritten, mut refused) = (0, 0, 0);
    for number in 0..COUNT {
        match reference::pass(&world.unit(number).unwrap()) {
            Answer::Unchanged => unchanged += 1,
            Answer::Rewritten { .. } => rewritten += 1,
            Answer::Refused { .. } => refused += 1,
        }
    }
    let counted = format!("unchanged {unchanged}\nrewritten {rewritten}\nrefused {refused}\n");
    assert_eq!(fs::read_to_string(PRINTED).unwrap(), counted);
}
