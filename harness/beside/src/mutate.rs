//! Bytes to try the library with: units, units spoiled in a few places, and anything.

use generate::{Rng, PROFILES};
use unit::{Entry, Header, Lengths, HEADER_LEN};

/// Profiles of lower weight draw large units.
const LEAST_WEIGHT: usize = 100;

/// Numbers on which counts, offsets, slots and distances turn.
const NUMBERS: [u32; 16] =
    [0, 1, 2, 3, 24, 63, 71, 72, 255, 32_767, 32_768, 65_535, 65_536, 0x7fff_ffff, 0x8000_0000, 0xffff_ffff];

pub fn bytes(rng: &mut Rng) -> Vec<u8> {
    match rng.below(20) {
        0 => any(rng, 400),
        1 => sections_of_anything(rng),
        _ => {
            let profiles = PROFILES.iter().filter(|profile| profile.weight >= LEAST_WEIGHT).count();
            let mut bytes = PROFILES[rng.below(profiles)].unit(rng.word(), 0);
            for _ in 0..rng.pick(&[0, 0, 0, 1, 1, 1, 2, 4]) {
                spoil(rng, &mut bytes);
            }
            bytes
        }
    }
}

fn any(rng: &mut Rng, most: usize) -> Vec<u8> {
    (0..rng.within(0..=most)).map(|_| rng.word() as u8).collect()
}

/// A good header before bytes that may be anything, mostly small.
fn sections_of_anything(rng: &mut Rng) -> Vec<u8> {
    let counts = [(); 8].map(|()| rng.below(6) as u32);
    let s = if rng.percent(50) { counts[2] } else { rng.below(70) as u32 };
    let (header, len) = Header::with_counts(counts, s, u32::from(rng.percent(10)));
    let mut bytes = Vec::new();
    header.write(&mut bytes);
    while bytes.len() < len as usize {
        bytes.push(if rng.percent(80) { rng.below(6) as u8 } else { rng.word() as u8 });
    }
    bytes
}

pub fn spoil(rng: &mut Rng, bytes: &mut Vec<u8>) {
    if bytes.is_empty() {
        return;
    }
    let at = rng.below(bytes.len());
    match rng.below(10) {
        0..=2 => bytes[at] ^= 1 << rng.below(8),
        3 => bytes[at] = rng.word() as u8,
        4 => bytes.truncate(at),
        5 => bytes.extend(any(rng, 20)),
        6 if bytes.len() >= HEADER_LEN => {
            let word = 4 * rng.below(HEADER_LEN / 4);
            bytes[word..word + 4].copy_from_slice(&rng.pick(&NUMBERS).to_le_bytes());
        }
        // A field of an instruction, an entry's word: whatever stands there.
        7 | 8 if bytes.len() >= HEADER_LEN + 4 => {
            let field = HEADER_LEN + 2 * rng.below((bytes.len() - HEADER_LEN) / 2);
            let number = rng.pick(&NUMBERS).to_le_bytes();
            let width = rng.pick(&[1, 2, 4]).min(bytes.len() - field);
            bytes[field..field + width].copy_from_slice(&number[..width]);
        }
        _ => {
            let len = rng.below(bytes.len() - at).min(24);
            let to = rng.below(bytes.len() - len + 1);
            bytes.copy_within(at..at + len, to);
        }
    }
}

/// Lengths to lend: mostly about as stated.
pub fn lengths(rng: &mut Rng, stated: Lengths, rooms: [usize; 5]) -> Lengths {
    let mut lengths = stated.lengths();
    match rng.below(10) {
        0..=6 => {}
        7 => lengths = lengths.map(|length| length.saturating_add(rng.below(50))),
        8 => {
            let buffer = rng.below(lengths.len());
            lengths[buffer] = lengths[buffer].saturating_sub(rng.pick(&[1, 1, 2, 16]));
        }
        _ => lengths = lengths.map(|_| rng.below(2_000)),
    }
    let within: Vec<usize> = lengths.into_iter().zip(rooms).map(|(length, room)| length.min(room)).collect();
    <[usize; 5]>::try_from(within).expect("five lengths").into()
}
