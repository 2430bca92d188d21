//! Lines for a unit: none, one on every place, with gaps, on one run, and some that are refused.

use crate::rng::Rng;
use unit::{Line, Parts, Unit};

/// A unit's bytes with lines drawn for it; bytes that are no unit stay.
pub fn lined(bytes: Vec<u8>, rng: &mut Rng) -> Vec<u8> {
    let Some(unit) = Unit::check(&bytes) else { return bytes };
    let mut parts = Parts::decode(&unit);
    parts.lines = draw(rng, parts.code.len() as u32);
    parts.encode()
}

/// A line on every place.
pub fn on_every_place(mut parts: Parts) -> Parts {
    parts.lines = (0..parts.code.len() as u32).map(|place| Line { place, line: place + 1 }).collect();
    parts
}

fn draw(rng: &mut Rng, n: u32) -> Vec<Line> {
    let mut places: Vec<u32> = match rng.below(20) {
        0..=8 => vec![],
        9..=11 => (0..n).collect(),
        12..=15 => {
            let percent = rng.pick(&[5, 30, 70]);
            (0..n).filter(|_| rng.percent(percent)).collect()
        }
        // One run: at the front, in the middle or at the end.
        16 | 17 => {
            let [first, second] = [(); 2].map(|()| rng.below(n as usize + 1) as u32);
            match rng.below(3) {
                0 => (0..first).collect(),
                1 => (first.min(second)..first.max(second)).collect(),
                _ => (first..n).collect(),
            }
        }
        _ => (0..n).filter(|_| rng.percent(50)).collect(),
    };
    if rng.percent(4) {
        spoil(rng, n, &mut places);
    }
    let line =
        |place| Line { place, line: if rng.percent(5) { rng.word() as u32 } else { rng.below(40) as u32 } };
    places.into_iter().map(line).collect()
}

/// Equal and falling places, place n and places past it: refusal 11.
fn spoil(rng: &mut Rng, n: u32, places: &mut Vec<u32>) {
    let at = rng.below(places.len() + 1);
    match rng.below(5) {
        0 => places.push(n),
        1 => places.push(rng.pick(&[n + 1, u32::MAX])),
        2 => places.insert(at, rng.below(n as usize + 1) as u32),
        3 if !places.is_empty() => places.extend_from_within(places.len() - 1..),
        _ => places.reverse(),
    }
}
