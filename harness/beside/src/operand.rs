//! `beside operand`: operands for wanted outcomes, beside a search of another kind.
//!
//! The search works on words of any width. On words of 8 bits it is compared with the first of all 256 words that
//! gives the outcome, for every opcode, left and wanted word; on words of 64 bits the library is compared with it.

use crate::options::Options;
use generate::Rng;
use lampruda::Operand;
use std::time::Instant;
use text::Opcode::{self, *};

/// The 17 integer binary opcodes.
pub const COVERED: [Opcode; 17] =
    [AddI, SubI, MulI, EqI, NeI, LtI, LtU, LeI, LeU, GtI, GtU, GeI, GeU, And, Or, Xor, AndNot];

/// Words of so many bits.
#[derive(Clone, Copy)]
pub struct Width(u32);

impl Width {
    fn low(self, x: u64) -> u64 {
        x & (u64::MAX >> (64 - self.0))
    }

    fn signed(self, x: u64) -> i64 {
        (x << (64 - self.0)) as i64
    }

    pub fn fold(self, opcode: Opcode, l: u64, r: u64) -> u64 {
        let (left, right) = (self.signed(l), self.signed(r));
        let outcome = match opcode {
            AddI => l.wrapping_add(r),
            SubI => l.wrapping_sub(r),
            MulI => l.wrapping_mul(r),
            And => l & r,
            Or => l | r,
            Xor => l ^ r,
            AndNot => l & !r,
            EqI => (l == r).into(),
            NeI => (l != r).into(),
            LtI => (left < right).into(),
            LtU => (l < r).into(),
            LeI => (left <= right).into(),
            LeU => (l <= r).into(),
            GtI => (left > right).into(),
            GtU => (l > r).into(),
            GeI => (left >= right).into(),
            GeU => (l >= r).into(),
            _ => unreachable!("{opcode:?} is not covered"),
        };
        self.low(outcome)
    }

    fn search(self, opcode: Opcode, left: u64, wanted: u64) -> Option<u64> {
        match opcode {
            AddI | SubI | And | Or | Xor | AndNot => self.by_bits(opcode, left, wanted),
            MulI => self.factor(left, wanted),
            _ => self.by_steps(opcode, left, wanted),
        }
    }

    /// The low bits of an outcome hang on the low bits of the right word alone: each bit is 0 if that does it.
    fn by_bits(self, opcode: Opcode, left: u64, wanted: u64) -> Option<u64> {
        (0..self.0).try_fold(0, |low, place| {
            let agrees = |r: &u64| (self.fold(opcode, left, *r) ^ wanted) >> place & 1 == 0;
            [low, low | 1 << place].into_iter().find(agrees)
        })
    }

    /// The factor's bits one by one, from the lowest: each decides the product's bit as far up as the left word's
    /// lowest set bit.
    fn factor(self, left: u64, wanted: u64) -> Option<u64> {
        let Some(lowest) = (0..self.0).find(|place| left >> place & 1 == 1) else {
            return (wanted == 0).then_some(0);
        };
        let mut found = 0;
        for place in 0..self.0 - lowest {
            if (self.fold(MulI, left, found) ^ wanted) >> (place + lowest) & 1 == 1 {
                found |= 1 << place;
            }
        }
        (self.fold(MulI, left, found) == wanted).then_some(found)
    }

    /// A comparison's outcome changes at the left word, behind it, and where the signed readings turn negative.
    fn by_steps(self, opcode: Opcode, left: u64, wanted: u64) -> Option<u64> {
        let steps = [0, left, self.low(left.wrapping_add(1)), 1 << (self.0 - 1)];
        steps.into_iter().filter(|r| self.fold(opcode, left, *r) == wanted).min()
    }
}

const BYTES: Width = Width(8);
pub const WORDS: Width = Width(64);

pub fn run(mut options: Options) -> Result<(), String> {
    let seed = options.number("seed", 1)?;
    let count = options.number("count", 1_000_000)?;
    options.done()?;
    let begun = Instant::now();
    let bytes = all_bytes()?;
    let edges = all_edges()?;
    let mut rng = Rng::new(seed, 0);
    for _ in 0..count {
        let opcode = rng.pick(&COVERED);
        let left = any_word(&mut rng);
        // What some word gives, for half of them.
        let wanted = match rng.percent(50) {
            true => WORDS.fold(opcode, left, any_word(&mut rng)),
            false => any_word(&mut rng),
        };
        compare(opcode as u8, left, wanted)?;
    }
    println!(
        "operand: {bytes} of 8 bits searched, {edges} at the edges and {count} random ones the same, {:.1} s",
        begun.elapsed().as_secs_f64()
    );
    Ok(())
}

/// Every opcode with all words of 8 bits.
fn all_bytes() -> Result<u64, String> {
    let mut searched = 0;
    for opcode in COVERED {
        for left in 0..256 {
            let mut first = [None; 256];
            for r in (0..256).rev() {
                first[BYTES.fold(opcode, left, r) as usize] = Some(r);
            }
            for (wanted, first) in (0..).zip(first) {
                let found = BYTES.search(opcode, left, wanted);
                if found != first {
                    return Err(format!("{opcode:?} {left} {wanted}: {found:?}, and the first is {first:?}"));
                }
                searched += 1;
            }
        }
    }
    Ok(searched)
}

/// Every opcode byte with the words at the edges.
fn all_edges() -> Result<u64, String> {
    let mut compared = 0;
    for opcode in 0..=255 {
        for left in EDGES {
            for wanted in EDGES {
                compare(opcode, left, wanted)?;
                compared += 1;
            }
        }
    }
    Ok(compared)
}

const EDGES: [u64; 12] = [
    0,
    1,
    2,
    3,
    (1 << 32) - 1,
    1 << 32,
    (1 << 63) - 2,
    (1 << 63) - 1,
    1 << 63,
    (1 << 63) + 1,
    u64::MAX - 1,
    u64::MAX,
];

/// An edge, or a word of which high bits, low bits or both are random.
pub fn any_word(rng: &mut Rng) -> u64 {
    let word = rng.word();
    match rng.below(5) {
        0 => rng.pick(&EDGES),
        1 => word >> rng.below(64),
        2 => word << rng.below(64),
        3 => word & rng.word() & rng.word(),
        _ => word,
    }
}

/// The library's answer is that of the search.
fn compare(opcode: u8, left: u64, wanted: u64) -> Result<(), String> {
    let searched = match COVERED.into_iter().find(|known| *known as u8 == opcode) {
        Some(opcode) => WORDS.search(opcode, left, wanted).map_or(Operand::None, Operand::Word),
        None => Operand::NotCovered,
    };
    let given = lampruda::operand(opcode, left, wanted);
    if given == searched {
        return Ok(());
    }
    Err(format!("opcode {opcode}, {left:#x}, {wanted:#x}: {given:?}, and the search gives {searched:?}"))
}
