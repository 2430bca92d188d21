//! Lent buffers that show every touch: noise inside and around them.

use lampruda::{sys, Lent};
use unit::Lengths;

/// An element of a buffer.
pub trait Element: Copy + PartialEq {
    const ZERO: Self;

    /// Part of a word.
    fn of(word: u64) -> Self;
}

macro_rules! elements {
    ($($element:ty),*) => {
        $(impl Element for $element {
            const ZERO: Self = 0;

            fn of(word: u64) -> Self {
                word as Self
            }
        })*
    };
}

elements!(u8, u32, u64);

/// The noise of a seed at a place. Cheap, since every element of every call gets it.
fn noise<T: Element>(seed: u64, place: usize) -> T {
    let mixed = (seed ^ place as u64).wrapping_mul(0x9e37_79b9_7f4a_7c15);
    T::of((mixed ^ (mixed >> 29)).wrapping_mul(0xbf58_476d_1ce4_e5b9) >> 7)
}

/// The least number of elements before and behind a buffer.
const MARGIN: usize = 24;

/// A buffer full of noise, with noise around it.
pub struct Guarded<T> {
    store: Vec<T>,
    before: usize,
    len: usize,
    seed: u64,
}

impl<T: Element> Guarded<T> {
    pub fn new(seed: u64, len: usize) -> Self {
        // Byte buffers start at any address.
        let before = MARGIN + seed as usize % 8;
        let store = (0..before + len + MARGIN).map(|place| noise(seed, place)).collect();
        Self { store, before, len, seed }
    }

    pub fn lent(&self) -> &[T] {
        &self.store[self.before..self.before + self.len]
    }

    fn lend(&mut self) -> &mut [T] {
        &mut self.store[self.before..self.before + self.len]
    }

    fn is_noise(&self, from: usize, to: usize) -> bool {
        (from..to).all(|place| self.store[place] == noise(self.seed, place))
    }

    /// Whether nothing outside the buffer was touched.
    pub fn is_guarded(&self) -> bool {
        self.is_noise(0, self.before) && self.is_noise(self.before + self.len, self.store.len())
    }

    /// Whether nothing in the buffer was touched from this element on.
    pub fn is_untouched_from(&self, element: usize) -> bool {
        self.is_noise(self.before + element, self.before + self.len)
    }

    pub fn is_zero(&self) -> bool {
        self.lent().iter().all(|&element| element == T::ZERO)
    }
}

/// The two calls.
#[derive(Clone, Copy, Debug, Eq, PartialEq)]
pub enum Call {
    Pass,
    Clean,
}

impl Call {
    /// The lengths that count for this call.
    pub fn lent(self, lengths: Lengths) -> Lengths {
        match self {
            Self::Pass => lengths.of_one_pass(),
            Self::Clean => lengths,
        }
    }

    /// Calls the library; one pass counts as the last one run.
    pub fn run(self, lent: &mut Lent, unit: &[u8]) -> (sys::Answer, u32) {
        match self {
            Self::Pass => (lent.pass(unit), 1),
            Self::Clean => {
                let cleaned = lent.clean(unit);
                (cleaned.answer(), cleaned.passes)
            }
        }
    }
}

/// The buffers of one call.
pub struct Buffers {
    pub out: Guarded<u8>,
    work32: Guarded<u32>,
    work64: Guarded<u64>,
    first: Guarded<u8>,
    second: Guarded<u8>,
}

impl Buffers {
    pub fn new(seed: u64, lengths: Lengths) -> Self {
        Self {
            out: Guarded::new(seed, lengths.out),
            work32: Guarded::new(seed ^ 1, lengths.work32),
            work64: Guarded::new(seed ^ 2, lengths.work64),
            first: Guarded::new(seed ^ 3, lengths.first),
            second: Guarded::new(seed ^ 4, lengths.second),
        }
    }

    pub fn lend(&mut self) -> Lent<'_> {
        Lent {
            out: self.out.lend(),
            work32: self.work32.lend(),
            work64: self.work64.lend(),
            first: self.first.lend(),
            second: self.second.lend(),
        }
    }

    /// What holds after every answer: zeros in all that was lent for work, and nothing touched around it.
    pub fn check(&self) -> Result<(), String> {
        let work = [
            ("work32", self.work32.is_zero(), self.work32.is_guarded()),
            ("work64", self.work64.is_zero(), self.work64.is_guarded()),
            ("first", self.first.is_zero(), self.first.is_guarded()),
            ("second", self.second.is_zero(), self.second.is_guarded()),
        ];
        for (name, is_zero, is_guarded) in work {
            if !is_zero {
                return Err(format!("{name} is not all 0"));
            }
            if !is_guarded {
                return Err(format!("touched outside {name}"));
            }
        }
        if !self.out.is_guarded() {
            return Err("touched outside the output".into());
        }
        Ok(())
    }
}

#[cfg(test)]
mod tests {
    use super::*;

    #[test]
    fn touches_show() {
        let new = || Guarded::<u8>::new(5, 10);
        let mut inside = new();
        assert!(inside.is_guarded() && inside.is_untouched_from(0) && !inside.is_zero());
        inside.lend()[3] ^= 1;
        assert!(inside.is_guarded() && inside.is_untouched_from(4) && !inside.is_untouched_from(3));
        for place in [0, new().before - 1, new().before + 10, new().store.len() - 1] {
            let mut outside = new();
            outside.store[place] ^= 1;
            assert!(!outside.is_guarded() && outside.is_untouched_from(0));
        }
    }

    #[test]
    fn work_left_shows() {
        let zeroed = |lengths| {
            let mut buffers = Buffers::new(7, lengths);
            let Lent { out: _, work32, work64, first, second } = buffers.lend();
            work32.fill(0);
            work64.fill(0);
            first.fill(0);
            second.fill(0);
            buffers
        };
        let lengths = Lengths::from([4; 5]);
        assert_eq!(zeroed(lengths).check(), Ok(()));
        let mut left = zeroed(lengths);
        left.lend().work64[3] = 1;
        assert_eq!(left.check(), Err("work64 is not all 0".into()));
        let mut left = zeroed(lengths);
        left.lend().second[0] = 1;
        assert_eq!(left.check(), Err("second is not all 0".into()));
    }
}
