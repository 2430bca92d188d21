//! Units on which a call is not as expected.

use unit::hex;

/// How many are printed, and how many bytes of a unit.
const PRINTED: usize = 5;
const PRINTED_BYTES: usize = 4_096;

struct Difference {
    number: u64,
    name: String,
    text: String,
    unit: Vec<u8>,
}

/// How many there are, and the first of them.
#[derive(Default)]
pub struct Differences {
    count: u64,
    first: Vec<Difference>,
}

impl Differences {
    pub fn note(&mut self, number: u64, name: impl Into<String>, text: String, unit: Vec<u8>) {
        self.count += 1;
        if self.first.len() < PRINTED {
            self.first.push(Difference { number, name: name.into(), text, unit });
        }
    }

    pub fn add(&mut self, other: Self) {
        self.count += other.count;
        self.first.extend(other.first);
    }

    /// Prints them, or that there is none.
    pub fn report(mut self) -> Result<(), String> {
        if self.count == 0 {
            println!("no difference");
            return Ok(());
        }
        self.first.sort_by_key(|difference| difference.number);
        for Difference { number, name, text, unit } in self.first.iter().take(PRINTED) {
            let shown = hex::encode(&unit[..unit.len().min(PRINTED_BYTES)]);
            let rest = if unit.len() > PRINTED_BYTES { ".." } else { "" };
            println!("difference in unit {number}, {name}: {text}\n  {shown}{rest}");
        }
        Err(format!("{} units differ", self.count))
    }
}
