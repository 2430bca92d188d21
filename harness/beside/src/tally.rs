//! Counts by answer.

use crate::guarded::Call;
use unit::{Answer, Refusal};

/// Unchanged, rewritten, and refused with each number.
const ROWS: usize = 2 + Refusal::ALL.len();

/// One pass, and the cleaning with 1, 2 and 3 passes run.
const COLUMNS: usize = 4;

#[derive(Clone, Default)]
pub struct Tally {
    pub calls: u64,
    counts: [[u64; COLUMNS]; ROWS],
}

impl Tally {
    pub fn count(&mut self, call: Call, answer: &Answer, passes: u32) {
        let row = match answer {
            Answer::Unchanged => 0,
            Answer::Rewritten { .. } => 1,
            Answer::Refused { number, .. } => {
                let refusal = Refusal::ALL.iter().position(|refusal| *refusal as u32 == *number);
                2 + refusal.expect("a number of documents 01 and 02")
            }
        };
        let column = if call == Call::Pass { 0 } else { passes as usize };
        self.counts[row][column] += 1;
    }

    pub fn add(&mut self, other: &Self) {
        self.calls += other.calls;
        for (row, others) in self.counts.iter_mut().zip(&other.counts) {
            row.iter_mut().zip(others).for_each(|(count, other)| *count += other);
        }
    }

    /// How often one pass left the function unchanged, rewrote it, refused it for more than a short buffer.
    pub fn pass(&self) -> [u64; 3] {
        let is_short = |refusal: Refusal| refusal == Refusal::ShortBuffer;
        let rows = Refusal::ALL.into_iter().zip(&self.counts[2..]);
        let refused = rows.filter(|(refusal, _)| !is_short(*refusal)).map(|(_, row)| row[0]).sum();
        [self.counts[0][0], self.counts[1][0], refused]
    }

    pub fn print(&self) {
        println!(
            "{:<12}{:>10}{:>11}{:>11}{:>11}",
            "answer", "one pass", "cleaned:1", "cleaned:2", "cleaned:3"
        );
        for (row, counts) in self.counts.iter().enumerate() {
            let name = match row {
                0 => "unchanged".into(),
                1 => "rewritten".into(),
                _ => format!("refused {}", Refusal::ALL[row - 2] as u32),
            };
            let [pass, first, second, third] = counts;
            println!("{name:<12}{pass:>10}{first:>11}{second:>11}{third:>11}");
        }
    }
}
