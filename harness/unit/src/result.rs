//! The result's layout.

use crate::entries::{Entry, Instruction, Line, Metadata};
use crate::parts::{write_all, Parts};
use crate::section::Unit;

const HEADER_WORDS: usize = 6;
pub const RESULT_HEADER_LEN: usize = HEADER_WORDS * <u32 as Entry>::LEN;

/// A retained instruction: what stands at one new place.
#[derive(Clone, Copy, Debug, Eq, PartialEq)]
pub struct Retained {
    pub instruction: Instruction,
    pub metadata: Metadata,
    pub old_place: u32,
}

impl Retained {
    pub(crate) const LEN: usize = Instruction::LEN + Metadata::LEN + <u32 as Entry>::LEN;
}

/// "words n', 16, 16 + 8n', 16 + 24n'; then code, metadata, and each instruction's old place (32 bits)"; document
/// 02, L3: "The result gains the same section, and its header the same two last words (24 bytes)".
#[derive(Clone, Debug, Default, Eq, PartialEq)]
pub struct Rewritten {
    pub retained: Vec<Retained>,
    pub lines: Vec<Line>,
}

impl Rewritten {
    pub fn encode(&self) -> Vec<u8> {
        let (header, len) = header(self.retained.len(), self.lines.len());
        let mut out = Vec::with_capacity(len);
        header.iter().for_each(|word| word.write(&mut out));
        self.retained.iter().for_each(|entry| entry.instruction.write(&mut out));
        self.retained.iter().for_each(|entry| entry.metadata.write(&mut out));
        self.retained.iter().for_each(|entry| entry.old_place.write(&mut out));
        write_all(&self.lines, &mut out);
        out
    }

    /// Laid out as a unit again: the result's code, metadata and lines with the given unit's other sections.
    pub fn as_unit(&self, given: &Unit) -> Vec<u8> {
        let code = self.retained.iter().map(|entry| entry.instruction).collect();
        let metadata = self.retained.iter().map(|entry| entry.metadata).collect();
        let lines = self.lines.clone();
        Parts { code, metadata, lines, ..Parts::decode(given) }.encode()
    }

    /// How many bytes a result at the front of a buffer has, by its header.
    pub fn len_at(bytes: &[u8]) -> usize {
        let word = |index: usize| u32::read(&bytes[4 * index..]) as usize;
        header(word(0), word(4)).1
    }

    /// `None` for bytes that are not laid out so.
    pub fn decode(bytes: &[u8]) -> Option<Self> {
        let front = bytes.get(..RESULT_HEADER_LEN)?;
        let word = |index: usize| u32::read(&front[4 * index..]);
        let (n, l) = (word(0) as usize, word(4) as usize);
        let (words, len) = header(n, l);
        if (0..HEADER_WORDS).any(|index| word(index) != words[index]) || bytes.len() != len {
            return None;
        }
        let [_, code, metadata, old_places, _, lines] = words.map(|word| word as usize);
        let retained = (0..n)
            .map(|place| Retained {
                instruction: Instruction::read(&bytes[code + place * Instruction::LEN..]),
                metadata: Metadata::read(&bytes[metadata + place * Metadata::LEN..]),
                old_place: u32::read(&bytes[old_places + place * <u32 as Entry>::LEN..]),
            })
            .collect();
        let lines = bytes[lines..].chunks_exact(Line::LEN).map(Line::read).collect();
        Some(Self { retained, lines })
    }
}

/// The result's header for n' retained instructions and l' lines, and its length.
fn header(n: usize, l: usize) -> ([u32; HEADER_WORDS], usize) {
    let code = RESULT_HEADER_LEN;
    let metadata = code + Instruction::LEN * n;
    let old_places = metadata + Metadata::LEN * n;
    let lines = RESULT_HEADER_LEN + Retained::LEN * n;
    ([n, code, metadata, old_places, l, lines].map(|word| word as u32), lines + Line::LEN * l)
}
