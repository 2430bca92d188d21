//! Damaged copies of good units.

use unit::{Case, Kind, Parts, Section, Unit, CONSTANT_BOOL, CONSTANT_STRING, HEADER_LEN, TYPE_FLOAT};

/// One thing wrong with a good unit. Some damage is none: s may be another number, and a defer of 1 is as
/// good as one of 0. Whether it is a unit is for the check to say.
pub enum Damage {
    Bytes { at: usize, to: Vec<u8> },
    Length(usize),
}

impl Damage {
    pub fn apply(&self, good: &[u8]) -> Vec<u8> {
        let mut bytes = good.to_vec();
        match self {
            Self::Bytes { at, to } => bytes[*at..at + to.len()].copy_from_slice(to),
            Self::Length(len) => bytes.resize(*len, 0),
        }
        bytes
    }
}

/// Every damage of a unit: each header word, each byte that the check reads of an entry, the length.
pub fn each(parts: &Parts) -> Vec<Damage> {
    let good = parts.encode();
    let unit = Unit::check(&good).expect("drafts are units");
    let header = unit.header();
    let starts = |section: Section| {
        let start = header.offsets[section as usize] as usize;
        (0..header.count(section) as usize).map(move |index| start + index * section.entry_len())
    };
    let mut damages = Vec::new();
    for at in (0..HEADER_LEN).step_by(4) {
        let word = u32::from_le_bytes(good[at..at + 4].try_into().unwrap());
        // By so many entries of 2, 4, 8 or 16 bytes a section grows by 2^32 bytes, which 32 bits do not see.
        let whole_turns = [1 << 31, 1 << 30, 1 << 29, 1 << 28].map(|entries| word.wrapping_add(entries));
        let others = [word.wrapping_add(1), word.wrapping_sub(1), word.wrapping_add(8), 2, 65_536, u32::MAX];
        for to in others.into_iter().chain(whole_turns).filter(|&to| to != word) {
            damages.push(Damage::Bytes { at, to: to.to_le_bytes().to_vec() });
        }
    }
    let mut byte_from = |at: usize, least: u8| {
        damages.extend([least, 255].map(|to| Damage::Bytes { at, to: vec![to] }));
    };
    for at in starts(Section::Metadata) {
        byte_from(at, Kind::ALL.len() as u8);
        byte_from(at + 1, 2);
    }
    starts(Section::Types).for_each(|at| byte_from(at, TYPE_FLOAT + 1));
    starts(Section::Constants).for_each(|at| byte_from(at, CONSTANT_STRING + 1));
    for at in starts(Section::Cases) {
        byte_from(at, Case::RECEIVE + 1);
        byte_from(at + 1, 2);
    }
    for at in starts(Section::Constants) {
        for value in [2_u64, 256, 1 << 63] {
            let mut to = vec![CONSTANT_BOOL];
            to.extend(&good[at + 1..at + 8]);
            to.extend(value.to_le_bytes());
            damages.push(Damage::Bytes { at, to });
        }
    }
    let cases = header.count(Section::Cases);
    for at in starts(Section::Metadata) {
        for (first, number) in
            [(0, cases), (0, cases + 1), (1, cases), (cases, 1), (cases + 1, 0), (u32::MAX, 1), (1, u32::MAX)]
        {
            let mut to = vec![Kind::SelectExecLayout as u8];
            to.extend(&good[at + 1..at + 4]);
            to.extend([first.to_le_bytes(), number.to_le_bytes()].concat());
            damages.push(Damage::Bytes { at, to });
        }
    }
    damages.extend(
        [1, 4, HEADER_LEN - 1, HEADER_LEN, good.len() - 1, good.len() + 1, good.len() + 8]
            .map(Damage::Length),
    );
    damages
}
