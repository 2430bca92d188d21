//! A unit taken apart, and put together again.

use crate::entries::{Case, Constant, Entry, Function, Instruction, Line, Metadata};
use crate::section::{Header, Unit};

/// The sections of a unit and its two numbers that count nothing. Whether they make a unit is `Unit::check`'s
/// business, so that what is no unit can be put together too.
#[derive(Clone, Debug, Default, Eq, PartialEq)]
pub struct Parts {
    pub code: Vec<Instruction>,
    pub metadata: Vec<Metadata>,
    pub local_slots: u32,
    pub types: Vec<u8>,
    pub defer: u32,
    pub constants: Vec<Constant>,
    pub functions: Vec<Function>,
    pub externs: Vec<u16>,
    pub cases: Vec<Case>,
    pub lines: Vec<Line>,
}

impl Parts {
    pub fn decode(unit: &Unit) -> Self {
        Self {
            code: unit.code().collect(),
            metadata: unit.metadata().collect(),
            local_slots: unit.header().local_slots,
            types: unit.types().collect(),
            defer: unit.header().defer,
            constants: unit.constants().collect(),
            functions: unit.functions().collect(),
            externs: unit.externs().collect(),
            cases: unit.cases().collect(),
            lines: unit.lines().collect(),
        }
    }

    pub fn encode(&self) -> Vec<u8> {
        let counts = [
            self.code.len(),
            self.metadata.len(),
            self.types.len(),
            self.constants.len(),
            self.functions.len(),
            self.externs.len(),
            self.cases.len(),
            self.lines.len(),
        ];
        let (header, len) =
            Header::with_counts(counts.map(|count| count as u32), self.local_slots, self.defer);
        let mut out = Vec::with_capacity(len as usize);
        header.write(&mut out);
        write_all(&self.code, &mut out);
        write_all(&self.metadata, &mut out);
        write_all(&self.types, &mut out);
        write_all(&self.constants, &mut out);
        write_all(&self.functions, &mut out);
        write_all(&self.externs, &mut out);
        write_all(&self.cases, &mut out);
        write_all(&self.lines, &mut out);
        out
    }
}

pub(crate) fn write_all<E: Entry>(entries: &[E], out: &mut Vec<u8>) {
    entries.iter().for_each(|entry| entry.write(out));
}
