//! The header, the sections and the check that bytes are a unit.

use crate::answer::Answer;
use crate::buffers::{Lengths, WORKED_ON};
use crate::entries::{Case, Constant, Entry, Function, Instruction, Kind, Line, Metadata};
use crate::entries::{CONSTANT_BOOL, CONSTANT_STRING, TYPE_FLOAT};
use crate::refusal::Refusal;

/// "Sixteen 32-bit words", and document 02's "two last words, a count and an offset".
const HEADER_WORDS: usize = 18;
pub const HEADER_LEN: usize = HEADER_WORDS * <u32 as Entry>::LEN;

/// "local slots s (at most 65,535)"
pub const MAX_LOCAL_SLOTS: u32 = 65_535;

/// The most cases of a select (document 02, L9).
pub const MAX_SELECT_CASES: u32 = 24;

/// The sections, in the order of their offsets and of the sections themselves.
#[derive(Clone, Copy, Debug, Eq, PartialEq)]
#[repr(usize)]
pub enum Section {
    Code,
    Metadata,
    Types,
    Constants,
    Functions,
    Externs,
    Cases,
    /// Document 02, L3: "the line section comes last".
    Lines,
}

impl Section {
    pub const ALL: [Self; 8] = [
        Self::Code,
        Self::Metadata,
        Self::Types,
        Self::Constants,
        Self::Functions,
        Self::Externs,
        Self::Cases,
        Self::Lines,
    ];

    pub fn entry_len(self) -> usize {
        match self {
            Self::Code => Instruction::LEN,
            Self::Metadata => Metadata::LEN,
            Self::Types => <u8 as Entry>::LEN,
            Self::Constants => Constant::LEN,
            Self::Functions => Function::LEN,
            Self::Externs => <u16 as Entry>::LEN,
            Self::Cases => Case::LEN,
            Self::Lines => Line::LEN,
        }
    }
}

/// "a header of counts and offsets: instructions n, metadata m, local slots s, slot types, defer (0 or 1),
/// constants, functions, externs, select cases; then the byte offsets of code, metadata, types, constants,
/// functions, externs, cases"; then the count and the offset of the lines
#[derive(Clone, Copy, Debug, Eq, PartialEq)]
pub struct Header {
    pub counts: [u32; 8],
    pub local_slots: u32,
    pub defer: u32,
    pub offsets: [u32; 8],
}

impl Header {
    /// The header with the offsets that its counts ask for, and the length of its unit.
    pub fn with_counts(counts: [u32; 8], local_slots: u32, defer: u32) -> (Self, u64) {
        let mut header = Self { counts, local_slots, defer, offsets: [0; 8] };
        let (offsets, len) = header.offsets_without_gaps();
        header.offsets = offsets.map(|offset| offset as u32);
        (header, len)
    }

    /// "Sections follow in that order from byte 64, without gaps, to the unit's end"; from byte 72 with L3.
    fn offsets_without_gaps(&self) -> ([u64; 8], u64) {
        let mut end = HEADER_LEN as u64;
        let offsets = Section::ALL.map(|section| {
            let offset = end;
            end += u64::from(self.count(section)) * section.entry_len() as u64;
            offset
        });
        (offsets, end)
    }

    pub fn count(&self, section: Section) -> u32 {
        self.counts[section as usize]
    }
}

impl Entry for Header {
    const LEN: usize = HEADER_LEN;

    fn read(bytes: &[u8]) -> Self {
        let word = |index: usize| u32::read(&bytes[4 * index..]);
        Self {
            counts: [word(0), word(1), word(3), word(5), word(6), word(7), word(8), word(16)],
            local_slots: word(2),
            defer: word(4),
            offsets: std::array::from_fn(|section| {
                word(if section == Section::Lines as usize { 17 } else { 9 + section })
            }),
        }
    }

    fn write(&self, out: &mut Vec<u8>) {
        let [code, metadata, types, constants, functions, externs, cases, lines] = self.counts;
        let counts =
            [code, metadata, self.local_slots, types, self.defer, constants, functions, externs, cases];
        let (lines_at, offsets) = self.offsets.split_last().expect("a section has an offset");
        for word in counts.into_iter().chain(offsets.iter().copied()).chain([lines, *lines_at]) {
            word.write(out);
        }
    }
}

/// Bytes that are a unit.
#[derive(Clone, Copy, Debug)]
pub struct Unit<'a> {
    bytes: &'a [u8],
    header: Header,
}

impl<'a> Unit<'a> {
    /// `None` is refusal 1.
    pub fn check(bytes: &'a [u8]) -> Option<Self> {
        Self::parse(bytes).ok()
    }

    /// The whole of "The unit"; what is wrong is said in words.
    pub fn parse(bytes: &'a [u8]) -> Result<Self, String> {
        let len = bytes.len();
        let header = bytes.get(..HEADER_LEN);
        let header = header.ok_or_else(|| format!("a header has {HEADER_LEN} bytes, here are {len}"))?;
        let header = Header::read(header);
        if header.local_slots > MAX_LOCAL_SLOTS {
            return Err(format!("{} local slots are above {MAX_LOCAL_SLOTS}", header.local_slots));
        }
        if header.defer > 1 {
            return Err(format!("defer is {}, neither 0 nor 1", header.defer));
        }
        let (offsets, end) = header.offsets_without_gaps();
        for (section, offset) in Section::ALL.into_iter().zip(offsets) {
            let given = header.offsets[section as usize];
            if u64::from(given) != offset {
                return Err(format!("{section:?} starts at byte {given} by the header, not at {offset}"));
            }
        }
        if len as u64 != end {
            return Err(format!("the sections end at byte {end}, here are {len} bytes"));
        }
        let unit = Self { bytes, header };
        let cases = u64::from(header.count(Section::Cases));
        first_fault("metadata", unit.metadata(), |entry| metadata_fault(entry, cases))?;
        first_fault("slot", unit.types(), type_fault)?;
        first_fault("constant", unit.constants(), constant_fault)?;
        first_fault("case", unit.cases(), case_fault)?;
        Ok(unit)
    }

    /// The refusals of a unit that no buffer and no other row comes before: "(11, place 0: places not strictly rising
    /// or not below n; checked directly after 1.)", "13, place of the lowest such record".
    pub fn refusal(&self) -> Option<Answer> {
        if !self.lines_rise() {
            return Some(Answer::LINE_PLACES);
        }
        let is_wide = |entry: Metadata| entry.is(Kind::SelectExecLayout) && entry.second > MAX_SELECT_CASES;
        let place = self.metadata().position(is_wide)?;
        Some(Answer::Refused { number: Refusal::SelectCases as u32, place: place as u32 })
    }

    pub fn bytes(&self) -> &'a [u8] {
        self.bytes
    }

    pub fn header(&self) -> &Header {
        &self.header
    }

    /// Whether the answer of a unit without such a refusal depends on the buffers: "unchanged: n under 2, above
    /// 65,536, or defer" comes before all other rows.
    pub fn is_worked_on(&self) -> bool {
        WORKED_ON.contains(&self.header.count(Section::Code)) && self.header.defer == 0
    }

    pub fn stated_lengths(&self) -> Lengths {
        let header = &self.header;
        Lengths::stated(header.count(Section::Code), header.local_slots, header.count(Section::Lines))
    }

    /// "Each section is handed back as a part of the unit itself."
    pub fn section(&self, section: Section) -> &'a [u8] {
        let start = self.header.offsets[section as usize] as usize;
        let len = self.header.count(section) as usize * section.entry_len();
        &self.bytes[start..start + len]
    }

    fn entries<E: Entry + 'a>(&self, section: Section) -> impl Iterator<Item = E> + 'a {
        self.section(section).chunks_exact(E::LEN).map(E::read)
    }

    pub fn code(&self) -> impl Iterator<Item = Instruction> + 'a {
        self.entries(Section::Code)
    }

    pub fn metadata(&self) -> impl Iterator<Item = Metadata> + 'a {
        self.entries(Section::Metadata)
    }

    pub fn types(&self) -> impl Iterator<Item = u8> + 'a {
        self.entries(Section::Types)
    }

    pub fn constants(&self) -> impl Iterator<Item = Constant> + 'a {
        self.entries(Section::Constants)
    }

    pub fn functions(&self) -> impl Iterator<Item = Function> + 'a {
        self.entries(Section::Functions)
    }

    pub fn externs(&self) -> impl Iterator<Item = u16> + 'a {
        self.entries(Section::Externs)
    }

    pub fn cases(&self) -> impl Iterator<Item = Case> + 'a {
        self.entries(Section::Cases)
    }

    pub fn lines(&self) -> impl Iterator<Item = Line> + 'a {
        self.entries(Section::Lines)
    }

    /// Document 02, L3: not "(11, place 0: places not strictly rising or not below n)".
    pub fn lines_rise(&self) -> bool {
        let places: Vec<u32> = self.lines().map(|entry| entry.place).collect();
        let rising = places.windows(2).all(|pair| pair[0] < pair[1]);
        rising && places.last().map_or(true, |&last| last < self.header.count(Section::Code))
    }
}

/// What is wrong with the first entry that has a fault.
fn first_fault<E>(
    name: &str,
    entries: impl Iterator<Item = E>,
    fault: impl Fn(E) -> Option<String>,
) -> Result<(), String> {
    for (index, entry) in entries.enumerate() {
        if let Some(fault) = fault(entry) {
            return Err(format!("{name} {index}: {fault}"));
        }
    }
    Ok(())
}

fn above(what: &str, value: u8, most: u8) -> Option<String> {
    (value > most).then(|| format!("{what} {value} is above {most}"))
}

/// "kind 0 to 15, has_ok 0 or 1 in every kind"; "First case plus number is at most the count of cases."
fn metadata_fault(entry: Metadata, cases: u64) -> Option<String> {
    let end = u64::from(entry.first) + u64::from(entry.second);
    let too_many = || {
        (entry.is(Kind::SelectExecLayout) && end > cases)
            .then(|| format!("needs {end} select cases, there are {cases}"))
    };
    let most = Kind::ALL.len() as u8 - 1;
    above("kind", entry.kind, most).or_else(|| above("has_ok", entry.has_ok, 1)).or_else(too_many)
}

/// "Type: one byte 0 to 5."
fn type_fault(slot_type: u8) -> Option<String> {
    above("type", slot_type, TYPE_FLOAT)
}

/// "(Bool 0 or 1)"
fn constant_fault(constant: Constant) -> Option<String> {
    let no_bool = || {
        (constant.kind == CONSTANT_BOOL && constant.value > 1)
            .then(|| format!("the bool {} is above 1", constant.value))
    };
    above("kind", constant.kind, CONSTANT_STRING).or_else(no_bool)
}

/// "kind (0 send, 1 receive), has_ok likewise"
fn case_fault(case: Case) -> Option<String> {
    above("kind", case.kind, Case::RECEIVE).or_else(|| above("has_ok", case.has_ok, 1))
}
