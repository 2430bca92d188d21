//! The proved library's functions, as `include/lampruda.h` declares them. Nothing checks one against the
//! other.

/// `lampruda_answer`
#[repr(C)]
#[derive(Clone, Copy, Debug, Eq, PartialEq)]
pub struct Answer {
    pub kind: u32,
    pub number: u32,
    pub place: u32,
}

/// `lampruda_cleaned`
#[repr(C)]
#[derive(Clone, Copy, Debug, Eq, PartialEq)]
pub struct Cleaned {
    pub kind: u32,
    pub number: u32,
    pub place: u32,
    pub passes: u32,
}

impl Cleaned {
    pub fn answer(self) -> Answer {
        Answer { kind: self.kind, number: self.number, place: self.place }
    }
}

pub const UNCHANGED: u32 = 0;
pub const REFUSED: u32 = 1;
pub const REWRITTEN: u32 = 2;

/// `lampruda_right`
#[repr(C)]
#[derive(Clone, Copy, Debug, Eq, PartialEq)]
pub struct Right {
    pub kind: u32,
    pub word: u64,
}

pub const WORD: u32 = 0;
pub const NONE: u32 = 1;
pub const NOT_COVERED: u32 = 2;

/// `lampruda_made`
#[repr(C)]
#[derive(Clone, Copy, Debug, Eq, PartialEq)]
pub struct Made {
    pub kind: u32,
    pub number: u32,
    pub place: u32,
}

pub const SHORT_UNIT: u32 = 0;
pub const SHORT_REFUSED: u32 = 1;
pub const SHORT_PAST: u32 = 2;

/// `lampruda_found`
#[repr(C)]
#[derive(Clone, Copy, Debug, Eq, PartialEq)]
pub struct Found {
    pub kind: u32,
    pub number: u32,
}

pub const SHORT_NUMBER: u32 = 0;
pub const SHORT_NONE: u32 = 1;

/// `lampruda_stop`
#[repr(C)]
#[derive(Clone, Copy, Debug, Eq, PartialEq)]
pub struct Stop {
    pub kind: u32,
    pub first: u32,
    pub second: u32,
}

pub const RETURNED: u32 = 0;
pub const PANICKED: u32 = 2;
pub const ENDED: u32 = 3;
pub const OTHER: u32 = 4;
pub const LIMIT: u32 = 5;
pub const GOES: u32 = 6;

/// `lampruda_charged`
#[repr(C)]
#[derive(Clone, Copy, Debug, Eq, PartialEq)]
pub struct Charged {
    pub kind: u32,
    pub first: u32,
    pub second: u32,
    pub cents: u64,
}

impl Charged {
    pub fn stop(self) -> Stop {
        Stop { kind: self.kind, first: self.first, second: self.second }
    }
}

/// `lampruda_laid`
#[repr(C)]
#[derive(Clone, Copy, Debug, Eq, PartialEq)]
pub struct Laid {
    pub kind: u32,
    pub number: u32,
    pub place: u32,
    pub length: u64,
}

pub const LAID_UNIT: u32 = 0;
pub const LAID_REFUSED: u32 = 1;
pub const LAID_NONE: u32 = 2;

extern "C" {
    pub fn lampruda_pass(
        unit: *const u8,
        unit_length: usize,
        out: *mut u8,
        out_length: usize,
        work32: *mut u32,
        work32_length: usize,
        work64: *mut u64,
        work64_length: usize,
    ) -> Answer;

    pub fn lampruda_clean(
        unit: *const u8,
        unit_length: usize,
        out: *mut u8,
        out_length: usize,
        work32: *mut u32,
        work32_length: usize,
        work64: *mut u64,
        work64_length: usize,
        first: *mut u8,
        first_length: usize,
        second: *mut u8,
        second_length: usize,
    ) -> Cleaned;

    pub fn lampruda_operand(opcode: u8, left: u64, wanted: u64) -> Right;

    pub fn lampruda_short_unit(number: u32, out: *mut u8, out_length: usize) -> Made;

    pub fn lampruda_short_number(unit: *const u8, unit_length: usize) -> Found;

    pub fn lampruda_run(
        unit: *const u8,
        unit_length: usize,
        frame: *mut u64,
        frame_length: usize,
        limit: u32,
    ) -> Stop;

    pub fn lampruda_step(
        unit: *const u8,
        unit_length: usize,
        frame: *mut u64,
        frame_length: usize,
        place: u32,
    ) -> Stop;

    pub fn lampruda_charge(
        unit: *const u8,
        unit_length: usize,
        frame: *mut u64,
        frame_length: usize,
        limit: u32,
        tariff: *const u16,
        tariff_length: usize,
    ) -> Charged;

    pub fn lampruda_lay_out(
        unit: *const u8,
        unit_length: usize,
        result: *const u8,
        result_length: usize,
        out: *mut u8,
        out_length: usize,
    ) -> Laid;
}
