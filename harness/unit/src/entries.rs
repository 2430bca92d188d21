//! The entries of the sections.

/// An entry of fixed length.
pub trait Entry: Sized {
    const LEN: usize;

    /// Reads the entry at the front of `bytes`.
    fn read(bytes: &[u8]) -> Self;

    fn write(&self, out: &mut Vec<u8>);
}

fn u16_at(bytes: &[u8], at: usize) -> u16 {
    u16::from_le_bytes(bytes[at..at + 2].try_into().unwrap())
}

fn u32_at(bytes: &[u8], at: usize) -> u32 {
    u32::from_le_bytes(bytes[at..at + 4].try_into().unwrap())
}

/// A slot's type: "one byte 0 to 5".
impl Entry for u8 {
    const LEN: usize = 1;

    fn read(bytes: &[u8]) -> Self {
        bytes[0]
    }

    fn write(&self, out: &mut Vec<u8>) {
        out.push(*self);
    }
}

pub const TYPE_VALUE: u8 = 0;
pub const TYPE_GC_BASE: u8 = 1;
pub const TYPE_FLOAT: u8 = 5;

/// "Extern: return slots, 16 bits."
impl Entry for u16 {
    const LEN: usize = 2;

    fn read(bytes: &[u8]) -> Self {
        u16_at(bytes, 0)
    }

    fn write(&self, out: &mut Vec<u8>) {
        out.extend(self.to_le_bytes());
    }
}

/// A header's word, and an old place of the result.
impl Entry for u32 {
    const LEN: usize = 4;

    fn read(bytes: &[u8]) -> Self {
        u32_at(bytes, 0)
    }

    fn write(&self, out: &mut Vec<u8>) {
        out.extend(self.to_le_bytes());
    }
}

/// "Eight bytes: op, flags, then a, b, c of 16 bits."
#[derive(Clone, Copy, Debug, Default, Eq, PartialEq)]
pub struct Instruction {
    pub op: u8,
    pub flags: u8,
    pub a: u16,
    pub b: u16,
    pub c: u16,
}

impl Instruction {
    /// "`imm32` is b + 65,536 × c", here as its 32 bits.
    pub fn imm32(&self) -> u32 {
        u32::from(self.b) | u32::from(self.c) << 16
    }

    /// Sets it by its 32 bits.
    pub fn set_imm32(&mut self, value: u32) {
        self.b = value as u16;
        self.c = (value >> 16) as u16;
    }
}

impl Entry for Instruction {
    const LEN: usize = 8;

    fn read(bytes: &[u8]) -> Self {
        Self { op: bytes[0], flags: bytes[1], a: u16_at(bytes, 2), b: u16_at(bytes, 4), c: u16_at(bytes, 6) }
    }

    fn write(&self, out: &mut Vec<u8>) {
        out.extend([self.op, self.flags]);
        for field in [self.a, self.b, self.c] {
            field.write(out);
        }
    }
}

/// "kind 0 to 15 in the order of `InstructionMetadata`"
#[derive(Clone, Copy, Debug, Eq, PartialEq)]
#[repr(u8)]
pub enum Kind {
    None,
    ElemLayout,
    MapGet,
    MapNew,
    MapSet,
    MapDelete,
    PtrLayout,
    SlotLayout,
    CallLayout,
    CallIfaceLayout,
    CallExternLayout,
    QueueLayout,
    SelectExecLayout,
    MapIterNext,
    IfaceAssertLayout,
    LoopEnd,
}

impl Kind {
    pub const ALL: [Self; 16] = [
        Self::None,
        Self::ElemLayout,
        Self::MapGet,
        Self::MapNew,
        Self::MapSet,
        Self::MapDelete,
        Self::PtrLayout,
        Self::SlotLayout,
        Self::CallLayout,
        Self::CallIfaceLayout,
        Self::CallExternLayout,
        Self::QueueLayout,
        Self::SelectExecLayout,
        Self::MapIterNext,
        Self::IfaceAssertLayout,
        Self::LoopEnd,
    ];

    pub fn from_u8(kind: u8) -> Option<Self> {
        Self::ALL.get(usize::from(kind)).copied()
    }

    /// How many of the two lengths the kind uses; the rest "are free and travel along".
    pub fn lengths(self) -> usize {
        match self {
            Self::None | Self::LoopEnd => 0,
            Self::ElemLayout
            | Self::MapDelete
            | Self::PtrLayout
            | Self::SlotLayout
            | Self::QueueLayout
            | Self::IfaceAssertLayout => 1,
            Self::MapGet
            | Self::MapNew
            | Self::MapSet
            | Self::CallLayout
            | Self::CallIfaceLayout
            | Self::CallExternLayout
            | Self::SelectExecLayout
            | Self::MapIterNext => 2,
        }
    }
}

/// "Metadata, 16 bytes: kind, has_ok, array length (16 bits), first layout's length, second's, end_pc
/// (32 bits each); for SelectExecLayout the two lengths are first case and number of cases."
#[derive(Clone, Copy, Debug, Default, Eq, PartialEq)]
pub struct Metadata {
    pub kind: u8,
    pub has_ok: u8,
    pub array_len: u16,
    pub first: u32,
    pub second: u32,
    pub end_pc: u32,
}

impl Metadata {
    pub fn new(kind: Kind) -> Self {
        Self { kind: kind as u8, ..Self::default() }
    }

    pub fn loop_end(end_pc: u32) -> Self {
        Self { end_pc, ..Self::new(Kind::LoopEnd) }
    }

    pub fn is(&self, kind: Kind) -> bool {
        self.kind == kind as u8
    }
}

impl Entry for Metadata {
    const LEN: usize = 16;

    fn read(bytes: &[u8]) -> Self {
        Self {
            kind: bytes[0],
            has_ok: bytes[1],
            array_len: u16_at(bytes, 2),
            first: u32_at(bytes, 4),
            second: u32_at(bytes, 8),
            end_pc: u32_at(bytes, 12),
        }
    }

    fn write(&self, out: &mut Vec<u8>) {
        out.extend([self.kind, self.has_ok]);
        self.array_len.write(out);
        for word in [self.first, self.second, self.end_pc] {
            word.write(out);
        }
    }
}

pub const CONSTANT_NIL: u8 = 0;
pub const CONSTANT_BOOL: u8 = 1;
pub const CONSTANT_INT: u8 = 2;
pub const CONSTANT_FLOAT: u8 = 3;
pub const CONSTANT_STRING: u8 = 4;

/// "Constant: kind, seven unread bytes, 8-byte value (Bool 0 or 1)."
#[derive(Clone, Copy, Debug, Default, Eq, PartialEq)]
pub struct Constant {
    pub kind: u8,
    pub unread: [u8; 7],
    pub value: u64,
}

impl Constant {
    pub fn new(kind: u8, value: u64) -> Self {
        Self { kind, unread: [0; 7], value }
    }
}

impl Entry for Constant {
    const LEN: usize = 16;

    fn read(bytes: &[u8]) -> Self {
        Self {
            kind: bytes[0],
            unread: bytes[1..8].try_into().unwrap(),
            value: u64::from_le_bytes(bytes[8..16].try_into().unwrap()),
        }
    }

    fn write(&self, out: &mut Vec<u8>) {
        out.push(self.kind);
        out.extend(self.unread);
        out.extend(self.value.to_le_bytes());
    }
}

/// "Function: parameter and return slots, 16 bits each."
#[derive(Clone, Copy, Debug, Default, Eq, PartialEq)]
pub struct Function {
    pub param_slots: u16,
    pub ret_slots: u16,
}

impl Entry for Function {
    const LEN: usize = 4;

    fn read(bytes: &[u8]) -> Self {
        Self { param_slots: u16_at(bytes, 0), ret_slots: u16_at(bytes, 2) }
    }

    fn write(&self, out: &mut Vec<u8>) {
        self.param_slots.write(out);
        self.ret_slots.write(out);
    }
}

/// "Case, 8 bytes: kind (0 send, 1 receive), has_ok likewise, queue, value or destination, element slots."
#[derive(Clone, Copy, Debug, Default, Eq, PartialEq)]
pub struct Case {
    pub kind: u8,
    pub has_ok: u8,
    pub queue: u16,
    /// A send's value, a receive's destination.
    pub slot: u16,
    pub elem_slots: u16,
}

impl Case {
    pub const SEND: u8 = 0;
    pub const RECEIVE: u8 = 1;
}

impl Entry for Case {
    const LEN: usize = 8;

    fn read(bytes: &[u8]) -> Self {
        Self {
            kind: bytes[0],
            has_ok: bytes[1],
            queue: u16_at(bytes, 2),
            slot: u16_at(bytes, 4),
            elem_slots: u16_at(bytes, 6),
        }
    }

    fn write(&self, out: &mut Vec<u8>) {
        out.extend([self.kind, self.has_ok]);
        for field in [self.queue, self.slot, self.elem_slots] {
            field.write(out);
        }
    }
}

/// Document 02, L3: "each entry an old place and a line of 32 bits".
#[derive(Clone, Copy, Debug, Default, Eq, PartialEq)]
pub struct Line {
    pub place: u32,
    pub line: u32,
}

impl Entry for Line {
    const LEN: usize = 8;

    fn read(bytes: &[u8]) -> Self {
        Self { place: u32_at(bytes, 0), line: u32_at(bytes, 4) }
    }

    fn write(&self, out: &mut Vec<u8>) {
        self.place.write(out);
        self.line.write(out);
    }
}
