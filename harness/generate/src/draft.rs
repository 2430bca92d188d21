//! A function under construction.

use crate::opcodes::{matching, FLOAT_BINARY, FLOAT_UNARY, INTEGER_BINARY, INTEGER_UNARY, SINGLE_SLOTS};
use crate::rng::Rng;
use reference::Opcode;
use unit::{Case, Constant, Function, Instruction, Kind, Metadata, Parts};
use unit::{CONSTANT_BOOL, CONSTANT_FLOAT, CONSTANT_INT, CONSTANT_NIL, CONSTANT_STRING};
use unit::{TYPE_FLOAT, TYPE_GC_BASE, TYPE_VALUE};

/// A loop hint's flags.
const HINT_LOOP: u8 = 1;

/// Words on which folding, sign and the 32-bit limit turn.
const WORDS: [u64; 16] = [
    0,
    1,
    2,
    3,
    7,
    u64::MAX,
    u64::MAX - 1,
    0x7fff_fffe,
    0x7fff_ffff,
    0x8000_0000,
    0xffff_ffff_8000_0000,
    0xffff_ffff_7fff_ffff,
    0x4000_0000,
    1 << 40,
    i64::MAX as u64,
    i64::MIN as u64,
];

/// The bits of 0.0, -0.0, 1.0, 0.5, infinity, a quiet and a signaling NaN.
const FLOATS: [u64; 7] = [
    0,
    1 << 63,
    0x3ff0_0000_0000_0000,
    0x3fe0_0000_0000_0000,
    0x7ff0_0000_0000_0000,
    0x7ff8_0000_0000_0000,
    0x7ff0_0000_0000_0001,
];

/// Trunc's flags with a width, and some without.
const TRUNC_FLAGS: [u8; 11] = [1, 2, 4, 0x81, 0x82, 0x84, 0, 3, 8, 0x80, 0x85];

/// What a frame needs so that every opcode with short layouts fits: a map's iterator and a bit.
pub const ROOM: usize = 9;

pub struct Draft<'r> {
    pub rng: &'r mut Rng,
    pub parts: Parts,
    /// The planned number of instructions.
    pub n: usize,
}

impl<'r> Draft<'r> {
    pub fn new(rng: &'r mut Rng, n: usize, s: usize) -> Self {
        let parts = Parts { local_slots: s as u32, types: vec![TYPE_VALUE; s], ..Parts::default() };
        Self { rng, parts, n }
    }

    /// Draws types: all Value, Value and Float, or now and then others among them.
    pub fn with_types(mut self) -> Self {
        let way = self.rng.below(10);
        for slot in 0..self.parts.types.len() {
            self.parts.types[slot] = match way {
                0..=4 => TYPE_VALUE,
                5..=7 => self.rng.pick(&[TYPE_VALUE, TYPE_FLOAT]),
                8 => self.rng.pick(&[TYPE_VALUE, TYPE_VALUE, TYPE_VALUE, TYPE_FLOAT, TYPE_GC_BASE]),
                _ => self.rng.below(6) as u8,
            };
        }
        self
    }

    /// Draws up to `most` entries for each of the other sections.
    pub fn with_tables(mut self, most: usize) -> Self {
        for _ in 0..self.rng.within(0..=most) {
            let constant = self.constant();
            self.parts.constants.push(constant);
        }
        for _ in 0..self.rng.within(0..=most) {
            let (param_slots, ret_slots) = (self.short(), self.short());
            self.parts.functions.push(Function { param_slots, ret_slots });
        }
        for _ in 0..self.rng.within(0..=most) {
            let slots = self.short();
            self.parts.externs.push(slots);
        }
        for _ in 0..self.rng.within(0..=most) {
            let case = self.case();
            self.parts.cases.push(case);
        }
        self
    }

    /// A short length.
    fn short(&mut self) -> u16 {
        self.rng.within(0..=3) as u16
    }

    pub fn constant(&mut self) -> Constant {
        let kind = self.rng.pick(&[
            CONSTANT_NIL, CONSTANT_BOOL, CONSTANT_INT, CONSTANT_INT, CONSTANT_INT, CONSTANT_FLOAT,
            CONSTANT_FLOAT, CONSTANT_STRING,
        ]);
        let value = match kind {
            CONSTANT_BOOL => self.rng.below(2) as u64,
            CONSTANT_INT | CONSTANT_FLOAT if self.rng.percent(20) => self.rng.word(),
            CONSTANT_FLOAT => self.rng.pick(&FLOATS),
            CONSTANT_INT => self.rng.pick(&WORDS),
            _ => 0,
        };
        Constant::new(kind, value)
    }

    pub fn case(&mut self) -> Case {
        let kind = self.rng.pick(&[Case::SEND, Case::RECEIVE]);
        let has_ok = if kind == Case::RECEIVE { self.rng.below(2) as u8 } else { 0 };
        let (queue, slot) = (self.roomy(), self.roomy());
        Case { kind, has_ok, queue, slot, elem_slots: self.short() }
    }

    fn s(&self) -> usize {
        self.parts.local_slots as usize
    }

    /// A slot of the frame, often one of the first few; 0 where there is none.
    pub fn slot(&mut self) -> u16 {
        let bound = if self.rng.percent(70) { self.s().min(4) } else { self.s() };
        self.rng.below(bound.max(1)) as u16
    }

    /// A slot with room for short ranges after it, where the frame has it.
    fn roomy(&mut self) -> u16 {
        self.rng.below(self.s().saturating_sub(ROOM).max(1)) as u16
    }

    /// The place that the next instruction will have.
    pub fn place(&self) -> usize {
        self.parts.code.len()
    }

    pub fn is_full(&self) -> bool {
        self.place() >= self.n
    }

    pub fn push(&mut self, instruction: Instruction, metadata: Metadata) {
        self.parts.code.push(instruction);
        self.parts.metadata.push(metadata);
    }

    pub fn op(&mut self, opcode: Opcode, flags: u8, a: u16, b: u16, c: u16) {
        self.push(Instruction { op: opcode as u8, flags, a, b, c }, Metadata::new(Kind::None));
    }

    pub fn load_int(&mut self, slot: u16, value: i32) {
        self.imm32(Opcode::LoadInt, 0, slot, value as u32, Metadata::new(Kind::None));
    }

    fn imm32(&mut self, opcode: Opcode, flags: u8, a: u16, value: u32, metadata: Metadata) {
        let mut instruction = Instruction { op: opcode as u8, flags, a, b: 0, c: 0 };
        instruction.set_imm32(value);
        self.push(instruction, metadata);
    }

    /// A Jump, JumpIf or JumpIfNot: own place + imm32.
    pub fn branch(&mut self, opcode: Opcode, slot: u16, target: i64) {
        let delta = (target - self.place() as i64) as i32;
        self.imm32(opcode, 0, slot, delta as u32, Metadata::new(Kind::None));
    }

    /// A ForLoop: next place + signed c.
    pub fn for_loop(&mut self, flags: u8, index: u16, limit: u16, target: i64) {
        let delta = (target - self.place() as i64 - 1) as i16;
        self.op(Opcode::ForLoop, flags, index, limit, delta as u16);
    }

    pub fn loop_hint(&mut self, exit: u32, metadata: Metadata) {
        self.imm32(Opcode::Hint, HINT_LOOP, 0, exit, metadata);
    }

    /// A target: the next place, this one, the last one, or any.
    pub fn target(&mut self) -> i64 {
        let (place, n) = (self.place(), self.n);
        let last = n - 1;
        (match self.rng.below(10) {
            0 | 1 => (place + 1).min(last),
            2 => place,
            3 => last,
            4 | 5 => self.rng.within(place.min(last)..=last),
            6 => self.rng.within(0..=place.min(last)),
            _ => self.rng.below(n),
        }) as i64
    }

    /// A target outside 0 to n − 1.
    pub fn target_outside(&mut self) -> i64 {
        let n = self.n as i64;
        self.rng.pick(&[n, n, n + 1, -1, -1, -2, i64::from(i32::MAX), i64::from(i32::MIN)])
    }

    pub fn any_branch(&mut self) {
        let target = self.target();
        let slot = self.slot();
        match self.rng.below(5) {
            0 => self.branch(Opcode::Jump, 0, target),
            1 | 2 => self.branch(Opcode::JumpIf, slot, target),
            3 => self.branch(Opcode::JumpIfNot, slot, target),
            _ => {
                let limit = self.slot();
                self.for_loop(0, slot, limit, target);
            }
        }
    }

    /// A pure instruction; `float` is the share of float arithmetic in percent.
    pub fn pure(&mut self, float: usize) {
        let (a, b, c) = (self.slot(), self.slot(), self.slot());
        let float = self.rng.percent(float);
        match self.rng.below(20) {
            0..=3 => {
                let value = if self.rng.percent(15) { self.rng.word() } else { self.rng.pick(&WORDS) };
                self.load_int(a, value as i32);
            }
            4 | 5 => self.load_const(),
            6 | 7 => self.op(Opcode::Copy, 0, a, b, 0),
            8 => {
                let room = self.s() - usize::from(a.max(b)).min(self.s());
                let count = self.rng.within(0..=room.min(3)) as u16;
                self.op(Opcode::CopyN, 0, a, b, count);
            }
            9 | 10 => {
                let opcode = self.rng.pick(if float { &FLOAT_UNARY[..] } else { &INTEGER_UNARY });
                let flags = match opcode {
                    Opcode::Trunc => self.rng.pick(&TRUNC_FLAGS),
                    Opcode::ConvI2F | Opcode::ConvF2I => self.rng.pick(&[0, 1, 8]),
                    _ => self.odd_flags(),
                };
                self.op(opcode, flags, a, b, 0);
            }
            _ => {
                let opcode = self.rng.pick(if float { &FLOAT_BINARY[..] } else { &INTEGER_BINARY });
                let flags = self.odd_flags();
                self.op(opcode, flags, a, b, c);
            }
        }
    }

    /// Mostly 0: flags are part of an expression.
    fn odd_flags(&mut self) -> u8 {
        if self.rng.percent(5) {
            self.rng.pick(&[1, 2, 128, 255])
        } else {
            0
        }
    }

    /// A LoadConst of some constant, now and then a missing one.
    pub fn load_const(&mut self) {
        let (a, count) = (self.slot(), self.parts.constants.len());
        let index =
            if count == 0 || self.rng.percent(8) { count + self.rng.below(3) } else { self.rng.below(count) };
        self.op(Opcode::LoadConst, 0, a, index as u16, 0);
    }

    /// A recent unary or binary instruction again, often into another slot: equal expressions.
    pub fn again(&mut self) {
        let from = self.place().saturating_sub(12);
        if from == self.place() {
            return self.pure(50);
        }
        let place = self.rng.within(from..=self.place() - 1);
        let mut instruction = self.parts.code[place];
        let op = instruction.op;
        let is_expression = is_any(&INTEGER_BINARY, op)
            || is_any(&FLOAT_BINARY, op)
            || is_any(&INTEGER_UNARY, op)
            || is_any(&FLOAT_UNARY, op);
        if !is_expression {
            return self.pure(50);
        }
        if self.rng.percent(70) {
            instruction.a = self.slot();
        }
        self.push(instruction, Metadata::new(Kind::None));
    }

    /// An impure instruction that fits every frame with a slot.
    pub fn single_slots(&mut self) {
        let opcode = self.rng.pick(&SINGLE_SLOTS);
        let (a, b, c) = (self.slot(), self.slot(), self.slot());
        self.op(opcode, 0, a, b, c);
    }

    /// A Return of up to three slots of the frame.
    pub fn give_back(&mut self) {
        let a = self.slot();
        let room = self.s() - usize::from(a).min(self.s());
        let count = if self.rng.percent(60) { 1.min(room) } else { self.rng.within(0..=room.min(3)) };
        self.op(Opcode::Return, 0, a, count as u16, 0);
    }

    /// Metadata of a kind with short layouts.
    pub fn short_metadata(&mut self, kind: Kind) -> Metadata {
        let mut metadata = Metadata::new(kind);
        match kind {
            Kind::SelectExecLayout => {
                metadata.first = self.rng.within(0..=self.parts.cases.len()) as u32;
                let after = self.parts.cases.len() - metadata.first as usize;
                metadata.second = self.rng.within(0..=after) as u32;
            }
            Kind::LoopEnd => metadata.end_pc = self.rng.below(self.n) as u32,
            Kind::SlotLayout => {
                metadata.array_len = self.short();
                metadata.first = u32::from(self.short());
            }
            _ => {
                if kind.lengths() > 0 {
                    metadata.first = u32::from(self.short());
                }
                if kind.lengths() > 1 {
                    metadata.second = u32::from(self.short());
                }
                if kind == Kind::MapGet {
                    metadata.has_ok = self.rng.below(2) as u8;
                }
            }
        }
        metadata
    }

    /// An instruction with any opcode but Invalid, its metadata matching, its ranges inside a frame of `ROOM`
    /// and more slots, its branch inside the function.
    pub fn any_opcode(&mut self, op: u8) {
        let opcode = Opcode::from_u8(op);
        let (mut a, mut b, mut c) = (self.roomy(), self.roomy(), self.roomy());
        let mut flags = if self.rng.percent(80) { 0 } else { self.rng.below(8) as u8 };
        let mut kind = matching(opcode);
        match opcode {
            Opcode::Jump | Opcode::JumpIf | Opcode::JumpIfNot => {
                let target = self.target();
                return self.branch(opcode, a, target);
            }
            Opcode::ForLoop => {
                let target = self.target();
                return self.for_loop(flags, a, b, target);
            }
            Opcode::Hint if self.rng.percent(60) => {
                flags = self.rng.pick(&[0, 0, 2, 255]);
            }
            Opcode::Hint => {
                let metadata = self.short_metadata(Kind::LoopEnd);
                let exit = self.rng.within(0..=self.n) as u32;
                return self.loop_hint(exit, metadata);
            }
            Opcode::LoadInt => {
                let value = self.rng.pick(&WORDS);
                return self.load_int(a, value as i32);
            }
            Opcode::LoadConst => return self.load_const(),
            Opcode::CopyN => c = self.short(),
            Opcode::GlobalGetN | Opcode::GlobalSetN => flags = self.short() as u8,
            Opcode::Return => b = self.short(),
            Opcode::Call | Opcode::GoStart | Opcode::DeferPush | Opcode::ErrDeferPush => {
                let starts = opcode != Opcode::Call;
                if starts && (self.parts.functions.is_empty() || self.rng.percent(50)) {
                    flags = 1;
                } else {
                    if self.parts.functions.is_empty() {
                        self.parts.functions.push(Function { param_slots: 1, ret_slots: 1 });
                    }
                    flags = 0;
                    a = self.rng.below(self.parts.functions.len()) as u16;
                    kind = Kind::None;
                }
            }
            Opcode::CallExtern => {
                if self.parts.externs.is_empty() {
                    self.parts.externs.push(1);
                }
                b = self.rng.below(self.parts.externs.len()) as u16;
            }
            Opcode::IfaceAssign => flags = self.rng.pick(&[0, 16, 17]),
            Opcode::SliceSlice | Opcode::IfaceAssert | Opcode::QueueRecv => flags = self.rng.below(8) as u8,
            _ => {}
        }
        let metadata = self.short_metadata(kind);
        self.push(Instruction { op, flags, a, b, c }, metadata);
    }

    /// Fills "other fields unused by a kind", which "are free and travel along", and fields that an
    /// instruction does not read, with any bytes.
    pub fn scatter_free_fields(&mut self) {
        for place in 0..self.parts.metadata.len() {
            let word = self.rng.word();
            let other = self.rng.word();
            let entry = &mut self.parts.metadata[place];
            let kind = Kind::from_u8(entry.kind).expect("drafts have good kinds");
            if kind != Kind::MapGet {
                entry.has_ok = (word & 1) as u8;
            }
            if kind != Kind::SlotLayout {
                entry.array_len = (word >> 16) as u16;
            }
            if kind.lengths() < 1 {
                entry.first = (word >> 32) as u32;
            }
            if kind.lengths() < 2 {
                entry.second = other as u32;
            }
            if kind != Kind::LoopEnd {
                entry.end_pc = (other >> 32) as u32;
            }
        }
        for place in 0..self.parts.code.len() {
            let word = self.rng.word();
            let (byte, x, y, z) = (word as u8, (word >> 8) as u16, (word >> 24) as u16, (word >> 40) as u16);
            let entry = &mut self.parts.code[place];
            match Opcode::from_u8(entry.op) {
                Opcode::Hint if entry.flags == 0 => (entry.a, entry.b, entry.c) = (x, y, z),
                Opcode::Hint => entry.a = x,
                Opcode::LoadInt | Opcode::CopyN | Opcode::JumpIf | Opcode::JumpIfNot => entry.flags = byte,
                Opcode::LoadConst | Opcode::Copy | Opcode::Return => (entry.flags, entry.c) = (byte, z),
                Opcode::Jump => (entry.flags, entry.a) = (byte, x),
                _ if is_any(&INTEGER_UNARY, entry.op) || is_any(&FLOAT_UNARY, entry.op) => entry.c = z,
                _ => {}
            }
        }
        for index in 0..self.parts.constants.len() {
            let (word, value) = (self.rng.word(), self.rng.word());
            let entry = &mut self.parts.constants[index];
            entry.unread.copy_from_slice(&word.to_le_bytes()[..7]);
            if [CONSTANT_NIL, CONSTANT_STRING].contains(&entry.kind) {
                entry.value = value;
            }
        }
        for index in 0..self.parts.cases.len() {
            let has_ok = self.rng.below(2) as u8;
            let entry = &mut self.parts.cases[index];
            if entry.kind == Case::SEND {
                entry.has_ok = has_ok;
            }
        }
    }

    /// The parts, with free fields scattered in a third of the units.
    pub fn finish(mut self) -> Parts {
        if self.rng.percent(33) {
            self.scatter_free_fields();
        }
        self.parts
    }
}

fn is_any(opcodes: &[Opcode], op: u8) -> bool {
    opcodes.iter().any(|&opcode| opcode as u8 == op)
}
