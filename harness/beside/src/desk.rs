//! A run at the desk, written from document 01 and document 02's L6: an interpreter beside the library's.

use crate::operand;
use lampruda::sys::{self, Stop};
use text::Opcode::{self, *};
use unit::{Answer, Constant, Instruction, Metadata, Parts, Unit, CONSTANT_NIL, CONSTANT_STRING};

/// A function that no frame's words can have refused.
pub struct Desk {
    code: Vec<Instruction>,
    constants: Vec<Constant>,
    /// The local slots.
    pub s: usize,
}

/// How a run stops, in numbers.
pub fn stop(kind: u32, first: u32, second: u32) -> Stop {
    Stop { kind, first, second }
}

pub fn refused(number: u32, place: usize) -> Stop {
    stop(sys::REFUSED, number, place as u32)
}

impl Desk {
    /// The refusals that do not hang on the frame, in their order: 1, 11, 13, 3, 4, 5 to 7, 8.
    pub fn new(bytes: &[u8]) -> Result<Self, Stop> {
        let unit = Unit::check(bytes).ok_or(refused(1, 0))?;
        if let Some(Answer::Refused { number, place }) = unit.refusal() {
            return Err(refused(number, place as usize));
        }
        let parts = Parts::decode(&unit);
        if parts.metadata.len() != parts.code.len() {
            return Err(refused(3, 0));
        }
        if parts.types.len() != parts.local_slots as usize {
            return Err(refused(4, 0));
        }
        if let Some((number, place)) = operand_fault(&parts) {
            return Err(refused(number, place));
        }
        let n = parts.code.len() as i64;
        let leaves = |(place, code): (usize, &Instruction)| {
            target(place, code).is_some_and(|target| !(0..=n).contains(&target))
        };
        if let Some(place) = parts.code.iter().enumerate().position(leaves) {
            return Err(refused(8, place));
        }
        Ok(Self { code: parts.code, constants: parts.constants, s: parts.local_slots as usize })
    }

    pub fn n(&self) -> usize {
        self.code.len()
    }

    /// The run, and how many steps it takes. At each point, in this order: the end of the code, another instruction,
    /// the limit, a step.
    pub fn run(&self, frame: &mut [u64], limit: u32) -> (Stop, u32) {
        self.run_noting(frame, limit, |_| ())
    }

    /// The same, with a note of the opcode byte of each step.
    pub fn run_noting(&self, frame: &mut [u64], limit: u32, mut note: impl FnMut(u8)) -> (Stop, u32) {
        if frame.len() != self.s {
            return (refused(12, 0), 0);
        }
        let (mut place, mut steps) = (0, 0);
        loop {
            if place == self.n() {
                return (stop(sys::ENDED, 0, 0), steps);
            }
            if !self.executes(place) {
                return (stop(sys::OTHER, place as u32, 0), steps);
            }
            if steps == limit {
                return (stop(sys::LIMIT, 0, 0), steps);
            }
            steps += 1;
            note(self.code[place].op);
            match self.execute(frame, place) {
                Due::Goes(next) => place = next,
                Due::Stops(stop) => return (stop, steps),
            }
        }
    }

    /// One step, from any place.
    pub fn step(&self, frame: &mut [u64], place: u32) -> Stop {
        let at = place as usize;
        if frame.len() != self.s {
            refused(12, 0)
        } else if at >= self.n() {
            stop(sys::ENDED, 0, 0)
        } else if !self.executes(at) {
            stop(sys::OTHER, place, 0)
        } else {
            match self.execute(frame, at) {
                Due::Goes(next) => stop(sys::GOES, next as u32, 0),
                Due::Stops(stop) => stop,
            }
        }
    }

    /// "It executes LoadInt, LoadConst of kinds 0 to 3, Copy, CopyN, the 21 opcodes that fold, Hint, the three jumps,
    /// Return and Panic."
    fn executes(&self, place: usize) -> bool {
        let code = &self.code[place];
        match Opcode::from_u8(code.op).expect("Invalid is refused") {
            Hint | LoadInt | Copy | CopyN | NegI | Not | BoolNot | Trunc | Jump | JumpIf | JumpIfNot
            | Return | Panic => true,
            LoadConst => self.constant(code.b).is_some(),
            opcode => operand::COVERED.contains(&opcode),
        }
    }

    /// "LoadConst its constant's word (Nil 0)"; none for a String or a missing constant.
    fn constant(&self, index: u16) -> Option<u64> {
        let constant = self.constants.get(usize::from(index))?;
        match constant.kind {
            CONSTANT_NIL => Some(0),
            CONSTANT_STRING => None,
            _ => Some(constant.value),
        }
    }

    /// Executes an instruction that the desk executes.
    fn execute(&self, frame: &mut [u64], place: usize) -> Due {
        let Instruction { op, flags, a, b, c } = self.code[place];
        let [slot, left, right] = [a, b, c].map(usize::from);
        let next = place + 1;
        let jump = || {
            let target = target(place, &self.code[place]).expect("a jump has a target");
            target as usize
        };
        match Opcode::from_u8(op).expect("Invalid is refused") {
            Hint => {}
            LoadInt => frame[slot] = self.code[place].imm32() as i32 as u64,
            LoadConst => frame[slot] = self.constant(b).expect("such a constant is executed"),
            Copy => frame[slot] = frame[left],
            CopyN => {
                let read = (left..left + right).map(|read| frame[read]).collect::<Vec<u64>>();
                read.into_iter().enumerate().for_each(|(index, word)| frame[slot + index] = word);
            }
            NegI => frame[slot] = frame[left].wrapping_neg(),
            Not => frame[slot] = !frame[left],
            BoolNot => frame[slot] = u64::from(frame[left] == 0),
            Trunc => frame[slot] = trunc(flags, frame[left]),
            Jump => return Due::Goes(jump()),
            JumpIf => return Due::Goes(if frame[slot] != 0 { jump() } else { next }),
            JumpIfNot => return Due::Goes(if frame[slot] == 0 { jump() } else { next }),
            Return => return Due::Stops(stop(sys::RETURNED, a.into(), b.into())),
            Panic => return Due::Stops(stop(sys::PANICKED, a.into(), 2)),
            opcode => frame[slot] = operand::WORDS.fold(opcode, frame[left], frame[right]),
        }
        Due::Goes(next)
    }
}

/// What comes of a step.
enum Due {
    Goes(usize),
    Stops(Stop),
}

/// Where a branch leads: from its own place by imm32, ForLoop from the next by c, both signed.
fn target(place: usize, code: &Instruction) -> Option<i64> {
    match Opcode::from_u8(code.op)? {
        Jump | JumpIf | JumpIfNot => Some(place as i64 + i64::from(code.imm32() as i32)),
        ForLoop => Some(place as i64 + 1 + i64::from(code.c as i16)),
        _ => None,
    }
}

/// "Trunc keeps the low 1, 2 or 4 bytes by flags modulo 128 (otherwise the whole word), sign-extended where flags
/// reach 128"
fn trunc(flags: u8, word: u64) -> u64 {
    let dropped = match flags % 128 {
        1 => 56,
        2 => 48,
        4 => 32,
        _ => 0,
    };
    if flags >= 128 {
        ((word << dropped) as i64 >> dropped) as u64
    } else {
        word << dropped >> dropped
    }
}

/// A byte that is no opcode.
const INVALID: Instruction = Instruction { op: 255, flags: 0, a: 0, b: 0, c: 0 };

/// As many instructions as the Rust works on, but for one.
const ASKED: usize = 65_535;

/// The lowest place that is refused 5, 6 or 7, and with which number. The Rust is asked, though it leaves short, long
/// and defer functions alone: it gets the code in parts of a length that it works on, without defer, each closed by an
/// opcode that there is none of. So it always refuses, and names that place where it finds nothing before.
fn operand_fault(parts: &Parts) -> Option<(u32, usize)> {
    let asked = parts.code.chunks(ASKED).zip(parts.metadata.chunks(ASKED)).enumerate();
    asked.into_iter().find_map(|(index, (code, metadata))| {
        let closed = Parts {
            code: [code, &[INVALID]].concat(),
            metadata: [metadata, &[Metadata::default()]].concat(),
            defer: 0,
            lines: Vec::new(),
            ..parts.clone()
        };
        let Answer::Refused { number, place } = reference::pass(&closed.encode()) else {
            unreachable!("Invalid is refused")
        };
        ((place as usize) < code.len()).then_some((number, index * ASKED + place as usize))
    })
}
