//! What the tests of runs at the desk share.

use lampruda::sys::{self, Stop};
use lampruda::{lay_out, Answer, Workspace};
use text::Opcode::{self, *};
use unit::{Parts, Rewritten, Unit};

pub const ENDED: Stop = stop(sys::ENDED, 0, 0);
pub const LIMIT: Stop = stop(sys::LIMIT, 0, 0);

/// "LoadInt, LoadConst of kinds 0 to 3, Copy, CopyN, the 21 opcodes that fold, Hint, the three jumps, Return and Panic"
pub const EXECUTED: [Opcode; 31] = [
    Hint, LoadInt, LoadConst, Copy, CopyN, AddI, SubI, MulI, NegI, EqI, NeI, LtI, LtU, LeI, LeU, GtI, GtU,
    GeI, GeU, And, Or, Xor, AndNot, Not, BoolNot, Jump, JumpIf, JumpIfNot, Return, Trunc, Panic,
];

pub const fn stop(kind: u32, first: u32, second: u32) -> Stop {
    Stop { kind, first, second }
}

pub fn returned(first: u32, second: u32) -> Stop {
    stop(sys::RETURNED, first, second)
}

pub fn other(place: u32) -> Stop {
    stop(sys::OTHER, place, 0)
}

pub fn refused(number: u32, place: u32) -> Stop {
    stop(sys::REFUSED, number, place)
}

pub fn unit(text: &str) -> Vec<u8> {
    text::assemble(text).unwrap_or_else(|error| panic!("{error}"))
}

pub fn parts(text: &str) -> Parts {
    Parts::decode(&Unit::check(&unit(text)).unwrap())
}

/// What one pass makes of a unit, laid out as a unit again.
pub fn rewritten(unit: &[u8]) -> Vec<u8> {
    let mut workspace = Workspace::default();
    let Answer::Rewritten(result) = workspace.pass(unit) else { panic!("not rewritten") };
    let mut out = vec![0; unit.len()];
    let made = lay_out(unit, result, &mut out);
    assert_eq!((made.kind, made.place), (sys::LAID_UNIT, 0));
    out.truncate(made.length as usize);
    let result = Rewritten::decode(result).unwrap();
    assert_eq!(out, result.as_unit(&Unit::check(unit).unwrap()));
    out
}
