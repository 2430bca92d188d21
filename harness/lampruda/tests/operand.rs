//! Operands for wanted outcomes through the wrapper; `beside operand` compares them at scale.

use lampruda::{operand, Operand};
use text::Opcode::{self, *};

const SIGN: u64 = 1 << 63;
const COMPARISONS: [Opcode; 10] = [EqI, NeI, LtI, LtU, LeI, LeU, GtI, GtU, GeI, GeU];

/// "return the smallest right word, unsigned, that gives it, or none if there is none"
#[test]
fn smallest() {
    let minus = |x: u64| x.wrapping_neg();
    for (opcode, left, wanted, right) in [
        (LtI, minus(5), 0, Operand::Word(SIGN)),
        (LtI, minus(5), 1, Operand::Word(0)),
        (LtI, SIGN - 1, 1, Operand::None),
        (LeI, SIGN, 0, Operand::None),
        (LeI, 0, 0, Operand::Word(SIGN)),
        (LtU, u64::MAX, 1, Operand::None),
        (GtU, 0, 1, Operand::None),
        (EqI, 0, 0, Operand::Word(1)),
        (AddI, 1, 0, Operand::Word(u64::MAX)),
        (Or, 1, 2, Operand::None),
        (And, 2, 1, Operand::None),
        (AndNot, 7, 5, Operand::Word(2)),
        (Xor, 7, 5, Operand::Word(2)),
    ] {
        assert_eq!(operand(opcode as u8, left, wanted), right, "{opcode:?} {left:#x} {wanted:#x}");
    }
}

/// "For MulI the answer hinges on trailing zeros of both words; a left of 0 has 0 for a wanted 0 and none
/// otherwise."
#[test]
fn factors() {
    for (left, wanted, right) in [
        (12, 36, Operand::Word(3)),
        (12, 34, Operand::None),
        (SIGN, SIGN, Operand::Word(1)),
        (SIGN, SIGN >> 1, Operand::None),
        (6, 0, Operand::Word(0)),
        (0, 0, Operand::Word(0)),
        (0, SIGN, Operand::None),
        (u64::MAX, 1, Operand::Word(u64::MAX)),
        // 3 and 3 + 2^62, 3 + 2^63, 3 + 3 * 2^62
        (4, 12, Operand::Word(3)),
    ] {
        assert_eq!(operand(MulI as u8, left, wanted), right, "{left:#x} {wanted:#x}");
    }
}

#[test]
fn comparisons_give_1_or_0() {
    for opcode in COMPARISONS {
        assert_eq!(operand(opcode as u8, 7, 2), Operand::None);
        assert_eq!(operand(opcode as u8, 7, u64::MAX), Operand::None);
    }
}

/// "Other opcodes yield 'not covered'": shifts and divisions too.
#[test]
fn seventeen_are_covered() {
    let covered = (0..=255).filter(|opcode| operand(*opcode, 6, 3) != Operand::NotCovered);
    assert_eq!(covered.count(), 17);
    for opcode in [DivI, DivU, ModI, ModU, Shl, ShrS, ShrU, NegI, Not, AddF] {
        assert_eq!(operand(opcode as u8, 6, 3), Operand::NotCovered);
    }
}
