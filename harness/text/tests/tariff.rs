//! Tariffs as text.

use text::{Opcode, Tariff};

fn read(text: &str) -> Tariff {
    Tariff::read(text).unwrap_or_else(|error| panic!("{error}"))
}

/// A tariff with these prices, and 5 for all others.
fn with(prices: &[(Opcode, u16)]) -> Tariff {
    let lines = prices.iter().map(|(opcode, price)| format!("{} {price}\n", opcode.name()));
    read(&(lines.collect::<String>() + "* 5"))
}

#[test]
fn lines_in_any_order() {
    let tariff = read("; the centre's\n\nAddI 12 ; each\n* 3\n  LoadInt, 0\nop200 0xffff\r\nPanic 65535");
    for op in 0..=u8::MAX {
        let price = match (op, Opcode::from_u8(op)) {
            (_, Some(Opcode::AddI)) => 12,
            (_, Some(Opcode::LoadInt)) => 0,
            (_, Some(Opcode::Panic)) | (200, _) => u16::MAX,
            _ => 3,
        };
        assert_eq!(tariff.price(op), price, "{op}");
    }
}

/// Each opcode by its name: no other line is needed, and what is no opcode costs nothing.
#[test]
fn others_may_be_left_out() {
    let lines: String = Opcode::all().map(|opcode| format!("{} 7\n", opcode.name())).collect();
    let tariff = read(&lines);
    assert!((0..=u8::MAX).all(|op| tariff.price(op) == if Opcode::from_u8(op).is_some() { 7 } else { 0 }));
    let (_, without_hint) = lines.split_once('\n').unwrap();
    let error = Tariff::read(without_hint).unwrap_err();
    assert_eq!(error.to_string(), "136:1: there is no price for Hint, nor a line * for all others");
}

#[test]
fn errors() {
    for (text, error) in [
        (
            "",
            "1:1: there is no price for Hint, LoadInt, LoadConst and 133 others, nor a line * for all others",
        ),
        (
            "Copy 1\n",
            "2:1: there is no price for Hint, LoadInt, LoadConst and 132 others, nor a line * for all others",
        ),
        ("* 1\n\n addI 3", "3:2: addI is no opcode"),
        ("op19 3", "1:1: op19 is no opcode"),
        ("* 3\nAddI", "2:1: AddI has no price"),
        ("* ; 3", "1:1: * has no price"),
        ("AddI many", "1:6: many is no number"),
        ("AddI 1.5", "1:6: 1.5 is no number"),
        ("AddI 65536", "1:6: 65536 is no price from 0 to 65535"),
        ("* -1", "1:3: -1 is no price from 0 to 65535"),
        ("AddI 1,000", "1:8: 000 is too much: a line is a name and a price"),
        ("* 1\nAddI 2\nSubI 3\nAddI 2", "4:1: AddI has a price already, in line 2"),
        ("* 1\n* 1", "2:1: * has a price already, in line 1"),
    ] {
        assert_eq!(Tariff::read(text).unwrap_err().to_string(), error, "{text}");
    }
}

#[test]
fn breaches() {
    use Opcode::*;
    let told = |prices: &[(Opcode, u16)]| -> Vec<String> {
        with(prices).breaches().iter().map(|breach| breach.to_string()).collect()
    };
    // Equal prices keep the premises, and no other opcode matters.
    assert_eq!(told(&[]), [""; 0]);
    assert_eq!(told(&[(LoadConst, 9), (CopyN, 0), (Hint, 9), (Return, 0), (DivI, 0), (Shl, 0)]), [""; 0]);
    assert_eq!(
        told(&[(NegI, 4)]),
        ["LoadInt (5) costs more than NegI (4)", "Copy (5) costs more than NegI (4)"]
    );
    assert_eq!(told(&[(GeF32, 4), (LoadInt, 4)]), ["Copy (5) costs more than GeF32 (4)"]);
    assert_eq!(
        told(&[(LoadInt, 6)]),
        ["LoadInt (6) costs more than NegI (5), Not (5), BoolNot (5) and 44 others"]
    );
    assert_eq!(told(&[(JumpIf, 4)]), ["Jump (5) costs more than JumpIf (4)"]);
    assert_eq!(told(&[(Jump, 6)]), ["Jump (6) costs more than JumpIf (5), JumpIfNot (5)"]);
}
