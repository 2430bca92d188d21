//! Every unit has a text, and the text gives the unit back.

use generate::{every_opcode, named, PROFILES};
use text::{assemble, disassemble};
use unit::{Parts, Unit};

const SEED: u64 = 3;

#[track_caller]
fn round_trip(unit: &Unit) {
    let text = disassemble(unit);
    match assemble(&text) {
        Ok(again) => assert!(again == unit.bytes(), "{text}"),
        Err(error) => panic!("{error}\n{text}"),
    }
}

#[test]
fn generated_units() {
    for profile in PROFILES {
        let count = if profile.weight < 100 { 2 } else { 400 };
        for index in 0..count {
            Unit::check(&profile.unit(SEED, index)).iter().for_each(round_trip);
        }
    }
}

#[test]
fn fixed_units() {
    let named = named::all().into_iter().map(|named| named.unit);
    named.chain(every_opcode(SEED)).for_each(|unit| Unit::check(&unit).iter().for_each(round_trip));
}

/// Document 01's first example as a person writes it.
#[test]
fn by_hand() {
    let text = ".locals 3 ; two known integers\n LoadInt 0, 2\n LoadInt 1, 3\n AddI 2, 0, 1\n Return 2, 1\n";
    let listing = named::all().into_iter().find(|named| named.name == "listing").unwrap();
    assert_eq!(assemble(text).unwrap(), listing.unit);
}

#[test]
fn labels() {
    let text = ".locals 2\nstart: Loop end=back exit=out\nback: ForLoop 0 1 start\nout:";
    let unit = assemble(text).unwrap();
    let parts = Parts::decode(&Unit::check(&unit).unwrap());
    assert_eq!((parts.code[0].imm32(), parts.metadata[0].end_pc), (2, 1));
    assert_eq!(parts.code[1].c as i16, -2);
}

#[test]
fn what_is_wrong_has_its_place() {
    for (text, message) in [
        ("\nAddQ 1 2 3", "2:1: AddQ is no opcode"),
        ("  Jump out", "1:8: out is neither a label nor a distance with its sign"),
        ("Loop exit=out", "1:11: out is neither a label nor a place"),
        ("Loop end=0", "1:1: a loop has an exit="),
        ("a: Hint\nb: a: Hint", "2:4: a is a label already"),
        ("Copy 0, 65536", "1:9: 65536 is out of range"),
        ("Copy 0 x", "1:8: x is no number"),
        ("Copy 0 1 color=3", "1:10: Copy has no color="),
        ("Copy 0 1 flags=1 flags=2", "1:18: flags is given twice"),
        ("Copy 0 1 flags=256", "1:16: 256 is out of range"),
        ("AddI 0 1 2 3", "1:12: AddI has up to 3 operands"),
        ("JumpIf 0", "1:1: JumpIf has 2 operands, not 1"),
        (".types Value Valu*2", "1:14: Valu is none of Value, GcBase, GcRef, Interface0, Interface1, Float"),
        (".const bool 2", "1:13: 2 is none of false, true"),
        (".const float ±1", "1:14: ±1 is no float"),
        (".local 3", "1:1: .local is no directive"),
        (".case send 0 0 0 ok=2", "1:21: 2 is none of 0, 1"),
        ("Copy 0 1 meta=Elem", "1:15: Elem is no kind of metadata"),
        ("ForLoop 0 0 -40000", "1:13: -40000 is too far"),
        (
            "Hint\n SelectExec 0 0 0 meta=SelectExecLayout second=1",
            "2:2: this select needs 1 cases, there are 0",
        ),
    ] {
        assert_eq!(assemble(text).map_err(|error| error.to_string()), Err(message.into()));
    }
}
