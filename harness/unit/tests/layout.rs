//! The unit's and the result's layout, byte by byte, and the sizes of the lent buffers.

use unit::{buffers, Lengths};
use unit::{Answer, Case, Cleaned, Constant, Function, Instruction, Kind, Line, Metadata, Parts};
use unit::{Refusal, Retained, Rewritten};
use unit::{Section, Unit, CONSTANT_BOOL, CONSTANT_NIL, CONSTANT_STRING, HEADER_LEN};

/// A unit with entries in every section, all fields different.
fn whole() -> Parts {
    Parts {
        code: vec![Instruction { op: 1, flags: 2, a: 0x0304, b: 0x0506, c: 0x0708 }; 2],
        metadata: vec![Metadata { kind: 12, has_ok: 1, array_len: 0x0a0b, first: 1, second: 1, end_pc: 9 }],
        local_slots: 65_535,
        types: vec![0, 5, 1],
        defer: 1,
        constants: vec![Constant { kind: 1, unread: [1, 2, 3, 4, 5, 6, 7], value: 1 }],
        functions: vec![Function { param_slots: 0x0102, ret_slots: 0x0304 }],
        externs: vec![0x0506],
        cases: vec![Case::default(), Case { kind: 1, has_ok: 1, queue: 2, slot: 3, elem_slots: 4 }],
        lines: vec![Line { place: 1, line: 0x0102_0304 }],
    }
}

fn is_unit(parts: &Parts) -> bool {
    Unit::check(&parts.encode()).is_some()
}

#[test]
fn bytes_of_a_unit() {
    let bytes = whole().encode();
    let words: Vec<u32> =
        bytes[..HEADER_LEN].chunks(4).map(|word| u32::from_le_bytes(word.try_into().unwrap())).collect();
    assert_eq!(words, [2, 1, 65_535, 3, 1, 1, 1, 1, 2, 72, 88, 104, 107, 123, 127, 129, 1, 145]);
    assert_eq!(bytes[72..80], [1, 2, 4, 3, 6, 5, 8, 7]);
    assert_eq!(bytes[88..104], [12, 1, 0x0b, 0x0a, 1, 0, 0, 0, 1, 0, 0, 0, 9, 0, 0, 0]);
    assert_eq!(bytes[104..107], [0, 5, 1]);
    assert_eq!(bytes[107..123], [1, 1, 2, 3, 4, 5, 6, 7, 1, 0, 0, 0, 0, 0, 0, 0]);
    assert_eq!(bytes[123..129], [2, 1, 4, 3, 6, 5]);
    assert_eq!(bytes[129..145], [0, 0, 0, 0, 0, 0, 0, 0, 1, 1, 2, 0, 3, 0, 4, 0]);
    assert_eq!(bytes[145..], [1, 0, 0, 0, 4, 3, 2, 1]);
}

#[test]
fn decoding_undoes_encoding() {
    let bytes = whole().encode();
    let unit = Unit::check(&bytes).unwrap();
    assert_eq!(Parts::decode(&unit), whole());
    assert_eq!(unit.section(Section::Externs), [6, 5]);
    assert_eq!(unit.bytes(), bytes);
}

#[test]
fn a_unit_ends_where_its_sections_do() {
    let bytes = whole().encode();
    assert!(Unit::check(&[]).is_none());
    for len in 0..bytes.len() {
        assert!(Unit::check(&bytes[..len]).is_none(), "{len} bytes");
    }
    assert!(Unit::check(&[bytes, vec![0]].concat()).is_none());
    assert!(is_unit(&Parts::default()));
}

/// Every header word but s and defer, which are free within their limits, is bound by the others.
#[test]
fn header_words() {
    let bytes = whole().encode();
    for word in 0..18 {
        for changed in [1, 8, 1 << 28, 1 << 29, 1 << 30, 1 << 31, u32::MAX] {
            let mut damaged = bytes.clone();
            let old = u32::from_le_bytes(bytes[4 * word..4 * word + 4].try_into().unwrap());
            let new = old.wrapping_add(changed);
            damaged[4 * word..4 * word + 4].copy_from_slice(&new.to_le_bytes());
            let free = (word == 2 && new <= 65_535) || (word == 4 && new <= 1);
            assert_eq!(Unit::check(&damaged).is_some(), free, "word {word}: {new}");
        }
    }
}

#[test]
fn entries() {
    let with = |change: fn(&mut Parts)| {
        let mut parts = whole();
        change(&mut parts);
        is_unit(&parts)
    };
    assert!(!with(|parts| parts.local_slots = 65_536));
    assert!(!with(|parts| parts.defer = 2));
    assert!(with(|parts| parts.metadata[0].kind = 15));
    assert!(!with(|parts| parts.metadata[0].kind = 16));
    for kind in Kind::ALL {
        let has_ok = |has_ok| {
            let mut parts = whole();
            parts.metadata[0] = Metadata { has_ok, ..Metadata::new(kind) };
            is_unit(&parts)
        };
        assert!(has_ok(1) && !has_ok(2), "{kind:?}");
    }
    assert!(!with(|parts| parts.types[2] = 6));
    assert!(!with(|parts| parts.constants[0].kind = 5));
    assert!(!with(|parts| parts.constants[0].value = 2));
    assert!(!with(|parts| parts.constants[0].value = 1 << 63));
    assert!(with(|parts| parts.constants[0] = Constant::new(CONSTANT_BOOL, 0)));
    assert!(with(|parts| parts.constants[0] = Constant::new(CONSTANT_NIL, 2)));
    assert!(with(|parts| parts.constants[0] = Constant::new(CONSTANT_STRING, u64::MAX)));
    assert!(!with(|parts| parts.cases[0].kind = 2));
    assert!(!with(|parts| parts.cases[0].has_ok = 2));
    assert!(!with(|parts| parts.cases[1].has_ok = 2));
}

#[test]
fn first_case_plus_number() {
    let fits = |kind: Kind, first: u32, second: u32| {
        let mut parts = whole();
        parts.metadata[0] = Metadata { first, second, ..Metadata::new(kind) };
        is_unit(&parts)
    };
    for (first, second) in [(0, 0), (0, 2), (1, 1), (2, 0)] {
        assert!(fits(Kind::SelectExecLayout, first, second));
    }
    for (first, second) in
        [(0, 3), (1, 2), (2, 1), (3, 0), (u32::MAX, 1), (1, u32::MAX), (u32::MAX, u32::MAX)]
    {
        assert!(!fits(Kind::SelectExecLayout, first, second));
        assert!(fits(Kind::CallLayout, first, second));
    }
}

/// What is no unit is told why, and where.
#[test]
fn faults() {
    let fault = |change: fn(&mut Parts)| {
        let mut parts = whole();
        change(&mut parts);
        Unit::parse(&parts.encode()).err().unwrap_or_default()
    };
    assert_eq!(fault(|_| {}), "");
    assert_eq!(fault(|parts| parts.local_slots = 65_536), "65536 local slots are above 65535");
    assert_eq!(fault(|parts| parts.defer = 2), "defer is 2, neither 0 nor 1");
    assert_eq!(fault(|parts| parts.metadata[0].kind = 16), "metadata 0: kind 16 is above 15");
    assert_eq!(fault(|parts| parts.metadata[0].has_ok = 2), "metadata 0: has_ok 2 is above 1");
    assert_eq!(fault(|parts| parts.metadata[0].first = 2), "metadata 0: needs 3 select cases, there are 2");
    assert_eq!(fault(|parts| parts.types[2] = 6), "slot 2: type 6 is above 5");
    assert_eq!(fault(|parts| parts.constants[0].kind = 5), "constant 0: kind 5 is above 4");
    assert_eq!(fault(|parts| parts.constants[0].value = 2), "constant 0: the bool 2 is above 1");
    assert_eq!(fault(|parts| parts.cases[1].kind = 2), "case 1: kind 2 is above 1");
    assert_eq!(fault(|parts| parts.cases[1].has_ok = 2), "case 1: has_ok 2 is above 1");
    let cut = |bytes: &[u8]| Unit::parse(bytes).err().unwrap_or_default();
    let bytes = whole().encode();
    assert_eq!(cut(&[]), "a header has 72 bytes, here are 0");
    assert_eq!(cut(&bytes[..100]), "the sections end at byte 153, here are 100 bytes");
    let mut moved = bytes.clone();
    moved[40] += 1;
    assert_eq!(cut(&moved), "Metadata starts at byte 89 by the header, not at 88");
}

#[test]
fn result() {
    let retained = |old_place| Retained {
        instruction: Instruction { op: 1, flags: 0, a: 2, b: 3, c: 4 },
        metadata: Metadata::loop_end(7),
        old_place,
    };
    let lines = vec![Line { place: 1, line: 300 }];
    let result = Rewritten { retained: vec![retained(5), retained(6)], lines: lines.clone() };
    let bytes = result.encode();
    assert_eq!(bytes.len() as u64, buffers::output(2, 1));
    assert_eq!(Rewritten::len_at(&[bytes.clone(), vec![9; 20]].concat()), bytes.len());
    let words: Vec<u32> =
        bytes[..24].chunks(4).map(|word| u32::from_le_bytes(word.try_into().unwrap())).collect();
    assert_eq!(words, [2, 24, 40, 72, 1, 80]);
    assert_eq!(bytes[72..], [5, 0, 0, 0, 6, 0, 0, 0, 1, 0, 0, 0, 44, 1, 0, 0]);
    assert_eq!(Rewritten::decode(&bytes), Some(result));
    assert_eq!(Rewritten::decode(&bytes[1..]), None);
    let given = whole().encode();
    let again = Rewritten::decode(&bytes).unwrap().as_unit(&Unit::check(&given).unwrap());
    let (code, metadata) = (vec![retained(5).instruction; 2], vec![Metadata::loop_end(7); 2]);
    assert_eq!(Parts::decode(&Unit::check(&again).unwrap()), Parts { code, metadata, lines, ..whole() });
    let empty = Rewritten::default().encode();
    let words = [0, 24, 24, 24, 0, 24];
    assert_eq!(empty, words.map(u32::to_le_bytes).concat());
}

#[test]
fn refusal_numbers() {
    assert_eq!(Refusal::ALL.map(|refusal| refusal as u32), [1, 2, 3, 4, 5, 6, 7, 8, 9, 10, 11, 12, 13]);
    assert_eq!(Refusal::ALL.map(|refusal| Refusal::from_number(refusal as u32)), Refusal::ALL.map(Some));
    assert_eq!(Refusal::from_number(0), None);
}

#[test]
fn refusal_numbers_of_a_charged_run() {
    assert_eq!(Refusal::OF_CHARGE.map(|refusal| refusal as u32), [15]);
    assert_eq!(Refusal::from_number(15), Some(Refusal::Tariff));
    assert_eq!(Refusal::from_number(14), None);
}

#[test]
fn texts() {
    let refused = Answer::Refused { number: 8, place: 3 };
    let rewritten = Answer::rewritten(&Rewritten::default());
    let hex = "000000001800000018000000180000000000000018000000";
    assert_eq!(Answer::Unchanged.to_string(), "unchanged");
    assert_eq!(refused.to_string(), "refused 8 3");
    assert_eq!(rewritten.to_string(), format!("rewritten 0 {hex}"));
    let cleaned = |answer, pass| Cleaned { answer, pass }.to_string();
    assert_eq!(cleaned(Answer::Unchanged, 1), "unchanged 1");
    assert_eq!(cleaned(refused, 2), "refused 8 3 2");
    assert_eq!(cleaned(rewritten, 3), format!("rewritten 0 3 {hex}"));
}

#[test]
fn sizes_of_buffers() {
    assert_eq!(buffers::output(3, 0), 108);
    assert_eq!(buffers::output(3, 2), 124);
    assert_eq!(buffers::work32(3), 64);
    assert_eq!(Lengths::stated(3, 1, 2).lengths(), [124, 64, 86, 124, 124]);
    assert_eq!(buffers::work64(3, 0), 72);
    // w = 1: 24 × 3 + 4 × 64 + 1 + 3 × 1 × 3
    assert_eq!(buffers::work64(3, 64), 338);
    assert_eq!(buffers::work64(3, 65), 72 + 260 + 2 + 18);
    // w = 1,024: no more than 2,048 blocks
    assert_eq!(buffers::work64(65_536, 65_535), 1_572_864 + 262_140 + 1_024 + 3 * 1_024 * 2_048);
    // w = 1,000: 2,097,152 / 1,000 rounded down
    assert_eq!(buffers::work64(65_536, 64_000), 1_572_864 + 256_000 + 1_000 + 3 * 1_000 * 2_097);
}

/// "(11, place 0: places not strictly rising or not below n)"
#[test]
fn places_of_lines() {
    let rise = |n: usize, places: &[u32]| {
        let lines = places.iter().map(|&place| Line { place, line: 0 }).collect();
        let code = vec![Instruction::default(); n];
        let bytes = Parts { code, lines, ..Parts::default() }.encode();
        Unit::check(&bytes).unwrap().lines_rise()
    };
    assert!(rise(0, &[]) && rise(3, &[]) && rise(3, &[0, 1, 2]) && rise(3, &[0, 2]) && rise(3, &[2]));
    assert!(!rise(0, &[0]) && !rise(3, &[3]) && !rise(3, &[1, 1]) && !rise(3, &[2, 1]));
    assert!(!rise(3, &[0, u32::MAX]) && !rise(3, &[1, 2, 1]));
}
