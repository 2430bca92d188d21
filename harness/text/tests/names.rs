//! The names are the Rust's.

use reference::Opcode;
use std::path::PathBuf;
use std::{env, fs};
use unit::Kind;

#[test]
fn opcodes() {
    for op in 0..=u8::MAX {
        let rust = Some(Opcode::from_u8(op)).filter(|opcode| *opcode != Opcode::Invalid);
        let ours = text::Opcode::from_u8(op);
        assert_eq!(ours.map(|opcode| opcode as u8), rust.map(|_| op));
        assert_eq!(ours.map(|opcode| opcode.name().into()), rust.map(|opcode| format!("{opcode:?}")));
        assert_eq!(ours, ours.and_then(|opcode| text::Opcode::from_name(opcode.name())));
    }
}

/// What stands between a head and the next `}` at a line's start, by the text of volang's file.
fn body(file: &str, head: &str) -> String {
    let beside = concat!(env!("CARGO_MANIFEST_DIR"), "/../../../shared/docs/src");
    let folder = env::var_os("VOLANG_SRC").map_or(PathBuf::from(beside), PathBuf::from);
    let text = fs::read_to_string(folder.join("lang/crates").join(file)).unwrap();
    let (_, body) = text.split_once(head).unwrap();
    let (body, _) = body.split_once("\n}").unwrap();
    body.into()
}

/// The variants of an enum, which the reference stands in for.
fn variants(file: &str, name: &str) -> Vec<String> {
    let body = body(&format!("vo-common-core/src/{file}"), &format!("pub enum {name} {{\n"));
    let lines = body.lines().filter_map(|line| line.strip_prefix("    "));
    let heads = lines.filter(|line| line.starts_with(|c: char| c.is_ascii_uppercase()));
    heads.filter_map(|line| Some(line.split(|c: char| !c.is_alphanumeric()).next()?.into())).collect()
}

#[test]
fn kinds_and_types() {
    let kinds = Kind::ALL.map(|kind| format!("{kind:?}"));
    assert_eq!(variants("bytecode.rs", "InstructionMetadata"), kinds);
    assert_eq!(variants("types.rs", "SlotType"), text::TYPES);
}

#[test]
fn unary_and_binary() {
    let listed = |name: &str| -> Vec<String> {
        let body = body("vo-codegen/src/optimize.rs", &format!("fn {name}(opcode: Opcode) -> bool {{\n"));
        let names = body.split("Opcode::").skip(1);
        names.filter_map(|text| Some(text.split_whitespace().next()?.into())).collect()
    };
    assert_eq!(listed("unary"), text::UNARY.map(|opcode| opcode.name()));
    assert_eq!(listed("binary"), text::BINARY.map(|opcode| opcode.name()));
}
