//! From units to text.

use crate::names::{self, distance, is_loop_hint, target, Form, CASES, CONSTANTS, TYPES};
use crate::opcode::Opcode;
use std::collections::{BTreeMap, BTreeSet};
use std::fmt::Write;
use unit::{Case, Constant, Instruction, Kind, Line, Metadata, Parts, Unit};
use unit::{CONSTANT_BOOL, CONSTANT_FLOAT, CONSTANT_INT, TYPE_VALUE};

/// A unit's text.
pub fn disassemble(unit: &Unit) -> String {
    let parts = Parts::decode(unit);
    let mut out = String::new();
    directives(&parts, &mut out);
    let lines = Lines::new(&parts);
    for place in 0..parts.code.len() {
        lines.label(place as i64, &mut out);
        writeln!(out, "        {}{}", lines.instruction(place), lines.marker(place)).unwrap();
    }
    lines.label(parts.code.len() as i64, &mut out);
    if parts.metadata.len() < parts.code.len() {
        writeln!(out, ".metadata {}", parts.metadata.len()).unwrap();
    }
    for entry in parts.metadata.iter().skip(parts.code.len()) {
        let kind = kind(*entry);
        writeln!(out, ".extra {kind:?}{}{}", attributes(*entry), attribute("end", entry.end_pc)).unwrap();
    }
    // Refusal 11: as they stand.
    if !unit.lines_rise() {
        for Line { place, line } in &parts.lines {
            writeln!(out, ".line {place} {line}").unwrap();
        }
    }
    out
}

fn directives(parts: &Parts, out: &mut String) {
    writeln!(out, ".locals {}", parts.local_slots).unwrap();
    if parts.types != vec![TYPE_VALUE; parts.local_slots as usize] {
        writeln!(out, ".types{}", types(&parts.types)).unwrap();
    }
    if parts.defer != 0 {
        writeln!(out, ".defer").unwrap();
    }
    for entry in &parts.constants {
        writeln!(out, ".const {}", constant(entry)).unwrap();
    }
    for entry in &parts.functions {
        writeln!(out, ".function {} {}", entry.param_slots, entry.ret_slots).unwrap();
    }
    for slots in &parts.externs {
        writeln!(out, ".extern {slots}").unwrap();
    }
    for Case { kind, has_ok, queue, slot, elem_slots } in &parts.cases {
        let kind = CASES[usize::from(*kind)];
        let ok = attribute("ok", (*has_ok).into());
        writeln!(out, ".case {kind} {queue} {slot} {elem_slots}{ok}").unwrap();
    }
}

/// Equal types in a row are one word.
fn types(types: &[u8]) -> String {
    let mut words = String::new();
    let mut rest = types;
    while let Some(&first) = rest.first() {
        let row = rest.iter().take_while(|&&other| other == first).count();
        let count = if row == 1 { String::new() } else { format!("*{row}") };
        write!(words, " {}{count}", TYPES[usize::from(first)]).unwrap();
        rest = &rest[row..];
    }
    words
}

fn constant(entry: &Constant) -> String {
    let name = CONSTANTS[usize::from(entry.kind)];
    let mut unread = [0; 8];
    unread[..7].copy_from_slice(&entry.unread);
    let unread = match u64::from_le_bytes(unread) {
        0 => String::new(),
        bits => format!(" unread={bits:#x}"),
    };
    match entry.kind {
        CONSTANT_BOOL => format!("{name} {}{unread}", entry.value != 0),
        CONSTANT_INT => format!("{name} {}{unread}", entry.value as i64),
        CONSTANT_FLOAT => {
            let value = f64::from_bits(entry.value);
            // Not every NaN has a text of its own.
            if value.is_nan() {
                format!("{name} {:#x}{unread}", entry.value)
            } else {
                format!("{name} {value:?}{unread}")
            }
        }
        _ if entry.value == 0 => format!("{name}{unread}"),
        _ => format!("{name} value={}{unread}", entry.value),
    }
}

/// ` NAME=VALUE`, or nothing for 0.
fn attribute(name: &str, value: u32) -> String {
    if value == 0 {
        String::new()
    } else {
        format!(" {name}={value}")
    }
}

/// What a metadata entry has besides kind and end.
fn attributes(entry: Metadata) -> String {
    let Metadata { has_ok, array_len, first, second, .. } = entry;
    [("first", first), ("second", second), ("array", array_len.into()), ("ok", has_ok.into())]
        .map(|(name, value)| attribute(name, value))
        .concat()
}

fn kind(entry: Metadata) -> Kind {
    Kind::from_u8(entry.kind).expect("a checked unit has kinds 0 to 15")
}

/// The lines of a unit's instructions.
pub struct Lines<'p> {
    parts: &'p Parts,
    /// The places from 0 to n that a branch, a loop's end or its exit names.
    labels: BTreeSet<i64>,
    /// The lines by place, where their places rise below n.
    markers: BTreeMap<usize, u32>,
}

impl<'p> Lines<'p> {
    pub fn new(parts: &'p Parts) -> Self {
        let mut labels = BTreeSet::new();
        for (place, instruction) in parts.code.iter().enumerate() {
            labels.extend(target(place, instruction));
            if is_loop_hint(instruction) {
                labels.insert(instruction.imm32().into());
                let ends = parts.metadata.get(place).filter(|entry| entry.is(Kind::LoopEnd));
                labels.extend(ends.map(|entry| i64::from(entry.end_pc)));
            }
        }
        labels.retain(|place| (0..=parts.code.len() as i64).contains(place));
        let places: Vec<u32> = parts.lines.iter().map(|entry| entry.place).collect();
        let rising = places.windows(2).all(|pair| pair[0] < pair[1]);
        let inside = places.iter().all(|&place| (place as usize) < parts.code.len());
        let markers = parts.lines.iter().filter(|_| rising && inside);
        let markers = markers.map(|entry| (entry.place as usize, entry.line)).collect();
        Self { parts, labels, markers }
    }

    /// A place's line, if it has one.
    pub fn line(&self, place: usize) -> Option<u32> {
        self.markers.get(&place).copied()
    }

    /// The same as ` line=N`.
    pub fn marker(&self, place: usize) -> String {
        self.line(place).map(|line| format!(" line={line}")).unwrap_or_default()
    }

    fn label(&self, place: i64, out: &mut String) {
        if self.labels.contains(&place) {
            writeln!(out, "L{place}:").unwrap();
        }
    }

    /// A place by its label, if it has one.
    fn place(&self, place: u32) -> String {
        if self.labels.contains(&place.into()) {
            format!("L{place}")
        } else {
            place.to_string()
        }
    }

    fn target(&self, place: usize, distance: i64) -> String {
        let target = place as i64 + distance;
        if self.labels.contains(&target) {
            format!("L{target}")
        } else {
            format!("{distance:+}")
        }
    }

    /// An instruction as it is assembled.
    pub fn instruction(&self, place: usize) -> String {
        let instruction = &self.parts.code[place];
        let metadata = self.metadata(place);
        let (end, kind) = match kind(metadata) {
            Kind::None => (attribute("end", metadata.end_pc), String::new()),
            // The hint has its end already.
            Kind::LoopEnd if is_loop_hint(instruction) => Default::default(),
            kind => (attribute("end", metadata.end_pc), format!(" meta={kind:?}")),
        };
        // An end alone would stand for LoopEnd.
        let none = is_loop_hint(instruction) && metadata.is(Kind::None) && !end.is_empty();
        let kind = if none { " meta=None".into() } else { kind };
        format!("{}{kind}{}{end}", self.mnemonic(place), attributes(metadata))
    }

    /// An instruction without its metadata, but for a loop's end.
    pub fn mnemonic(&self, place: usize) -> String {
        let instruction = &self.parts.code[place];
        let Instruction { op, flags, a, b, c } = *instruction;
        if is_loop_hint(instruction) {
            let metadata = self.metadata(place);
            let end = match metadata.is(Kind::LoopEnd) {
                true => format!(" end={}", self.place(metadata.end_pc)),
                false => String::new(),
            };
            let exit = self.place(instruction.imm32());
            return format!("Loop{end} exit={exit}{}", attribute("a", a.into()));
        }
        let name = names::opcode(op);
        let head = match (names::form(op), distance(instruction)) {
            (Form::Value, _) => format!("{name} {a} {}", instruction.imm32() as i32),
            (Form::Jump { condition: true }, Some(distance)) => {
                format!("{name} {a} {}", self.target(place, distance))
            }
            (Form::Jump { .. }, Some(distance)) => {
                format!("{name} {}{}", self.target(place, distance), attribute("a", a.into()))
            }
            (_, Some(distance)) => format!("{name} {a} {b} {}", self.target(place, distance)),
            (_, None) if op == Opcode::Hint as u8 && (a, b, c) == (0, 0, 0) => name,
            (_, None) if c == 0 && has_two_operands(op) => format!("{name} {a} {b}"),
            (_, None) => format!("{name} {a} {b} {c}"),
        };
        format!("{head}{}", attribute("flags", flags.into()))
    }

    fn metadata(&self, place: usize) -> Metadata {
        self.parts.metadata.get(place).copied().unwrap_or_default()
    }
}

/// Opcodes that do not read c, among the pure ones and Return.
fn has_two_operands(op: u8) -> bool {
    use Opcode::*;
    matches!(
        Opcode::from_u8(op),
        Some(
            LoadConst
                | Copy
                | Return
                | NegI
                | Not
                | BoolNot
                | Trunc
                | NegF
                | NegF32
                | ConvI2F
                | ConvF2I
                | ConvF64F32
                | ConvF32F64
        )
    )
}
