//! A unit as the Rust's module.

use crate::bytecode::{
    Constant, ExternDef, FunctionDef, Functions, InstructionMetadata, Layout, Module, ReturnShape,
    SelectCaseLayout,
};
use crate::debug_info::{
    DebugEntry, DebugInfo, FuncDebugInfo, Funcs, InlineFunctionSources, InlineSourceEntry,
};
use crate::instruction::Instruction;
use crate::stages::Stages;
use crate::types::SlotType;
use unit::{Case, Kind, Metadata, Unit};

/// A unit decoded once. A copy of it can be optimized again and again without decoding.
#[derive(Clone)]
pub struct Prepared {
    pub(crate) module: Module,
}

impl Prepared {
    pub fn new(unit: &Unit) -> Self {
        let cases: Vec<_> = unit.cases().map(select_case).collect();
        let under_work = FunctionDef {
            name: "function".into(),
            local_slots: u16::try_from(unit.header().local_slots).expect("s is at most 65,535"),
            has_defer: unit.header().defer != 0,
            code: unit.code().map(instruction).collect(),
            instruction_metadata: unit.metadata().map(|entry| metadata(entry, &cases)).collect(),
            slot_types: unit.types().map(SlotType::from_u8).collect(),
            ..FunctionDef::default()
        };
        let entries = unit
            .functions()
            .map(|entry| FunctionDef {
                param_slots: entry.param_slots,
                ret_slots: entry.ret_slots,
                ..FunctionDef::default()
            })
            .collect();
        let module = Module {
            constants: unit.constants().map(constant).collect(),
            functions: Functions { entries, under_work },
            externs: unit.externs().map(|slots| ExternDef { returns: ReturnShape { slots } }).collect(),
            debug_info: DebugInfo::default(),
        };
        Self { module }
    }

    /// One pass of the reference: whether it rewrote the function, or the text of its refusal.
    pub fn optimize_function(&mut self) -> Result<bool, String> {
        self.module.optimize_function()
    }

    /// The steps of a pass that comes as far as dead stores.
    pub fn stages(&self) -> Result<Stages, String> {
        self.module.stages()
    }

    /// From here on the Rust's relocation carries the old places: one entry for each instruction.
    pub(crate) fn trace_old_places(&mut self) {
        let places = 0..self.module.functions.under_work.code.len() as u32;
        let entries = places.map(|place| InlineSourceEntry { pc: place, frame: place }).collect();
        self.module.debug_info.inline_sources.under_work = Some(InlineFunctionSources { entries });
    }

    /// From here on `relocate_debug` moves the unit's lines.
    pub fn carry_lines(&mut self, unit: &Unit) {
        let entries = unit.lines().map(|entry| DebugEntry { pc: entry.place, line: entry.line }).collect();
        self.module.debug_info.funcs = Funcs { under_work: Some(FuncDebugInfo { entries }) };
    }
}

fn instruction(entry: unit::Instruction) -> Instruction {
    let unit::Instruction { op, flags, a, b, c } = entry;
    Instruction { op, flags, a, b, c }
}

pub(crate) fn metadata(entry: Metadata, cases: &[SelectCaseLayout]) -> InstructionMetadata {
    let (first, second) = (Layout(entry.first), Layout(entry.second));
    match Kind::from_u8(entry.kind).expect("a checked unit has kinds 0 to 15") {
        Kind::None => InstructionMetadata::None,
        Kind::ElemLayout => InstructionMetadata::ElemLayout { slot_layout: first },
        Kind::MapGet => {
            InstructionMetadata::MapGet { key_layout: first, val_layout: second, has_ok: entry.has_ok != 0 }
        }
        Kind::MapNew => InstructionMetadata::MapNew { key_layout: first, val_layout: second },
        Kind::MapSet => InstructionMetadata::MapSet { key_layout: first, val_layout: second },
        Kind::MapDelete => InstructionMetadata::MapDelete { key_layout: first },
        Kind::PtrLayout => InstructionMetadata::PtrLayout { value_layout: first },
        Kind::SlotLayout => {
            InstructionMetadata::SlotLayout { array_len: entry.array_len, elem_layout: first }
        }
        Kind::CallLayout => InstructionMetadata::CallLayout { arg_layout: first, ret_layout: second },
        Kind::CallIfaceLayout => {
            InstructionMetadata::CallIfaceLayout { arg_layout: first, ret_layout: second }
        }
        Kind::CallExternLayout => {
            InstructionMetadata::CallExternLayout { arg_layout: first, ret_layout: second }
        }
        Kind::QueueLayout => InstructionMetadata::QueueLayout { elem_layout: first },
        Kind::SelectExecLayout => {
            let start = entry.first as usize;
            let cases = cases[start..start + entry.second as usize].to_vec();
            InstructionMetadata::SelectExecLayout { cases }
        }
        Kind::MapIterNext => InstructionMetadata::MapIterNext { key_layout: first, val_layout: second },
        Kind::IfaceAssertLayout => InstructionMetadata::IfaceAssertLayout { result_layout: first },
        Kind::LoopEnd => InstructionMetadata::LoopEnd { end_pc: entry.end_pc },
    }
}

pub(crate) fn select_case(entry: Case) -> SelectCaseLayout {
    let Case { kind, has_ok, queue, slot, elem_slots } = entry;
    match kind {
        Case::SEND => SelectCaseLayout::Send { queue, value: slot, elem_slots },
        _ => SelectCaseLayout::Recv { destination: slot, queue, elem_slots, has_ok: has_ok != 0 },
    }
}

fn constant(entry: unit::Constant) -> Constant {
    match entry.kind {
        unit::CONSTANT_NIL => Constant::Nil,
        unit::CONSTANT_BOOL => Constant::Bool(entry.value != 0),
        unit::CONSTANT_INT => Constant::Int(entry.value as i64),
        unit::CONSTANT_FLOAT => Constant::Float(f64::from_bits(entry.value)),
        _ => Constant::String,
    }
}
