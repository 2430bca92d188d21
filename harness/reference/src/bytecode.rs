//! Stand-in for volang's bytecode.rs: what the four files use of it, under the same names.

use crate::debug_info::DebugInfo;
use crate::instruction::{Instruction, Opcode};
use crate::types::SlotType;
use std::ops::{Deref, Index, IndexMut};

pub const MAP_ITER_SLOTS: usize = 7;

/// A layout of which only the length counts. Volang has a `Vec<SlotType>`; a unit can ask for 2^32 - 1 slots.
#[derive(Clone, Copy, Debug, Eq, PartialEq)]
pub struct Layout(pub u32);

impl Layout {
    pub fn len(&self) -> usize {
        self.0 as usize
    }
}

#[derive(Clone, Debug)]
pub enum Constant {
    Nil,
    Bool(bool),
    Int(i64),
    Float(f64),
    String,
}

#[derive(Clone, Copy, Debug, Eq, PartialEq)]
pub enum SelectCaseLayout {
    Send { queue: u16, value: u16, elem_slots: u16 },
    Recv { destination: u16, queue: u16, elem_slots: u16, has_ok: bool },
}

#[derive(Clone, Debug, Eq, PartialEq)]
pub enum InstructionMetadata {
    None,
    ElemLayout { slot_layout: Layout },
    MapGet { key_layout: Layout, val_layout: Layout, has_ok: bool },
    MapNew { key_layout: Layout, val_layout: Layout },
    MapSet { key_layout: Layout, val_layout: Layout },
    MapDelete { key_layout: Layout },
    PtrLayout { value_layout: Layout },
    SlotLayout { array_len: u16, elem_layout: Layout },
    CallLayout { arg_layout: Layout, ret_layout: Layout },
    CallIfaceLayout { arg_layout: Layout, ret_layout: Layout },
    CallExternLayout { arg_layout: Layout, ret_layout: Layout },
    QueueLayout { elem_layout: Layout },
    SelectExecLayout { cases: Vec<SelectCaseLayout> },
    MapIterNext { key_layout: Layout, val_layout: Layout },
    IfaceAssertLayout { result_layout: Layout },
    LoopEnd { end_pc: u32 },
}

#[derive(Clone, Debug, Default)]
pub struct FunctionDef {
    pub name: String,
    pub param_slots: u16,
    pub local_slots: u16,
    pub ret_slots: u16,
    pub has_defer: bool,
    pub has_calls: bool,
    pub has_call_extern: bool,
    pub code: Vec<Instruction>,
    pub instruction_metadata: Vec<InstructionMetadata>,
    pub slot_types: Vec<SlotType>,
}

impl FunctionDef {
    pub fn compute_call_flags(code: &[Instruction]) -> (bool, bool) {
        let (mut has_calls, mut has_call_extern) = (false, false);
        for instruction in code {
            match instruction.opcode() {
                Opcode::Call | Opcode::CallClosure | Opcode::CallIface => has_calls = true,
                Opcode::CallExtern => has_call_extern = true,
                _ => {}
            }
        }
        (has_calls, has_call_extern)
    }
}

#[derive(Clone, Debug)]
pub struct ExternDef {
    pub returns: ReturnShape,
}

#[derive(Clone, Debug)]
pub struct ReturnShape {
    pub slots: u16,
}

/// The id of the function under work: past every id that an instruction can carry (24 bits).
pub const UNDER_WORK: usize = 1 << 24;

/// The entries of the unit's section, and apart from them the function under work: in document 01 it is no
/// entry of the section, so no call may find it there.
#[derive(Clone, Debug)]
pub struct Functions {
    pub entries: Vec<FunctionDef>,
    pub under_work: FunctionDef,
}

/// What the effects look calls up in.
impl Deref for Functions {
    type Target = [FunctionDef];

    fn deref(&self) -> &[FunctionDef] {
        &self.entries
    }
}

/// What `optimize_function` finds its function by.
impl Index<usize> for Functions {
    type Output = FunctionDef;

    fn index(&self, function_id: usize) -> &FunctionDef {
        assert_eq!(function_id, UNDER_WORK);
        &self.under_work
    }
}

impl IndexMut<usize> for Functions {
    fn index_mut(&mut self, function_id: usize) -> &mut FunctionDef {
        assert_eq!(function_id, UNDER_WORK);
        &mut self.under_work
    }
}

#[derive(Clone, Debug)]
pub struct Module {
    pub constants: Vec<Constant>,
    pub functions: Functions,
    pub externs: Vec<ExternDef>,
    pub debug_info: DebugInfo,
}
