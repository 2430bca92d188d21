//! What document 02 changes in the Rust: in which copied file, which text, and what stands in its place. Each text
//! must occur exactly once.

pub struct Patch {
    /// Where the copy stands in OUT_DIR.
    pub file: &'static str,
    pub old: &'static str,
    pub new: &'static str,
}

pub const PATCHES: [Patch; 11] = [
    // L5: surely written ranges. SelectExec perhaps writes what its receive cases receive, MapIterNext key and value.
    Patch {
        file: "instruction_effects.rs",
        old: "#[inline]
pub fn register_range_contains(",
        new: "pub fn visit_instruction_register_sure_writes(
    inst: &Instruction,
    metadata: Option<&InstructionMetadata>,
    externs: &[ExternDef],
    functions: &[FunctionDef],
    mut visit: impl FnMut(u16, u16),
) -> Result<(), InstructionWriteError> {
    match inst.opcode() {
        Opcode::SelectExec => visit_range(inst.a, 1, &mut visit),
        Opcode::MapIterNext => {
            visit_range(inst.b, MAP_ITER_SLOTS, &mut visit)?;
            visit_range(inst.c, 1, &mut visit)
        }
        _ => visit_instruction_register_writes(inst, metadata, externs, functions, visit),
    }
}

#[inline]
pub fn register_range_contains(",
    },
    Patch {
        file: OPTIMIZE,
        old: "    visit_instruction_register_writes, FrameMemoryEffect,",
        new: "    visit_instruction_register_sure_writes, visit_instruction_register_writes, FrameMemoryEffect,",
    },
    Patch {
        file: OPTIMIZE,
        old: "fn bit(bits: &[u64], slot: u16) -> bool {",
        new: "fn sure_write_slots(
    module: &Module,
    function: &FunctionDef,
    instruction: &Instruction,
    pc: usize,
    visit: impl FnMut(u16, u16),
) -> Result<(), String> {
    visit_instruction_register_sure_writes(
        instruction,
        function.instruction_metadata.get(pc),
        &module.externs,
        &module.functions,
        visit,
    )
    .map_err(|error| format!(\"invalid optimizer write effect at {pc}: {error:?}\"))
}

fn bit(bits: &[u64], slot: u16) -> bool {",
    },
    // L5: only these end a slot's life, in a block's summary and in the sweep.
    Patch {
        file: OPTIMIZE,
        old: "            write_slots(module, function, &code[pc], pc, |start, count| {
                for slot in range(start, count) {
                    set(definitions, slot);",
        new: "            sure_write_slots(module, function, &code[pc], pc, |start, count| {
                for slot in range(start, count) {
                    set(definitions, slot);",
    },
    Patch {
        file: OPTIMIZE,
        old: "            write_slots(module, function, &code[pc], pc, |start, count| {
                for slot in range(start, count) {
                    clear(&mut outgoing, slot);",
        new: "            sure_write_slots(module, function, &code[pc], pc, |start, count| {
                for slot in range(start, count) {
                    clear(&mut outgoing, slot);",
    },
    // L1: nothing is recorded, and the lowest slot of the type that holds the value stands for it.
    Patch { file: OPTIMIZE, old: "    representatives: HashMap<Atom, u16>,\n", new: "" },
    Patch {
        file: OPTIMIZE,
        old: "    fn representative(&mut self, slot: u16, types: &[SlotType]) -> u16 {
        let value = self.get(slot);
        if let Some(&representative) = self.representatives.get(&value) {
            if self.get(representative) == value
                && types.get(representative as usize) == types.get(slot as usize)
            {
                return representative;
            }
        }
        self.representatives.insert(value, slot);
        slot
    }
",
        new: "    fn lowest(&self, value: Atom, slot_type: SlotType, types: &[SlotType]) -> Option<u16> {
        (0..types.len() as u16)
            .find(|&slot| types[slot as usize] == slot_type && self.get(slot) == value)
    }

    fn representative(&mut self, slot: u16, types: &[SlotType]) -> u16 {
        self.lowest(self.get(slot), types[slot as usize], types).unwrap()
    }
",
    },
    Patch {
        file: OPTIMIZE,
        old: "    fn store(&mut self, slot: u16, value: Atom, types: &[SlotType]) {
        self.slots.insert(slot, value);
        self.representative(slot, types);
    }
",
        new: "    fn store(&mut self, slot: u16, value: Atom, _: &[SlotType]) {
        self.slots.insert(slot, value);
    }
",
    },
    Patch { file: OPTIMIZE, old: "        self.representatives.clear();\n", new: "" },
    Patch {
        file: OPTIMIZE,
        old: "                        if let Some(&slot) = values.representatives.get(&value) {
                            if values.get(slot) == value
                                && function.slot_types[slot as usize]
                                    == function.slot_types[instruction.a as usize]
                            {
                                *instruction =
                                    Instruction::new(Opcode::Copy, instruction.a, slot, 0);
                            }
                        }
",
        new: "                        let types = &function.slot_types;
                        if let Some(slot) = values.lowest(value, types[instruction.a as usize], types) {
                            *instruction = Instruction::new(Opcode::Copy, instruction.a, slot, 0);
                        }
",
    },
    // L2: a folded value that does not fit is copied from the lowest slot of the type that holds it.
    Patch {
        file: OPTIMIZE,
        old: "                            set_imm32(instruction, immediate as u32);
                        }
",
        new: "                            set_imm32(instruction, immediate as u32);
                        } else {
                            let types = &function.slot_types;
                            let held = Atom::Integer(value);
                            if let Some(slot) = values.lowest(held, types[instruction.a as usize], types) {
                                *instruction = Instruction::new(Opcode::Copy, instruction.a, slot, 0);
                            }
                        }
",
    },
];

const OPTIMIZE: &str = "optimize/mod.rs";
