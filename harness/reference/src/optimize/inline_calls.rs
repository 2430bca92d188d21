//! Stand-in for volang's optimize/inline_calls.rs, and the door to the functions that optimize.rs keeps to
//! itself: a child may call them, and methods of `Module` may be called from anywhere in the crate.

use super::{
    blocks, dead_stores, local_values, optimize_function, pure_destination, range, reachable, read_slots,
    scalar, successors, write_slots, Block,
};
use std::collections::HashSet;
use std::ops::Range;
use vo_common_core::bytecode::{Module, MAP_ITER_SLOTS, UNDER_WORK};
use vo_common_core::instruction::{Instruction, Opcode};
use vo_common_core::loop_hint::{is_loop_hint, LoopHint};
use vo_common_core::stages::Stages;
use vo_common_core::InstructionMetadata;

pub(super) fn compose(_module: &mut Module) -> Result<Vec<usize>, String> {
    unreachable!("calls are not inlined")
}

pub(super) fn compact_sources(_module: &mut Module) {
    unreachable!("calls are not inlined")
}

impl Module {
    /// The reference.
    pub(crate) fn optimize_function(&mut self) -> Result<bool, String> {
        optimize_function(self, UNDER_WORK)
    }

    /// The reached loop hints by rising place, in the code that `local_values` rewrites.
    ///
    /// "a sound loop hint, flags 1, also reaches its end and an exit below n, an unsound one only the next
    /// place": as a plain hint does, and so an unsound one is shown to the Rust's `reachable`.
    pub(crate) fn reached_loop_hints(&self) -> Result<Vec<LoopHint>, String> {
        let function = &self.functions[UNDER_WORK];
        let mut code = function.code.clone();
        let (blocks, _) = blocks(&code)?;
        local_values(function, &self.constants, &mut code, &blocks);
        let hints: Vec<LoopHint> = code
            .iter()
            .enumerate()
            .filter(|(_, instruction)| is_loop_hint(instruction))
            .map(|(pc, hint)| LoopHint {
                place: pc as u32,
                exit: hint.imm32_unsigned(),
                end: match function.instruction_metadata[pc] {
                    InstructionMetadata::LoopEnd { end_pc } => {
                        Some(end_pc).filter(|&end| (end as usize) < code.len())
                    }
                    _ => None,
                },
            })
            .collect();
        for hint in hints.iter().filter(|hint| hint.end.is_none()) {
            code[hint.place as usize] = Instruction::new(Opcode::Hint, 0, 0, 0);
        }
        let (reached, _) = reachable(&code, &function.instruction_metadata)?;
        Ok(hints.into_iter().filter(|hint| reached[hint.place as usize]).collect())
    }

    /// The steps of `optimize_function` on a function that passes its checks, up to the jump rounds.
    pub(crate) fn stages(&self) -> Result<Stages, String> {
        let function = &self.functions[UNDER_WORK];
        let mut code = function.code.clone();
        let (blocks, pc_to_block) = blocks(&code)?;
        local_values(function, &self.constants, &mut code, &blocks);
        let (reached, _) = reachable(&code, &function.instruction_metadata)?;
        let plain = |hint: &Instruction| hint.opcode() == Opcode::Hint && hint.flags == 0;
        let useful: Vec<bool> =
            code.iter().zip(&reached).map(|(instruction, reached)| *reached && !plain(instruction)).collect();
        let mut stored = useful.clone();
        dead_stores(self, function, &code, &blocks, &pc_to_block, &mut stored)?;
        let by_place = || code.iter().enumerate();
        let edges: Vec<_> = by_place()
            .map(|(pc, instruction)| successors(pc, *instruction, code.len()))
            .collect::<Result<_, _>>()?;
        let mut last = vec![false; code.len()];
        blocks.iter().for_each(|block| last[block.end - 1] = true);
        let is_scalar_store = |instruction: &Instruction| {
            pure_destination(*instruction)
                .is_some_and(|(start, count)| range(start, count).all(|slot| scalar(slot, function)))
        };
        Ok(Stages {
            reads: by_place().map(|(pc, code)| self.reads(code, pc)).collect::<Result<_, _>>()?,
            sure_writes: by_place().map(|(pc, code)| self.sure_writes(code, pc)).collect::<Result<_, _>>()?,
            live_found: live_found(function.local_slots, &blocks, &edges),
            edges,
            last,
            scalar_store: code.iter().map(is_scalar_store).collect(),
            code: code.iter().map(Into::into).collect(),
            reached,
            useful,
            stored,
        })
    }

    fn reads(&self, instruction: &Instruction, pc: usize) -> Result<Vec<Range<u16>>, String> {
        let mut reads = Vec::new();
        let function = &self.functions[UNDER_WORK];
        read_slots(self, function, instruction, pc, |start, count| reads.push(range(start, count)))?;
        Ok(reads)
    }

    /// Document 02, L5: what SelectExec receives is perhaps written, and so are MapIterNext's key and value.
    fn sure_writes(&self, instruction: &Instruction, pc: usize) -> Result<Vec<Range<u16>>, String> {
        let Instruction { a, b, c, .. } = *instruction;
        let mut writes = Vec::new();
        match instruction.opcode() {
            Opcode::SelectExec => writes.push(range(a, 1)),
            Opcode::MapIterNext => writes.extend([range(b, MAP_ITER_SLOTS as u16), range(c, 1)]),
            _ => {
                let function = &self.functions[UNDER_WORK];
                write_slots(self, function, instruction, pc, |start, count| {
                    writes.push(range(start, count))
                })?;
            }
        }
        Ok(writes)
    }
}

/// Whether there are slots, and liveness is sure to stay inside both limits. It goes over the blocks from the last to
/// the first: a slot that is live by a path is found so one round later for each edge of the path that leads back.
/// A path need not come to a block twice, and the last round changes nothing.
fn live_found(local_slots: u16, blocks: &[Block], edges: &[[Option<usize>; 2]]) -> bool {
    let words = usize::from(local_slots).div_ceil(64);
    let size = words * blocks.len();
    let led_back_to: HashSet<usize> = blocks
        .iter()
        .flat_map(|block| edges[block.end - 1].into_iter().flatten().filter(|&next| next <= block.start))
        .collect();
    let rounds = led_back_to.len() + 2;
    words != 0 && size <= 2_097_152 && size * rounds <= 16_777_216
}
