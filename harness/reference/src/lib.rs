//! The reference: volang's optimize.rs, pc_map.rs, instruction.rs and instruction_effects.rs, copied by build.rs,
//! with stand-ins for the modules that they lean on. The package `reference` has document 02's changes in the
//! copies (patches.rs); `unpatched` is the same crate without them, for the benchmark.
//!
//! Document 01: "The reference is `optimize_function`; the wrapper above it is `clean_function`, of which the
//! up-to-three-pass loop is ported too." What the Rust gives back becomes document 01's answers in `answers`.

// The copied files name both crates; here they are one.
extern crate self as vo_common_core;

mod answers;
mod bytecode;
mod debug_info;
mod loop_hint;
mod prepared;
mod stages;
mod types;

include!(concat!(env!("OUT_DIR"), "/modules.rs"));

// The copied files find these two at the crate's root.
use bytecode::InstructionMetadata;
use types::SlotType;

pub use answers::{clean, pass};
pub use instruction::Opcode;
pub use prepared::Prepared;
pub use stages::Stages;
