//! The profiles: each draws units of one sort.

mod counts;
mod desk;
mod flow;
mod limits;
mod operands;
mod stages;
mod straight;

pub use counts::every_damage;
pub use limits::{many_blocks, slow_liveness};
pub use operands::every_opcode;

use crate::laws;
use crate::lines;
use crate::rng::Rng;

/// A named sort of units.
#[derive(Clone, Copy)]
pub struct Profile {
    pub name: &'static str,
    /// How often the survey draws it, in 10,000.
    pub weight: usize,
    draw: fn(&mut Rng) -> Vec<u8>,
}

impl Profile {
    /// The profile's unit of this seed and index.
    pub fn unit(&self, seed: u64, index: u64) -> Vec<u8> {
        let rng = &mut Rng::new(seed ^ name_hash(self.name), index);
        let bytes = (self.draw)(rng);
        // What is damaged has its lines already.
        if self.name == "damaged" {
            bytes
        } else {
            lines::lined(bytes, rng)
        }
    }
}

/// FNV-1a: so that profiles of one seed have streams of their own.
fn name_hash(name: &str) -> u64 {
    name.bytes()
        .fold(0xcbf2_9ce4_8422_2325, |hash, byte| (hash ^ u64::from(byte)).wrapping_mul(0x0100_0000_01b3))
}

pub const PROFILES: [Profile; 18] = [
    Profile { name: "straight", weight: 1_000, draw: |rng| straight::straight(rng).encode() },
    Profile { name: "holders", weight: 400, draw: |rng| straight::holders(rng).encode() },
    Profile { name: "branches", weight: 1_000, draw: |rng| flow::branches(rng).encode() },
    Profile { name: "loops", weight: 1_400, draw: |rng| flow::loops(rng).encode() },
    Profile { name: "jumps", weight: 800, draw: |rng| flow::jumps(rng).encode() },
    Profile { name: "stages", weight: 800, draw: |rng| stages::stages(rng).encode() },
    Profile { name: "opcodes", weight: 1_000, draw: |rng| operands::opcodes(rng).encode() },
    Profile { name: "pairs", weight: 300, draw: |rng| operands::pairs(rng).encode() },
    Profile { name: "spoiled", weight: 800, draw: |rng| operands::spoiled(rng).encode() },
    Profile { name: "edges", weight: 600, draw: |rng| operands::edges(rng).encode() },
    Profile { name: "selects", weight: 600, draw: |rng| operands::selects(rng).encode() },
    Profile { name: "constants", weight: 300, draw: |rng| straight::constants(rng).encode() },
    Profile { name: "counts", weight: 300, draw: |rng| counts::counts(rng).encode() },
    Profile { name: "damaged", weight: 400, draw: counts::damaged },
    Profile { name: "mixed", weight: 250, draw: |rng| straight::mixed(rng).encode() },
    Profile { name: "laws", weight: 50, draw: |rng| laws::draw(rng).encode() },
    Profile { name: "limits", weight: 3, draw: |rng| limits::limits(rng).encode() },
    Profile { name: "long", weight: 2, draw: |rng| limits::long(rng).encode() },
];

/// Functions to be run at the desk. The survey does not draw them.
pub const DESK: Profile = Profile { name: "desk", weight: 0, draw: |rng| desk::desk(rng).encode() };
