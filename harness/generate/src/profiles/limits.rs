//! Functions about as large as are worked on.

use crate::draft::Draft;
use crate::laws;
use crate::rng::Rng;
use reference::Opcode;
use unit::buffers::{liveness_words, MAX_LIVENESS_WORDS};
use unit::Parts;

/// Functions at each of the liveness limits and beyond it, with dead stores to show which.
pub(super) fn limits(rng: &mut Rng) -> Parts {
    if rng.percent(50) {
        // w × blocks around 2,097,152.
        let s = rng.pick(&[65_535, 65_535, 65_472, 65_471, 60_000]);
        let w = liveness_words(s as u64);
        let blocks = ((MAX_LIVENESS_WORDS / w) as usize + rng.within(0..=2)).saturating_sub(1);
        many_blocks(rng, s, blocks)
    } else {
        // Work around 16,777,216 = w × blocks × rounds, a round for each block.
        let (s, blocks) = rng.pick(&[(1_024, 1_024), (256, 2_048), (64, 4_096), (1_000, 1_024)]);
        let blocks = blocks + rng.within(0..=3) - 1;
        slow_liveness(rng, s, blocks)
    }
}

/// A function of so many blocks, the first with a dead store.
pub fn many_blocks(rng: &mut Rng, s: usize, blocks: usize) -> Parts {
    let n = blocks + 1;
    let mut draft = Draft::new(rng, n, s);
    draft.load_int(1, 7);
    while draft.place() + 1 < n {
        let next = draft.place() as i64 + 1;
        draft.branch(Opcode::JumpIf, 0, next);
    }
    draft.op(Opcode::Return, 0, 0, 1, 0);
    draft.finish()
}

/// A function of so many blocks in which liveness moves by one block in each round: its rounds are as many as
/// its blocks, the last one changing nothing. The first block has a dead store.
pub fn slow_liveness(rng: &mut Rng, s: usize, blocks: usize) -> Parts {
    let n = blocks + 1;
    let mut draft = Draft::new(rng, n, s);
    draft.load_int(1, 7);
    draft.branch(Opcode::Jump, 0, n as i64 - 1);
    draft.op(Opcode::Return, 0, 0, 1, 0);
    while !draft.is_full() {
        let before = draft.place() as i64 - 1;
        draft.branch(Opcode::Jump, 0, before);
    }
    draft.finish()
}

/// Functions about as long as are worked on.
pub(super) fn long(rng: &mut Rng) -> Parts {
    let n = rng.pick(&[65_535, 65_536, 65_536, 65_537]);
    laws::law(rng, n)
}
