//! What one pass lays open to the next.

use crate::draft::Draft;
use crate::rng::Rng;
use reference::Opcode;
use unit::{Metadata, Parts};

/// What one pass lays open to the next: known branches behind known branches, stores that die late, ends of
/// loops and targets at the end that go late.
pub(super) fn stages(rng: &mut Rng) -> Parts {
    let looped = rng.percent(50);
    let mut stages: Vec<Stage> = (0..rng.within(1..=2)).map(|_| rng.pick(&Stage::ALL)).collect();
    if looped && rng.percent(40) {
        stages[0] = Stage::Chain;
    } else if rng.percent(50) {
        stages.push(Stage::Guard);
    }
    let tail = rng.pick(&[Tail::None, Tail::Dead, Tail::DeadLater]);
    let before_tail = usize::from(looped) + stages.iter().map(|stage| stage.len()).sum::<usize>() + 1;
    let n = (before_tail + tail.len()).max(2);
    let mut draft = Draft::new(rng, n, 4);
    if looped {
        // Often a store of the first stage, which may go in a later pass.
        let any = draft.rng.below(n);
        let end = draft.rng.pick(&[1, 3, any]).min(n - 1);
        let exit = draft.rng.within(1..=n) as u32;
        draft.loop_hint(exit, Metadata::loop_end(end as u32));
    }
    for stage in stages {
        stage.draw(&mut draft, before_tail.min(n - 1) as i64);
    }
    draft.op(Opcode::Return, 0, UNKNOWN, 1, 0);
    tail.draw(&mut draft);
    while !draft.is_full() {
        draft.op(Opcode::Return, 0, 0, 0, 0);
    }
    draft.finish()
}

/// A slot that no stage stores to.
const UNKNOWN: u16 = 3;

#[derive(Clone, Copy)]
enum Stage {
    /// LoadInt; a branch that is taken, to the next block: the next pass sees one block.
    Taken,
    /// LoadInt; Hint; a branch on it, which only the next pass can decide.
    Hinted,
    /// Stores of which one dies in each pass: each is read by the next, in a block of its own.
    Chain,
    /// A branch on an unknown slot to the tail.
    Guard,
}

impl Stage {
    const ALL: [Self; 4] = [Self::Taken, Self::Hinted, Self::Chain, Self::Guard];

    fn len(self) -> usize {
        match self {
            Self::Taken => 2,
            Self::Hinted => 3,
            Self::Chain => 5,
            Self::Guard => 1,
        }
    }

    fn draw(self, draft: &mut Draft, tail: i64) {
        let slot = draft.rng.below(usize::from(UNKNOWN)) as u16;
        match self {
            Self::Taken => {
                draft.load_int(slot, 1);
                branch_to_next(draft, Opcode::JumpIf, slot);
            }
            Self::Hinted => {
                let value = draft.rng.below(2) as i32;
                draft.load_int(slot, value);
                draft.op(Opcode::Hint, 0, 0, 0, 0);
                let target = draft.target();
                draft.branch(Opcode::JumpIf, slot, target);
            }
            Self::Chain => {
                draft.load_int(0, 0);
                branch_to_next(draft, Opcode::JumpIf, UNKNOWN);
                draft.op(Opcode::Copy, 0, 1, 0, 0);
                branch_to_next(draft, Opcode::JumpIf, UNKNOWN);
                draft.op(Opcode::Copy, 0, 2, 1, 0);
            }
            Self::Guard => draft.branch(Opcode::JumpIf, UNKNOWN, tail),
        }
    }
}

/// What follows the Return.
#[derive(Clone, Copy)]
enum Tail {
    None,
    /// A store that pass 1 removes: a branch to it then leaves the function.
    Dead,
    /// A store that pass 2 removes.
    DeadLater,
}

impl Tail {
    fn len(self) -> usize {
        match self {
            Self::None => 0,
            Self::Dead => 1,
            Self::DeadLater => 3,
        }
    }

    fn draw(self, draft: &mut Draft) {
        match self {
            Self::None => {}
            Self::Dead => draft.load_int(0, 7),
            Self::DeadLater => {
                draft.load_int(0, 7);
                branch_to_next(draft, Opcode::Jump, 0);
                draft.op(Opcode::Copy, 0, 1, 0, 0);
            }
        }
    }
}

fn branch_to_next(draft: &mut Draft, opcode: Opcode, slot: u16) {
    let next = draft.place() as i64 + 1;
    draft.branch(opcode, slot, next);
}
