//! The liveness limits, at which dead stores stop to go: each function has one dead store, at place 0.

use generate::{many_blocks, slow_liveness, Rng};
use unit::{Answer, Parts, Rewritten};

fn dead_store_goes(parts: &Parts) -> bool {
    let first = match reference::pass(&parts.encode()) {
        Answer::Unchanged => return false,
        Answer::Rewritten { bytes } => Rewritten::decode(&bytes).unwrap().retained[0],
        refused => panic!("{refused}"),
    };
    first.old_place != 0
}

/// "when w × blocks exceeds 2,097,152": w is 1,024.
#[test]
fn blocks() {
    let rng = &mut Rng::new(1, 1);
    assert!(dead_store_goes(&many_blocks(rng, 65_535, 2_048)));
    assert!(!dead_store_goes(&many_blocks(rng, 65_535, 2_049)));
    assert!(dead_store_goes(&many_blocks(rng, 65_472, 2_049)));
}

/// "when liveness work passes 16,777,216: w for each block visited, last block to first, in rounds until one
/// changes nothing": w × blocks × rounds, as many rounds as blocks, the last and unchanging one among them.
#[test]
fn work() {
    let rng = &mut Rng::new(1, 2);
    for (s, blocks) in [(1_024, 1_024), (256, 2_048), (64, 4_096)] {
        assert!(dead_store_goes(&slow_liveness(rng, s, blocks)));
        assert!(!dead_store_goes(&slow_liveness(rng, s, blocks + 1)));
    }
}

/// Unreachable blocks count too: here a Return after the Return.
#[test]
fn unreachable_blocks() {
    let rng = &mut Rng::new(1, 3);
    let mut one_more = |blocks| {
        let mut parts = many_blocks(rng, 65_535, blocks);
        parts.code.extend_from_within(blocks..);
        parts.metadata.extend_from_within(blocks..);
        parts
    };
    assert!(dead_store_goes(&one_more(2_047)));
    assert!(!dead_store_goes(&one_more(2_048)));
}
