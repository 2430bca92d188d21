//! Units from a seed, by named profiles, and the named examples of the papers.

mod damage;
mod draft;
mod laws;
mod lines;
pub mod named;
mod opcodes;
mod profiles;
mod rng;
mod shapes;
pub mod small_world;

pub use lines::on_every_place;
pub use profiles::{every_damage, every_opcode, many_blocks, slow_liveness, Profile, DESK, PROFILES};
pub use rng::Rng;
pub use shapes::{Shape, EXTREMES, SHAPES};
pub use small_world::SmallWorld;

/// The survey's unit of this seed and index: a profile drawn by weight, and its unit.
pub fn survey(seed: u64, index: u64) -> (&'static Profile, Vec<u8>) {
    let total = PROFILES.iter().map(|profile| profile.weight).sum();
    let mut drawn = Rng::new(seed, index).below(total);
    let profile = PROFILES
        .iter()
        .find(|profile| {
            let found = drawn < profile.weight;
            drawn = drawn.wrapping_sub(profile.weight);
            found
        })
        .expect("the number drawn is below the weights' sum");
    (profile, profile.unit(seed, index))
}
