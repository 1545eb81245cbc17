//! Traces from a seed, of kinds that bring the planner's rules into play.

mod damage;
mod horizon;
pub mod kind;
mod leftover;
mod limits;
pub mod random;
mod recipe;
mod record;
pub mod survey;
mod timed;

pub use kind::{Kind, KINDS};
pub use random::seed_of;
use random::Random;
pub use timed::Timed;

/// The trace of this kind that the seed names.
pub fn trace(kind: Kind, seed: u64) -> Vec<u8> {
    let mut random = Random::new(seed);
    let mut items = match kind {
        Kind::Damaged => return damage::trace(&mut random),
        Kind::Limits => limits::items(&mut random),
        Kind::Horizon => horizon::items(&mut random),
        Kind::Slices if random.chance(25) => leftover::items(&mut random),
        _ => kind.recipe().items(&mut random),
    };
    items.push(record::end());
    form::join(&items)
}

/// The trace to be timed that the seed names.
pub fn timed(kind: Timed, seed: u64) -> Vec<u8> {
    let mut items = kind.recipe().items(&mut Random::new(seed));
    items.push(record::end());
    form::join(&items)
}

/// A trace of a kind that the seed chooses too.
pub fn any(seed: u64) -> (Kind, Vec<u8>) {
    let mut random = Random::new(!seed);
    let total: u64 = KINDS.iter().map(|row| row.2).sum();
    let mut left = random.range(0, total - 1);
    for (kind, _, weight) in KINDS {
        if left < weight {
            return (kind, trace(kind, seed));
        }
        left -= weight;
    }
    (Kind::Mixed, trace(Kind::Mixed, seed))
}

/// The same where traces are only loaded: most are damaged, and many fill a table.
pub fn any_to_load(seed: u64) -> (Kind, Vec<u8>) {
    // apart from the draws of the trace itself
    let mut random = Random::new(seed.rotate_left(32));
    match random.range(0, 9) {
        0..=5 => (Kind::Damaged, trace(Kind::Damaged, seed)),
        6 => (Kind::Limits, trace(Kind::Limits, seed)),
        _ => any(seed),
    }
}
