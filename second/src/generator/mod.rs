//! Pairs of job and trace from a seed. What a pair is depends on its index modulo 24:
//!
//! | index modulo 24 | kind |
//! |---|---|
//! | 0 to 4 | a derivation that closes |
//! | 5 | the same, stopped early |
//! | 6 | the same, with steps after everything is shut |
//! | 7 to 11 | blind steps |
//! | 12 | a blind job |
//! | 13 to 16 | limits, one scenario after the other |
//! | 17 to 20 | several faults in one record, and rules at their brim, one scenario after the other |
//! | 21 to 23 | damage to a pair of any kind above |

pub mod blind;
pub mod closed;
pub mod damage;
pub mod edges;
pub mod jobs;
pub mod long;
pub mod orders;
pub mod rng;
pub mod run;
pub mod solve;
pub mod write;

use crate::pack::Pair;
use rng::Rng;

pub const MIX: usize = 24;
/// The kinds before damage.
const WHOLE: usize = 21;

#[derive(Clone, Copy, Debug, PartialEq, Eq)]
pub enum Kind {
    Closed,
    Early,
    Late,
    Blind,
    BlindJob,
    Limits,
    Orders,
    Damage,
}

pub fn kind(index: usize) -> Kind {
    match index % MIX {
        0..=4 => Kind::Closed,
        5 => Kind::Early,
        6 => Kind::Late,
        7..=11 => Kind::Blind,
        12 => Kind::BlindJob,
        13..=16 => Kind::Limits,
        17..=20 => Kind::Orders,
        _ => Kind::Damage,
    }
}

/// The pair of a seed and an index.
pub fn pair(seed: u64, index: usize) -> Pair {
    let mut rng = Rng::new(seed, index as u64);
    match kind(index) {
        Kind::Damage => {
            // The kind of another index, with numbers of its own.
            let other = MIX * rng.below(1_000) + rng.below(WHOLE);
            let whole = make(&mut rng, other);
            damage::damage(&mut rng, whole)
        }
        _ => make(&mut rng, index),
    }
}

fn make(rng: &mut Rng, index: usize) -> Pair {
    let (round, part) = (index / MIX, index % MIX);
    match kind(index) {
        Kind::Early => closed::early(rng),
        Kind::Late => closed::late(rng),
        Kind::Blind => blind::blind(rng, 5 * round + part - 7),
        Kind::BlindJob => blind::blind_job(rng, round),
        Kind::Limits => edges::SCENARIOS[(4 * round + part - 13) % edges::SCENARIOS.len()](rng),
        Kind::Orders => orders::SCENARIOS[(4 * round + part - 17) % orders::SCENARIOS.len()](rng),
        Kind::Closed | Kind::Damage => closed::closed(rng).1.end(),
    }
}
