//! Damage to the bytes of a job or a trace.

use super::rng::Rng;
use crate::pack::Pair;

pub fn damage(rng: &mut Rng, mut pair: Pair) -> Pair {
    for _ in 0..1 + rng.below(3) {
        let file = if rng.chance(1, 3) { &mut pair.job } else { &mut pair.trace };
        hurt(rng, file);
    }
    pair
}

fn hurt(rng: &mut Rng, file: &mut Vec<u8>) {
    let at = rng.below(file.len() + 1);
    let len = rng.below(9).min(file.len() - at);
    match rng.below(8) {
        0..=3 if at < file.len() => file[at] ^= 1 << rng.below(8),
        4 => {
            file.drain(at..at + len);
        }
        5 => {
            let new: Vec<u8> = (0..len).map(|_| rng.draw() as u8).collect();
            file.splice(at..at, new);
        }
        6 => {
            let part = file[at..at + len].to_vec();
            file.splice(at..at, part);
        }
        _ => file.truncate(at),
    }
}
