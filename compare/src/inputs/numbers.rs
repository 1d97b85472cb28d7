//! Numbers to be written.

use crate::random::Random;

/// Each power of two with its neighbours: every width of a varint begins and ends at one of them.
pub fn edges() -> Vec<u64> {
    let around = |power: u64| [power.wrapping_sub(1), power, power + 1];
    let mut edges: Vec<u64> = (0..64).flat_map(|bit| around(1 << bit)).collect();
    edges.extend([u64::MAX - 1, u64::MAX]);
    edges
}

/// The edges, and random numbers by bit length.
pub fn all(seed: u64, count: usize, mut each: impl FnMut(u64)) {
    let mut random = Random::new(seed);
    edges().into_iter().for_each(&mut each);
    for _ in 0..count {
        each(random.number());
    }
}

/// Numbers whose varints take exactly `width` bytes.
pub fn of_width(random: &mut Random, width: usize, count: usize) -> Vec<u64> {
    let bits = (7 * width).min(64);
    let top = if width == 1 {
        0
    } else {
        1 << (7 * (width - 1))
    };
    (0..count)
        .map(|_| random.draw() >> (64 - bits) | top)
        .collect()
}
