//! Inputs for comparing, measuring and recording; random ones come from a seeded generator.

pub mod lines;
pub mod loads;
pub mod loans;
pub mod natives;
pub mod numbers;
pub mod payloads;
pub mod pools;
pub mod programs;
pub mod tables;
pub mod texts;
pub mod utf8;
pub mod varints;

use crate::random::Random;

/// Every byte string of at most `longest` bytes.
pub fn every_string(longest: usize, each: &mut impl FnMut(&[u8])) {
    for length in 0..=longest {
        for number in 0..1u64 << (8 * length) {
            each(&number.to_le_bytes()[..length]);
        }
    }
}

/// One change at a random place: a bit, a byte, a byte more, a byte less, or the end cut off.
pub fn damage(random: &mut Random, bytes: &mut Vec<u8>) {
    if bytes.is_empty() {
        return bytes.push(random.byte());
    }
    let place = random.below(bytes.len());
    match random.below(5) {
        0 => bytes[place] ^= 1 << random.below(8),
        1 => bytes[place] = random.byte(),
        2 => bytes.insert(place, random.byte()),
        3 => drop(bytes.remove(place)),
        _ => bytes.truncate(place),
    }
}
