//! Byte strings to be read as varints.

use super::{damage, every_string};
use crate::random::Random;
use original::write_uvarint;

const RANDOM_INPUTS: usize = 700_000;

/// Every string of up to three bytes, those around the limit of ten, and three random kinds.
pub fn all(seed: u64, mut each: impl FnMut(&[u8])) {
    let mut random = Random::new(seed);
    every_string(3, &mut each);
    around_limit(&mut random, 200, &mut each);
    for _ in 0..RANDOM_INPUTS {
        each(&padded(&mut random));
        each(&damaged(&mut random));
        each(&continued(&mut random));
    }
}

/// Strings of 8 to 11 bytes in which all but the last have bit 7 set, and the last is any byte.
pub fn around_limit(random: &mut Random, fillings: usize, each: &mut impl FnMut(&[u8])) {
    for length in 8..=11 {
        for filling in 0..fillings {
            let mut bytes = match filling {
                0 => vec![0x80; length],
                1 => vec![0xFF; length],
                _ => random
                    .bytes(length)
                    .iter()
                    .map(|byte| byte | 0x80)
                    .collect(),
            };
            for last in 0..=255 {
                bytes[length - 1] = last;
                each(&bytes);
            }
        }
    }
}

/// A number written in up to ten bytes more than it needs.
pub fn padded(random: &mut Random) -> Vec<u8> {
    let mut bytes = Vec::new();
    write_uvarint(random.number(), &mut bytes);
    for _ in 0..random.below(11) {
        if let Some(last) = bytes.last_mut() {
            *last |= 0x80;
        }
        bytes.push(0);
    }
    bytes
}

/// A padded number with something behind it and a change in it.
pub fn damaged(random: &mut Random) -> Vec<u8> {
    let mut bytes = padded(random);
    bytes.extend(random.some_bytes(3));
    damage(random, &mut bytes);
    bytes
}

/// Random bytes, most of them with bit 7 set.
pub fn continued(random: &mut Random) -> Vec<u8> {
    let mut bytes = vec![0; random.below(16)];
    for byte in &mut bytes {
        *byte = random.byte();
        if !random.once_in(8) {
            *byte |= 0x80;
        }
    }
    bytes
}
