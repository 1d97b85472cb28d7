//! Texts with line feeds, and tables of line starts.

use super::texts;
use crate::random::Random;

/// A text of at most `longest` bytes, cut into lines of some likely length.
pub fn text(random: &mut Random, longest: usize) -> String {
    let length = random.below(longest + 1);
    let mut text = String::with_capacity(length);
    let likely = random.pick(&[0, 1, 3, 12, 60, 400]);
    while text.len() < length {
        let line = random.below(2 * likely + 1).min(length - text.len() - 1);
        text += &texts::mixed(random, line);
        text.push('\n');
    }
    if random.once_in(2) {
        text.pop();
    }
    text
}

/// Bytes of which one in `odds` is a line feed.
pub fn bytes(random: &mut Random, length: usize, odds: usize) -> Vec<u8> {
    let mut bytes = random.bytes(length);
    for byte in &mut bytes {
        if random.once_in(odds) {
            *byte = b'\n';
        }
    }
    bytes
}

/// At most `most` starts, each above the one before.
pub fn rising(random: &mut Random, most: usize) -> Vec<u32> {
    let count = random.below(most + 1);
    let step = random.pick(&[1, 2, 40, 100_000, u32::MAX as usize]);
    let mut starts = Vec::with_capacity(count);
    let mut next = if random.once_in(3) {
        random.below(step)
    } else {
        0
    };
    while starts.len() < count && next <= u32::MAX as usize {
        starts.push(next as u32);
        next += 1 + random.below(step);
    }
    starts
}

/// An offset beside a start, at an end of 32 bits, or anywhere; one in four has higher bits set.
pub fn offset(random: &mut Random, starts: &[u32]) -> u64 {
    let near = match random.below(6) {
        0 => random.draw() >> 32,
        1 => random.pick(&[0, 1, u64::from(u32::MAX) - 1, u64::from(u32::MAX)]),
        _ if starts.is_empty() => random.number(),
        _ => u64::from(random.pick(starts)).wrapping_add(random.pick(&[0, 1, u64::MAX, 7])),
    };
    match random.below(4) {
        0 => near.wrapping_add(random.draw() << 32),
        _ => near,
    }
}
