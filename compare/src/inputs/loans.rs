//! How many words of each table are lent.

use crate::document::{Loan, ROW_LIMIT};
use crate::random::Random;

/// Enough for any payload of this length: an entry takes at least one byte of it, and there is an outer chunk.
pub fn ample(random: &mut Random, length: usize) -> Loan {
    let entries = length.min(ROW_LIMIT) + 1;
    Loan {
        rows: 5 * entries + random.below(6),
        spans: 2 * length + random.below(3),
        starts: entries + random.below(3),
        pool: 2 * entries + random.below(3),
    }
}

/// Tables of about the size that is needed, or of any small size; the fields are those of a read with enough.
pub fn small(random: &mut Random, fields: &[u64; 9]) -> Loan {
    let [_, _, rows, spans, starts, strings, ..] = *fields;
    Loan {
        rows: about(random, 5 * rows as usize),
        spans: about(random, 2 * spans as usize),
        starts: about(random, starts as usize),
        pool: about(random, 2 * strings as usize),
    }
}

/// Mostly enough, so that one table alone is often the one that is full.
fn about(random: &mut Random, needed: usize) -> usize {
    match random.below(8) {
        0 => random.below(24),
        1 => needed.saturating_sub(1 + random.below(6)),
        2 => needed,
        _ => needed + random.below(40),
    }
}
