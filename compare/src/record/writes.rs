//! Programs written, with the pool table and the output that are left.

use super::{Files, Quotas, starts_of, u16_of, words_of};
use crate::compare::domain::rust_write;
use crate::document::{self, BYTE_LIMIT, Write};
use crate::inputs::programs::{self, Draw};
use crate::inputs::tables::{self, Held};
use crate::random::Random;

/// Larger stores, tables and outputs are not recorded.
const LONGEST: usize = 300;

/// So many records of each answer.
const WRITES: Quotas = Quotas {
    accepted: 220,
    refused: 60,
    numbers: &[17, 17, 17, 18, 21, 25],
};

/// Draws programs and loans until there are enough of each answer.
pub fn writes(seed: u64) -> Files {
    let mut random = Random::new(seed);
    let mut files = Files::new("write");
    let mut left = WRITES.left();
    while !left.is_empty() {
        let held = drawn(&mut random);
        let sized = document::write(&held.program(), 4 * held.rows.len() + 2, BYTE_LIMIT);
        let pool_words = about(&mut random, 2 * sized.strings);
        let room = about(&mut random, sized.bytes.len());
        if held.store.len() <= LONGEST && held.rows.len() <= LONGEST && held.spans.len() <= LONGEST
        {
            let write = document::write(&held.program(), pool_words, room);
            if left.take(write.fields()[0]) {
                add(&mut files, &held, pool_words, room, &write);
            }
        }
    }
    files
}

/// A sound program on which the Rust agrees, three times out of five with its tables damaged.
fn drawn(random: &mut Random) -> Held {
    let draw = Draw {
        size: random.pick(&[1, 2, 4, 8]),
        flaws: 0,
        few_keys: random.once_in(2),
    };
    let program = programs::program(random, draw);
    let mut held = tables::tables(random, &program);
    if draw.few_keys {
        let write = document::write(&held.program(), 4 * held.rows.len() + 2, BYTE_LIMIT);
        let ours = match write.answer {
            Ok(_) => Ok(write.bytes),
            Err((number, _)) => Err(number),
        };
        assert!(ours == rust_write(&program), "the Rust writes otherwise");
    }
    for _ in 0..random.below(5) / 2 {
        tables::damage(random, &mut held);
    }
    held
}

fn about(random: &mut Random, needed: usize) -> usize {
    match random.below(8) {
        0 => needed.saturating_sub(1),
        1 => random.below(needed + 1),
        _ => needed + random.below(10),
    }
}

fn add(files: &mut Files, held: &Held, pool_words: usize, room: usize, write: &Write) {
    files.add(&[
        &u16_of(held.store.len()),
        &u16_of(held.rows.len()),
        &u16_of(held.spans.len()),
        &u16_of(held.starts.len()),
        &u16_of(pool_words),
        &u16_of(room),
        &words_of(&held.counts.words()),
        &held.store,
        &words_of(&held.rows),
        &words_of(&held.spans),
        &starts_of(&held.starts),
        &words_of(&write.fields()),
        &words_of(&write.pool),
        &write.bytes,
    ]);
}
