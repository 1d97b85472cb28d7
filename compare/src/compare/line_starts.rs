//! The line starts of a text.

use crate::document::{self, BYTE_LIMIT, START_LIMIT, answered};
use crate::inputs::lines;
use crate::random::Random;
use crate::tally::{Tally, hex};
use original::LineIndex;

const RANDOM_INPUTS: usize = 150_000;

/// Texts with a table that is long enough, against the Rust.
pub fn texts(seed: u64) -> Tally {
    let mut tally = Tally::new("rlc2_line_starts, the Rust's LineIndex::new");
    let mut random = Random::new(seed);
    let mut starts = vec![0; START_LIMIT];
    for input in 0..RANDOM_INPUTS {
        let longest = if input % 5_000 == 0 { 1_000_000 } else { 400 };
        let text = lines::text(&mut random, longest);
        let expected = LineIndex::new("", &text);
        let room = expected.line_starts().len() + random.below(3);
        let mut answer = [0; 2];
        let number = port::rlc2_line_starts(text.as_bytes(), &mut starts[..room], &mut answer);
        let used = &starts[..room.min(answer[1] as usize)];
        tally.same((number, used), (0, expected.line_starts()), || {
            hex(text.as_bytes())
        });
    }
    tally
}

/// Any bytes, table and answer, by document 01: 24, zeros, and words that stay.
pub fn tables(seed: u64) -> Tally {
    let mut tally = Tally::new("rlc2_line_starts, tables by document 01");
    let mut random = Random::new(seed);
    for _ in 0..RANDOM_INPUTS {
        let length = random.below(200);
        let odds = random.pick(&[1, 2, 4, 20, 200]);
        let text = lines::bytes(&mut random, length, odds);
        let room = match random.below(3) {
            0 => random.below(4),
            _ => random.below(1 + 2 * length / odds),
        };
        compare(&mut tally, &mut random, &text, room);
    }
    tally
}

/// The limits of a text and of a table, by document 01: 16, and 24 in a table that is longer.
pub fn limits() -> Tally {
    let mut tally = Tally::new("rlc2_line_starts, limits by document 01");
    let mut random = Random::new(0);
    let feeds = vec![b'\n'; BYTE_LIMIT + 1];
    for length in [START_LIMIT - 2, START_LIMIT - 1, START_LIMIT, BYTE_LIMIT] {
        for room in [START_LIMIT - 1, START_LIMIT, START_LIMIT + 9] {
            compare(&mut tally, &mut random, &feeds[..length], room);
        }
    }
    let one_line = vec![b'a'; BYTE_LIMIT + 1];
    for length in [BYTE_LIMIT - 1, BYTE_LIMIT, BYTE_LIMIT + 1] {
        for room in [0, 1, 2] {
            compare(&mut tally, &mut random, &one_line[..length], room);
        }
    }
    tally
}

fn compare(tally: &mut Tally, random: &mut Random, text: &[u8], room: usize) {
    let mut starts = vec![random.draw() as u32; room];
    let lent = random.some_words(5);
    let mut answer = lent.clone();
    let number = port::rlc2_line_starts(text, &mut starts, &mut answer);
    let (expected, word, table) = match document::line_starts(text, room) {
        Ok((count, table)) => (0, count, table),
        Err((number, place)) => (number, place, vec![0; room]),
    };
    let words = answered(&lent, &[expected, word as u64]);
    tally.same((number, answer, starts), (expected, words, table), || {
        format!(
            "room for {room}, answer of {} words, text {}",
            lent.len(),
            hex(text)
        )
    });
}
