//! Line and column of an offset.

use crate::document::{self, START_LIMIT, answered};
use crate::inputs::lines;
use crate::random::Random;
use crate::tally::Tally;
use original::LineIndex;

const TABLES: usize = 100_000;
const OFFSETS: usize = 8;

/// Rising starts against the Rust, the empty table and one above the limit of a table among them.
pub fn offsets(seed: u64) -> Tally {
    let mut tally = Tally::new("rlc2_line_col, the Rust's line_col");
    let mut random = Random::new(seed);
    for table in 0..TABLES {
        let most = if table % 500 == 0 { 5_000 } else { 40 };
        let starts = lines::rising(&mut random, most);
        against_rust(&mut tally, &mut random, starts);
    }
    against_rust(
        &mut tally,
        &mut random,
        (0..START_LIMIT as u32 + 5).collect(),
    );
    tally
}

fn against_rust(tally: &mut Tally, random: &mut Random, starts: Vec<u32>) {
    let index = LineIndex::from_raw("", starts);
    let starts = index.line_starts();
    for _ in 0..OFFSETS {
        let offset = lines::offset(random, starts);
        let mut answer = [0; 4];
        let number = port::rlc2_line_col(starts, offset, &mut answer);
        let (line, column) = index.line_col(offset as usize);
        let ours = (number, answer[2] as usize, answer[3] as usize);
        tally.same(ours, (0, line, column), || described(starts, offset));
    }
}

/// Starts that may fail to rise, and any answer, by document 01: 20, and words that stay.
pub fn answers(seed: u64) -> Tally {
    let mut tally = Tally::new("rlc2_line_col, answer by document 01");
    let mut random = Random::new(seed);
    for _ in 0..TABLES * OFFSETS {
        let mut starts = lines::rising(&mut random, 40);
        for _ in 0..random.below(3) {
            disturb(&mut random, &mut starts);
        }
        let offset = lines::offset(&mut random, &starts);
        let lent = random.some_words(7);
        let mut answer = lent.clone();
        let number = port::rlc2_line_col(&starts, offset, &mut answer);
        let (expected, fields) = match document::line_col(&starts, offset) {
            Ok((line, column)) => (0, [0, 0, line, column]),
            Err((number, place)) => (number, [number, place as u64, 0, 0]),
        };
        tally.same(
            (number, answer),
            (expected, answered(&lent, &fields)),
            || {
                format!(
                    "{}, answer of {} words",
                    described(&starts, offset),
                    lent.len()
                )
            },
        );
    }
    tally
}

/// Puts a copy of one start, or any number, into the place of another.
fn disturb(random: &mut Random, starts: &mut [u32]) {
    if !starts.is_empty() {
        let place = random.below(starts.len());
        starts[place] = match random.below(3) {
            0 => random.draw() as u32,
            _ => random.pick(starts),
        };
    }
}

fn described(starts: &[u32], offset: u64) -> String {
    let bytes: Vec<String> = starts.iter().map(|start| format!("{start:X}")).collect();
    format!("starts [{}], offset {offset:X}", bytes.join(" "))
}
