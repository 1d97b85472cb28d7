//! Programs in tables: sound ones wherever their parts stand, and damaged ones.

use crate::document::{Counts, Part, Program};
use crate::random::Random;
use original::tree;

/// A program with the tables that hold it, which may be longer than it.
#[derive(Debug, Clone, Default)]
pub struct Held {
    pub store: Vec<u8>,
    pub counts: Counts,
    pub rows: Vec<u64>,
    pub spans: Vec<u64>,
    pub starts: Vec<u32>,
}

impl Held {
    pub fn program(&self) -> Program<'_> {
        Program {
            store: &self.store,
            counts: self.counts,
            rows: &self.rows,
            spans: &self.spans,
            starts: &self.starts,
        }
    }
}

/// The program in tables of exactly its length; equal parts stand at one place or at several.
pub fn tables(random: &mut Random, program: &tree::Program) -> Held {
    let mut held = Held {
        store: random.some_bytes(4),
        ..Held::default()
    };
    add_row(random, &mut held, &program.chunk);
    if let Some((name, starts)) = &program.line_index {
        held.counts.line_flag = 1;
        held.counts.name = place(random, &mut held.store, name);
        held.starts = starts.clone();
    }
    held.store.extend(random.some_bytes(3));
    held.counts.rows = held.rows.len() as u64 / 5;
    held.counts.spans = held.spans.len() as u64 / 2;
    held.counts.starts = held.starts.len() as u64;
    held
}

fn add_row(random: &mut Random, held: &mut Held, row: &tree::Row) {
    let end = held.rows.len() + 5;
    held.rows.push(row.tag);
    for part in &row.parts {
        let (offset, length) = place(random, &mut held.store, part);
        held.rows.extend([offset, length]);
    }
    held.rows.extend(&row.words);
    held.rows.resize(end, 0);
    held.spans
        .extend(row.spans.iter().flat_map(|&(start, end)| [start, end]));
    for below in &row.below {
        add_row(random, held, below);
    }
}

/// A place for a part: often one where its bytes stand already, else at the end.
fn place(random: &mut Random, store: &mut Vec<u8>, bytes: &[u8]) -> Part {
    let length = bytes.len() as u64;
    if bytes.is_empty() {
        return (random.below(store.len() + 1) as u64, 0);
    }
    let found = match random.once_in(3) {
        true => None,
        false => store.windows(bytes.len()).position(|part| part == bytes),
    };
    match found {
        Some(offset) => (offset as u64, length),
        None => {
            store.extend(bytes);
            ((store.len() - bytes.len()) as u64, length)
        }
    }
}

/// Words beside the limits that rows have.
const WORDS: [u64; 16] = [
    0,
    1,
    2,
    5,
    6,
    32,
    33,
    0xFF,
    0x100,
    0xD800,
    0xFFFF,
    0x11_0000,
    1 << 32,
    i64::MAX as u64,
    1 << 63,
    u64::MAX,
];

fn word(random: &mut Random, before: u64) -> u64 {
    match random.below(5) {
        0 => random.pick(&WORDS),
        1 => before.wrapping_add(1),
        2 => before.wrapping_sub(1),
        3 => before ^ 1 << random.below(64),
        _ => random.below(34) as u64,
    }
}

/// One change to a word, a row, a count, the store or the line index.
pub fn damage(random: &mut Random, held: &mut Held) {
    match random.below(12) {
        0..4 => damage_word(random, &mut held.rows),
        4 => damage_word(random, &mut held.spans),
        5 => {
            let counts = &mut held.counts;
            match random.below(6) {
                0 => counts.rows = word(random, counts.rows),
                1 => counts.spans = word(random, counts.spans),
                2 => counts.starts = word(random, counts.starts),
                3 => counts.line_flag = word(random, counts.line_flag),
                4 => counts.name.0 = word(random, counts.name.0),
                _ => counts.name.1 = word(random, counts.name.1),
            }
        }
        6 => super::damage(random, &mut held.store),
        7 => held.store.truncate(random.below(held.store.len() + 1)),
        8 => copy_row(random, held),
        9 => insert_row(random, held),
        10 => remove_row(random, held),
        _ => lengthen(random, held),
    }
}

fn damage_word(random: &mut Random, words: &mut [u64]) {
    if !words.is_empty() {
        let place = random.below(words.len());
        words[place] = word(random, words[place]);
    }
}

fn some_row(random: &mut Random, held: &Held) -> usize {
    5 * random.below(held.rows.len() / 5)
}

/// Puts one row in place of another.
fn copy_row(random: &mut Random, held: &mut Held) {
    let (from, to) = (some_row(random, held), some_row(random, held));
    held.rows.copy_within(from..from + 5, to);
}

/// Puts a copy of a row before another, and counts it or not.
fn insert_row(random: &mut Random, held: &mut Held) {
    let (from, to) = (some_row(random, held), some_row(random, held));
    let row = held.rows[from..from + 5].to_vec();
    held.rows.splice(to..to, row);
    held.counts.rows += random.below(2) as u64;
}

fn remove_row(random: &mut Random, held: &mut Held) {
    if held.rows.len() > 5 {
        let row = some_row(random, held);
        held.rows.drain(row..row + 5);
        held.counts.rows -= random.below(2) as u64;
    }
}

/// Makes the tables longer than the program, also by part of an entry, or a little too short.
pub fn lengthen(random: &mut Random, held: &mut Held) {
    let other = |random: &mut Random, length: usize| match random.below(4) {
        0 => length.saturating_sub(1 + random.below(5)),
        _ => length + random.below(8),
    };
    held.rows
        .resize(other(random, held.rows.len()).max(5), random.draw());
    held.spans
        .resize(other(random, held.spans.len()), random.draw());
    held.starts
        .resize(other(random, held.starts.len()), random.draw() as u32);
}
