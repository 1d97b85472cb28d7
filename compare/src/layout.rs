//! Rows in tables as a tree of rows, which is what a program of the Rust is compared with.

use crate::document;
use original::tree::{Program, Row};

/// How many parts a row of this tag has; they stand before its other words.
pub fn part_count(tag: u64) -> usize {
    match tag {
        6 | 7 | 8 | 16 | 32 | 33 => 1,
        17 => 2,
        _ => 0,
    }
}

/// How many other words a row of this tag has.
fn word_count(tag: u64) -> usize {
    match tag {
        0 | 6 | 8..=11 | 17 | 33 => 0,
        18 | 26 => 2,
        _ => 1,
    }
}

/// The tree of a program that was read; sets and maps stand in one order, as in `original::tree`.
pub fn tree(program: &document::Program) -> Program {
    let mut walk = Walk {
        program,
        row: 0,
        span: 0,
    };
    let chunk = walk.next();
    let counts = &program.counts;
    let starts = &program.starts[..counts.starts as usize];
    let lines = (program.bytes(counts.name).to_vec(), starts.to_vec());
    Program {
        chunk,
        line_index: (counts.line_flag == 1).then_some(lines),
    }
}

struct Walk<'a> {
    program: &'a document::Program<'a>,
    row: usize,
    span: usize,
}

impl Walk<'_> {
    /// The next row with the rows below it.
    fn next(&mut self) -> Row {
        let [tag, rest @ ..] = self.program.row(self.row);
        self.row += 1;
        let (parts, rest) = rest.split_at(2 * part_count(tag));
        let parts: Vec<Vec<u8>> = parts
            .chunks(2)
            .map(|part| self.program.bytes((part[0], part[1])).to_vec())
            .collect();
        let words = rest[..word_count(tag)].to_vec();
        let spans = match tag {
            32 => self.spans(parts[0].len()),
            _ => vec![],
        };
        let below = self.below(tag, &words);
        Row {
            tag,
            words,
            parts,
            spans,
            below,
        }
    }

    fn spans(&mut self, count: usize) -> Vec<(u64, u64)> {
        let words = &self.program.spans[2 * self.span..][..2 * count];
        self.span += count;
        words.chunks(2).map(|span| (span[0], span[1])).collect()
    }

    fn below(&mut self, tag: u64, words: &[u64]) -> Vec<Row> {
        match tag {
            7 | 9..=11 | 33 => self.rows(1),
            12 | 13 | 16 | 32 => self.rows(words[0]),
            14 => {
                let mut keys = self.rows(words[0]);
                keys.sort();
                keys
            }
            15 => {
                let mut pairs: Vec<[Row; 2]> =
                    (0..words[0]).map(|_| [self.next(), self.next()]).collect();
                pairs.sort();
                pairs.into_iter().flatten().collect()
            }
            18 => self.rows(1 + words[1]),
            _ => vec![],
        }
    }

    fn rows(&mut self, count: u64) -> Vec<Row> {
        (0..count).map(|_| self.next()).collect()
    }
}
