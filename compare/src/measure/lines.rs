//! Line starts of a text, and line and column of offsets.

use super::measure;
use crate::inputs::texts::{Script, text};
use crate::random::Random;
use original::LineIndex;
use std::hint::black_box;

const TEXT: usize = 1_000_000;
const LINE: usize = 40;
const QUERIES: usize = 64;

/// The table is as long as the text needs.
pub fn indexing(seed: u64) {
    let text = lines(&mut Random::new(seed));
    let original = LineIndex::new("", &text);
    let mut starts = vec![0; original.line_starts().len()];
    let mut answer = [0; 2];
    assert_eq!(
        port::rlc2_line_starts(text.as_bytes(), &mut starts, &mut answer),
        0
    );
    assert_eq!(starts, original.line_starts());
    measure(
        &format!("line starts of {TEXT} bytes, {} lines", starts.len()),
        || {
            black_box(port::rlc2_line_starts(
                black_box(text.as_bytes()),
                &mut starts,
                &mut answer,
            ));
        },
        || {
            black_box(LineIndex::new("", black_box(&text)));
        },
    );
}

/// Lines of Latin text of up to twice the likely length.
fn lines(random: &mut Random) -> String {
    let mut whole = String::with_capacity(TEXT);
    while whole.len() < TEXT {
        let length = random.below(2 * LINE).min(TEXT - whole.len() - 1);
        whole += &text(random, Script::Latin, length);
        whole.push('\n');
    }
    whole
}

pub fn finding(seed: u64) {
    let mut random = Random::new(seed);
    for count in [4, 512, 4096] {
        let starts: Vec<u32> = (0..count).map(|line| line * LINE as u32).collect();
        let offsets: Vec<u64> = (0..QUERIES)
            .map(|_| random.below(LINE * starts.len()) as u64)
            .collect();
        let index = LineIndex::from_raw("", starts.clone());
        let mut answer = [0; 4];
        measure(
            &format!("{QUERIES} line queries, {count} starts"),
            || {
                for &offset in &offsets {
                    black_box(port::rlc2_line_col(black_box(&starts), offset, &mut answer));
                }
            },
            || {
                for &offset in &offsets {
                    black_box(index.line_col(black_box(offset as usize)));
                }
            },
        );
    }
}
