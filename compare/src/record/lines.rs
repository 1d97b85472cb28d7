//! Line starts of texts, and line and column of offsets.

use super::{Records, starts_of, u16_of};
use crate::inputs::lines;
use crate::random::Random;
use original::LineIndex;

const TEXTS: usize = 60;
const TABLES: usize = 40;
const OFFSETS: usize = 4;

pub fn indexed(seed: u64) -> Records {
    let mut random = Random::new(seed);
    let mut records = Records::new("lines.bin");
    for number in 0..TEXTS {
        let text = lines::text(&mut random, 5 * number);
        let index = LineIndex::new("", &text);
        let starts = index.line_starts();
        records.add(&[
            &u16_of(text.len()),
            text.as_bytes(),
            &u16_of(starts.len()),
            &starts_of(starts),
        ]);
    }
    records
}

pub fn found(seed: u64) -> Records {
    let mut random = Random::new(seed);
    let mut records = Records::new("linecol.bin");
    for number in 0..TABLES {
        let index = LineIndex::from_raw("", lines::rising(&mut random, number));
        for _ in 0..OFFSETS {
            let offset = lines::offset(&mut random, index.line_starts());
            add_query(&mut records, &index, offset);
        }
    }
    records
}

fn add_query(records: &mut Records, index: &LineIndex, offset: u64) {
    let (line, column) = index.line_col(offset as usize);
    let starts = index.line_starts();
    records.add(&[
        &u16_of(starts.len()),
        &starts_of(starts),
        &offset.to_le_bytes(),
        &(line as u32).to_le_bytes(),
        &(column as u64).to_le_bytes(),
    ]);
}
