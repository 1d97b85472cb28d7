//! The compared domain of document 01, and the Rust's answers on it.

use crate::document::Reading;
use crate::inputs::programs::NAME_LISTS;
use crate::messages::refusal;
use original::native::Module;
use original::tree::{self, Program, Row};
use std::panic::{AssertUnwindSafe, catch_unwind};

/// The Rust makes room for a count before it reads on: above so many entries it is not asked.
pub const COUNT_LIMIT: u64 = 65_536;

/// Whether the Rust is asked to read a payload: keys are distinct, the depth is at most 32, running sums are in signed 64 bits,
/// the tables are large enough, and the Rust has room for each count.
pub fn is_compared(reading: &Reading, count_limit: u64) -> bool {
    let beyond = |(number, _)| matches!(number, 8 | 10 | 15 | 16 | 21..=24);
    !reading.answer.is_err_and(beyond) && reading.greatest_count <= count_limit
}

/// Bytes consumed and the program, or the number of the refusal.
pub fn rust_read(payload: &[u8], natives: &Module) -> Result<(u64, Program), u64> {
    let number = |message: String| refusal(&message);
    let (chunk, lines) = original::deserialize_payload(payload, natives).map_err(number)?;
    let consumed = original::consumed(payload, natives).map_err(number)?;
    Ok((consumed as u64, tree::program(&chunk, lines.as_ref())))
}

/// The Rust's writing of a program; it panics exactly where a record's name is not gathered, which is 18 here.
pub fn rust_write(program: &Program) -> Result<Vec<u8>, u64> {
    let (chunk, lines) = original::from_tree::program(program);
    let write = AssertUnwindSafe(|| original::serialize_payload(&chunk, lines.as_ref()));
    catch_unwind(write).map_err(|_| 18)
}

/// What the Rust's reading and writing say of a payload, where it is asked and no set or map has two entries. A position
/// above 2^63 - 1 is not sound, while the Rust writes it.
pub fn rust_check(payload: &[u8], natives: &Module, reading: &Reading) -> Option<u64> {
    if !is_compared(reading, COUNT_LIMIT) {
        return None;
    }
    match rust_read(payload, natives) {
        Err(number) => Some(number),
        Ok((_, program)) if !is_ordered(&program.chunk) => None,
        Ok((_, program)) => match rust_write(&program) {
            Ok(written) if written == payload && has_sound_positions(&program.chunk) => Some(0),
            _ => Some(19),
        },
    }
}

/// Whether no set or map has two entries.
fn is_ordered(row: &Row) -> bool {
    let entries = match row.tag {
        14 | 15 => row.words[0],
        _ => 0,
    };
    entries < 2 && row.below.iter().all(is_ordered)
}

fn has_sound_positions(row: &Row) -> bool {
    let positions = row.spans.iter().flat_map(|&(start, end)| [start, end]);
    positions.max().unwrap_or(0) <= i64::MAX as u64 && row.below.iter().all(has_sound_positions)
}

/// The natives of each names list, every one under its own name.
pub fn natives() -> Vec<Module> {
    let lists = NAME_LISTS.iter();
    lists
        .map(|(_, names)| Module::of_names(names.iter().copied()))
        .collect()
}
