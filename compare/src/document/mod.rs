//! Document 01 as plain Rust, written from its text alone. What the Rust cannot say is compared with this.
//!
//! The readings that it takes where document 01 leaves a choice are those of docs/DECISIONS.md.

mod check;
mod leaves;
mod names;
mod read;
mod sound;
mod tables;
#[cfg(test)]
mod tests;
mod write;

pub use check::check;
pub use leaves::{answered, line_col, line_starts, uvarint_at};
pub use names::is_listed;
pub use read::{Reading, read};
pub use tables::{Counts, Loan, Part, Program, Row, Tables};
pub use write::{Write, write};

/// Above so many bytes a payload, text, store or writing is refused with 16.
pub const BYTE_LIMIT: usize = 16_777_216;

/// More rows, strings, starts or spans than this no table holds.
pub const ROW_LIMIT: usize = 1_048_576;
pub const STRING_LIMIT: usize = 1_048_576;
pub const START_LIMIT: usize = 1_048_576;
pub const SPAN_LIMIT: usize = 16_777_216;

/// The depth of the deepest value.
pub const DEPTH_LIMIT: u32 = 32;

/// A refusal: number and place.
pub type Refusal = (u64, usize);

/// The tags that a set element or map key may have.
fn is_key(tag: u64) -> bool {
    matches!(tag, 1 | 3..=6 | 19..=24)
}
