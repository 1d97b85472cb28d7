//! Safe calls of the RLC2 payload library: read, write and check a surtitle player's acts.
//!
//! The work is done by three static libraries that are written in Rattle and proved: every call, on every input, gives
//! an accepted result or a numbered [`Refusal`] with its place. No call panics, and none needs memory of its own.
//!
//! | to | with tables that the caller lends | with tables that grow |
//! |---|---|---|
//! | read a payload | [`deserialize`] | [`Tables::deserialize`] |
//! | check that it is what the writer writes | [`house_check`], [`house_check_own_tables`] | [`Tables::house_check`] |
//! | write a program | [`serialize`] | [`Program::to_payload`] |
//! | find lines | [`line_starts`], [`line_col`] | |
//! | test text, read a number | [`is_utf8`], [`uvarint`] | |
//!
//! [`calls`] has the calls as the libraries export them, with answers in lent words.
//!
//! ```
//! let payload = [1, 2, b'H', b'i', 1, 0, 1, 0, 10, 1, 1, 6, 0, 1, 0, 1, 0];
//! let mut tables = rlc2::Tables::new();
//! let read = tables.house_check(&payload, b"")?;
//! for node in read.program.walk() {
//!     println!("{:indent$}{}", "", rlc2::tag_name(node.row[0]), indent = 2 * node.level);
//! }
//! # Ok::<(), rlc2::Refusal>(())
//! ```
#![deny(missing_docs)]
#![deny(unsafe_code)]

mod bytes;
pub mod calls;
mod lines;
mod program;
mod read;
mod refusal;
mod tables;
mod walk;
mod write;

pub use bytes::{Uvarint, is_utf8, uvarint};
pub use lines::{LineCol, line_col, line_count, line_starts};
pub use program::{LineIndex, Program};
pub use read::{Read, deserialize, house_check, house_check_own_tables};
pub use refusal::{Refusal, RefusalNumber};
pub use tables::{BYTE_LIMIT, Loan, Part, Row, Sizes, Span, Tables};
pub use walk::{Node, Role, Walk, tag_name};
pub use write::serialize;

/// The examples of the project's README.md are compiled and run with the tests.
#[cfg(doctest)]
#[doc = include_str!("../../README.md")]
struct ProjectReadme;
