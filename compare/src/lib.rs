//! Comparison and measurement of the port against the Rust, for the programs of `src/bin`.

pub mod arguments;
pub mod compare;
pub mod document;
pub mod inputs;
pub mod layout;
pub mod measure;
pub mod messages;
pub mod ours;
pub mod random;
pub mod record;
pub mod tally;
pub mod threads;
