//! The Rust that the port is compared with, built unchanged from the source folder.
//!
//! `bytecode.rs`, `values.rs`, `chunk.rs` and `line_index.rs` come from there byte for byte (see
//! `build.rs`); `stand_ins.rs` holds what they use of the rest of their project, and `access.rs`
//! makes the private functions of `bytecode.rs` callable.

// The crates that the sources name are all this one.
extern crate self as rl_ast;
extern crate self as rl_std_core;
extern crate self as rl_utils;
extern crate self as zstd;

pub mod from_tree;
mod stand_ins;
pub mod tree;

include!(concat!(env!("OUT_DIR"), "/modules.rs"));

pub use bytecode::access::*;
pub use chunk::Chunk;
pub use line_index::LineIndex;
pub use stand_ins::{NativeHandle, decode_all, encode_all, native, runtime, span, statements};
pub use values::VmValue;

#[cfg(test)]
mod tests {
    use super::native::Module;
    use super::*;

    /// A program with strings, a native, a set of one, a closure, a record and a line index.
    const PAYLOAD: &[u8] = &[
        2, 1, b'a', 2, b'p', b'r', // pool: a, pr
        1, 9, 1, 4, 6, 1, // one byte of code with the span 2, 3
        6, // constants
        6, 0, 8, 1, 14, 1, 1, 3, // Str a, Native pr, Set of -2
        18, 7, 0, 2, 0, 0, 0, 5, 1, 26, 5,
        9, // Closure of Function a, capturing a file handle
        16, 0, 1, 1, 2, 0, 0, 0, 0, 0, 0, 0xF8, 0x7F, // Record a with field pr, a NaN
        0,    // Null
        1, 0, 2, 0, 8, // line index a: 0, 4
    ];

    #[test]
    fn a_payload_read_and_written_is_the_same() {
        let natives = Module::of_names(["pr"]);
        let (chunk, lines) = deserialize_payload(PAYLOAD, &natives).unwrap();
        assert_eq!(chunk.constants.len(), 6);
        assert_eq!(chunk.spans, [span::Span::new(2, 3)]);
        assert_eq!(serialize_payload(&chunk, lines.as_ref()), PAYLOAD);
    }

    #[test]
    fn a_name_that_is_not_registered_is_no_native() {
        let refusal = deserialize_payload(PAYLOAD, &Module::of_names(["p"])).unwrap_err();
        assert!(refusal.starts_with("unresolved native function 'pr'"));
    }

    #[test]
    fn a_chunk_file_is_the_magic_and_the_payload() {
        let natives = Module::of_names(["pr"]);
        let (chunk, lines) = deserialize_payload(PAYLOAD, &natives).unwrap();
        let file = bytecode::serialize_chunk(&chunk, lines.as_ref());
        assert_eq!(file, [b"RLZ3", PAYLOAD].concat());
        assert!(bytecode::deserialize_chunk(&file, &natives).is_ok());
    }
}
