//! The port's calls: those of the libraries that a player links, and the varint calls of `libhost_leaves.a`, which are
//! for comparison and measurement only.

pub use rlc2::calls::*;

rlc2::foreign_calls! {
    unsafe extern "C" {
        /// Reads the number at `at`: returns the refusal or 0; the answer's words are value, next and place.
        pub safe fn rlc2_uvarint_at(bytes: &[u8], at: usize, answer: &mut [u64]) -> u64;

        /// Returns the place after the number written at `at`; 0, and nothing written, where it does not fit.
        pub safe fn rlc2_write_uvarint(out: &mut [u8], at: usize, number: u64) -> usize;

        /// Returns how many bytes the number is written in.
        pub safe fn rlc2_uvarint_width(number: u64) -> usize;

        /// Returns the word that a signed number is written as.
        pub safe fn rlc2_zigzag(value: i64) -> u64;

        /// Returns the signed number that is written as the word.
        pub safe fn rlc2_unzigzag(word: u64) -> i64;

        /// Reads until the bytes end, a refusal or `numbers` is full; returns how many were read.
        pub safe fn rlc2_read_all(bytes: &[u8], numbers: &mut [u64]) -> usize;

        /// Writes up to the first number that does not fit; returns how many bytes were written.
        pub safe fn rlc2_write_all(numbers: &[u64], out: &mut [u8]) -> usize;
    }
}
