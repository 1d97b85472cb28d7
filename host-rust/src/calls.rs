//! The calls as the static libraries export them; the rest of this crate stands above them.
//!
//! A call returns the refusal's number or 0 unless it says otherwise, and puts its fields into the first words of the
//! lent `answer`; an answer that is too short for all of them is left as it was. A row has five words, a span and a
//! string of the pool two.
//!
//! Every call is proved to be total, to read and write within the slices it is lent, and to keep none of them; no call
//! asks anything of its caller. What is left to Rust is that pointers and lengths belong together, and that no slice
//! which is written to is lent twice: `foreign_calls!` takes both from slices of Rust, for which that holds. It is the
//! only unsafe code of this crate.
#![allow(unsafe_code)]

/// Declares functions of a static library that take each slice as a pointer and a length, and makes a safe function of
/// each. Whoever writes the `unsafe extern` says that the library has them so.
#[doc(hidden)]
#[macro_export]
macro_rules! foreign_calls {
    (unsafe extern "C" {$(
        $(#[$attribute:meta])*
        pub safe fn $name:ident($(
            $argument:ident: $(&[$read:ty])? $(&mut [$written:ty])? $($word:ident)?
        ),* $(,)?) -> $returned:ty;
    )*}) => {$(
        $(#[$attribute])*
        pub fn $name($(
            $argument: $(&[$read])? $(&mut [$written])? $($word)?
        ),*) -> $returned {
            unsafe extern "C" {
                fn $name($(
                    $argument: $(*const $read, _: usize)? $(*mut $written, _: usize)? $($word)?
                ),*) -> $returned;
            }
            // SAFETY: pointers and lengths are those of slices that live through the call; what it writes to is lent
            // to it alone.
            unsafe {
                $name($(
                    $(<[$read]>::as_ptr($argument), $argument.len())?
                    $(<[$written]>::as_mut_ptr($argument), $argument.len())?
                    $($argument as $word)?
                ),*)
            }
        }
    )*};
}

/// [`rlc2_deserialize`] or [`rlc2_house_check_tables`].
pub type ReadCall =
    fn(&[u8], &[u8], &mut [u64], &mut [u64], &mut [u32], &mut [u64], &mut [u64]) -> u64;

// Of libhost.a.
foreign_calls! {
    unsafe extern "C" {
        /// Returns 1 for UTF-8, else 0.
        pub safe fn rlc2_is_utf8(bytes: &[u8]) -> u64;

        /// Returns the bytes used, and puts the number little-endian into the first eight bytes of `number`; returns 0
        /// at a refusal, or where `number` is shorter.
        pub safe fn rlc2_uvarint(bytes: &[u8], number: &mut [u8]) -> usize;

        /// Checks that the payload is what the writer writes, with tables of its own
        /// ([`Sizes::OWN_TABLES`](crate::Sizes::OWN_TABLES)) and no answer.
        pub safe fn rlc2_house_check(payload: &[u8], names: &[u8]) -> u64;
    }
}

// Of libhost_tables.a.
foreign_calls! {
    unsafe extern "C" {
        /// Reads a payload into the lent tables; the fields are the number, bytes consumed or place, used rows, spans,
        /// starts and strings, line flag, and the name's offset and length.
        pub safe fn rlc2_deserialize(
            payload: &[u8], names: &[u8],
            rows: &mut [u64], spans: &mut [u64], starts: &mut [u32], pool: &mut [u64],
            answer: &mut [u64],
        ) -> u64;

        /// As [`rlc2_deserialize`]; refuses with 19 where the payload reads but is not what the writer writes.
        pub safe fn rlc2_house_check_tables(
            payload: &[u8], names: &[u8],
            rows: &mut [u64], spans: &mut [u64], starts: &mut [u32], pool: &mut [u64],
            answer: &mut [u64],
        ) -> u64;

        /// Writes a program into `out`; the fields are the number, and the length written or the place. The counts are
        /// the used rows, spans and starts, the line flag, and the name's offset and length.
        #[allow(clippy::too_many_arguments)]
        pub safe fn rlc2_serialize(
            store: &[u8], counts: &[u64],
            rows: &[u64], spans: &[u64], starts: &[u32], pool: &mut [u64],
            out: &mut [u8], answer: &mut [u64],
        ) -> u64;
    }
}

// Of libhost_lines.a.
foreign_calls! {
    unsafe extern "C" {
        /// Finds where the lines of a text start; the fields are the number, and the count or place.
        pub safe fn rlc2_line_starts(text: &[u8], starts: &mut [u32], answer: &mut [u64]) -> u64;

        /// Finds the line and column of an offset; the fields are the number, place, line and column.
        pub safe fn rlc2_line_col(starts: &[u32], offset: u64, answer: &mut [u64]) -> u64;
    }
}
