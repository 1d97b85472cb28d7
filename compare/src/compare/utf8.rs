//! The test for UTF-8, against the standard library's.

use crate::inputs::utf8;
use crate::tally::{Tally, hex};
use std::str::from_utf8;

/// So many of the last bytes of an input are shown.
const SHOWN: usize = 200;

pub fn is_utf8(seed: u64) -> Tally {
    let mut tally = Tally::new("rlc2_is_utf8, the standard library's from_utf8");
    utf8::all(seed, |bytes| {
        let expected = u64::from(from_utf8(bytes).is_ok());
        let from = bytes.len().saturating_sub(SHOWN);
        tally.same(port::rlc2_is_utf8(bytes), expected, || {
            format!(
                "{} bytes, from {from}: {}",
                bytes.len(),
                hex(&bytes[from..])
            )
        });
    });
    tally
}
