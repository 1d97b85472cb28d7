//! Byte strings tested for UTF-8.

use super::{Records, u16_of};
use crate::inputs::utf8;
use crate::random::Random;
use std::str::from_utf8;

const RANDOM_INPUTS: usize = 40;

pub fn tested(seed: u64) -> Records {
    let mut random = Random::new(seed);
    let mut inputs = utf8::edges();
    for _ in 0..RANDOM_INPUTS {
        inputs.push(utf8::damaged(&mut random));
        inputs.push(utf8::likely(&mut random));
    }
    let mut records = Records::new("utf8.bin");
    for bytes in inputs {
        let valid = u8::from(from_utf8(&bytes).is_ok());
        records.add(&[&u16_of(bytes.len()), &bytes, &[valid]]);
    }
    records
}
