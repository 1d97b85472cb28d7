//! Varints read and written.

use super::{Records, u8_of};
use crate::inputs::{numbers, varints};
use crate::messages::refusal;
use crate::random::Random;

const RANDOM_INPUTS: usize = 30;

/// The last of 8 to 11 bytes, and the byte that stands before it over and over.
const LASTS: [u8; 7] = [0x00, 0x01, 0x02, 0x7F, 0x80, 0x81, 0xFF];
const FILLERS: [u8; 2] = [0x80, 0xFF];

pub fn unsigned(seed: u64) -> Records {
    let mut records = Records::new("uvarint.bin");
    for bytes in inputs(seed) {
        let answer = original::uvarint(&bytes).map(|(value, used)| (value.to_le_bytes(), used));
        add_read(&mut records, &bytes, answer);
    }
    records
}

pub fn signed(seed: u64) -> Records {
    let mut records = Records::new("ivarint.bin");
    for bytes in inputs(seed) {
        let answer = original::ivarint(&bytes).map(|(value, used)| (value.to_le_bytes(), used));
        add_read(&mut records, &bytes, answer);
    }
    records
}

fn add_read(records: &mut Records, bytes: &[u8], answer: Result<([u8; 8], usize), String>) {
    let status = answer
        .as_ref()
        .err()
        .map_or(0, |message| refusal(message) as u8);
    let (value, used) = answer.unwrap_or_default();
    records.add(&[&u8_of(bytes.len()), bytes, &[status], &value, &u8_of(used)]);
}

pub fn written(seed: u64) -> Records {
    let mut records = Records::new("uwrite.bin");
    numbers::all(seed, RANDOM_INPUTS, |number| {
        let mut bytes = Vec::new();
        original::write_uvarint(number, &mut bytes);
        records.add(&[&number.to_le_bytes(), &u8_of(bytes.len()), &bytes]);
    });
    records
}

fn inputs(seed: u64) -> Vec<Vec<u8>> {
    let mut random = Random::new(seed);
    let mut inputs = vec![vec![], vec![0x80, 0x00], vec![0x80, 0x80, 0x80, 0x80, 0x10]];
    inputs.extend(width_edges());
    inputs.extend(around_limit());
    for _ in 0..RANDOM_INPUTS {
        inputs.push(varints::padded(&mut random));
        inputs.push(varints::damaged(&mut random));
        inputs.push(varints::continued(&mut random));
    }
    inputs
}

/// The least and the greatest number of each width.
fn width_edges() -> Vec<Vec<u8>> {
    let least = (0..10).map(|width| if width == 0 { 0 } else { 1u64 << (7 * width) });
    let greatest = (1..10)
        .map(|width| (1u64 << (7 * width)) - 1)
        .chain([u64::MAX]);
    let written = |number| {
        let mut bytes = Vec::new();
        original::write_uvarint(number, &mut bytes);
        bytes
    };
    least.chain(greatest).map(written).collect()
}

fn around_limit() -> Vec<Vec<u8>> {
    let mut inputs = Vec::new();
    for length in 8..=11 {
        for filler in FILLERS {
            for last in LASTS {
                let mut bytes = vec![filler; length];
                bytes[length - 1] = last;
                inputs.push(bytes);
            }
        }
    }
    inputs
}
