//! Byte strings to be tested for UTF-8.

use super::{damage, every_string, texts};
use crate::document::BYTE_LIMIT;
use crate::random::Random;

const RANDOM_INPUTS: usize = 700_000;

/// The ends of the ranges that RFC 3629 tells apart, and codes that it leaves out.
const CODES: [u32; 26] = [
    0, 1, 0x7F, 0x80, 0x7FF, 0x800, 0xFFF, 0x1000, 0xCFFF, 0xD000, 0xD7FF, 0xD800, 0xDBFF, 0xDC00,
    0xDFFF, 0xE000, 0xFFFF, 0x10000, 0x3FFFF, 0x40000, 0xFFFFF, 0x100000, 0x10FFFF, 0x110000,
    0x13FFFF, 0x1FFFFF,
];

/// First bytes of a character, one for each row of RFC 3629's table.
const FIRSTS: [u8; 8] = [b'a', 0xC2, 0xE0, 0xE1, 0xED, 0xEE, 0xF0, 0xF4];

/// Bytes at the ends of the ranges for a byte after the first.
const TAILS: [u8; 10] = [0x00, 0x7F, 0x80, 0x8F, 0x90, 0x9F, 0xA0, 0xBF, 0xC0, 0xFF];

/// Lengths about those of the blocks that a test may go by.
const LENGTHS: [usize; 6] = [16, 32, 48, 64, 128, 144];

/// All short strings, all forms of the codes at many places, texts with one byte changed, damaged texts and random bytes.
pub fn all(seed: u64, mut each: impl FnMut(&[u8])) {
    let mut random = Random::new(seed);
    every_string(3, &mut each);
    four_bytes(&mut each);
    for form in edges() {
        at_every_place(&form, &mut each);
    }
    one_byte_changed(&mut each);
    for _ in 0..RANDOM_INPUTS {
        each(&damaged(&mut random));
        each(&likely(&mut random));
    }
    long(&mut each);
}

/// Every two bytes from E0 on, and two of the ends of ranges behind them.
fn four_bytes(each: &mut impl FnMut(&[u8])) {
    for front in 0xE000..=0xFFFF_u16 {
        let [lead, second] = front.to_be_bytes();
        for third in TAILS {
            for fourth in TAILS {
                each(&[lead, second, third, fourth]);
            }
        }
    }
}

/// All forms of the codes.
pub fn edges() -> Vec<Vec<u8>> {
    CODES.iter().flat_map(|&code| forms(code)).collect()
}

/// The code in each number of bytes that can carry it, overlong ones included, and cut short.
fn forms(code: u32) -> Vec<Vec<u8>> {
    let mut forms = Vec::new();
    for (length, lead, bits) in [(1, 0, 7), (2, 0xC0, 11), (3, 0xE0, 16), (4, 0xF0, 21)] {
        if code >> bits == 0 {
            let mut bytes: Vec<u8> = (0..length)
                .rev()
                .map(|tail| 0x80 | (code >> (6 * tail) & 0x3F) as u8)
                .collect();
            bytes[0] = lead | (code >> (6 * (length - 1))) as u8;
            forms.extend((1..=bytes.len()).map(|cut| bytes[..cut].to_vec()));
        }
    }
    forms
}

/// The form with 0 to 68 bytes before it and some behind it, so that it meets the ends of blocks.
fn at_every_place(form: &[u8], each: &mut impl FnMut(&[u8])) {
    for filler in ["a", "é", "中", "😀"] {
        for before in 0..=68 {
            let front = before - before % filler.len();
            let mut bytes = filler.repeat(front / filler.len()).into_bytes();
            bytes.resize(before, b'.');
            bytes.extend(form);
            for behind in ["", "a", "ééééééé."] {
                let length = bytes.len();
                bytes.extend(behind.bytes());
                each(&bytes);
                bytes.truncate(length);
            }
        }
    }
}

/// Texts of the lengths, up to two bytes more or less, where each byte in turn is every byte.
fn one_byte_changed(each: &mut impl FnMut(&[u8])) {
    for filler in ["a", "é", "aé", "中", "😀"] {
        for length in LENGTHS.iter().flat_map(|about| about - 2..=about + 2) {
            let mut bytes = vec![b'.'; length % filler.len()];
            bytes.extend(filler.repeat(length / filler.len()).bytes());
            for place in 0..length {
                let unchanged = bytes[place];
                for byte in 0..=u8::MAX {
                    bytes[place] = byte;
                    each(&bytes);
                }
                bytes[place] = unchanged;
            }
        }
    }
}

/// A valid text, three times out of four with a change in it.
pub fn damaged(random: &mut Random) -> Vec<u8> {
    let length = if random.once_in(50) {
        random.below(3000)
    } else {
        random.below(120)
    };
    let mut bytes = texts::mixed(random, length).into_bytes();
    if !random.once_in(4) {
        damage(random, &mut bytes);
    }
    bytes
}

/// A short string of first bytes and tails, which is often nearly valid.
pub fn likely(random: &mut Random) -> Vec<u8> {
    let likely_byte = |random: &mut Random| match random.below(10) {
        0 => random.byte(),
        1 => 0x80 | random.byte() >> 2,
        2..5 => random.pick(&TAILS),
        _ => random.pick(&FIRSTS),
    };
    (0..random.below(12)).map(|_| likely_byte(random)).collect()
}

/// Longer than a payload may be: the test has no limit of its own.
fn long(each: &mut impl FnMut(&[u8])) {
    let mut bytes = "ab中é".repeat(BYTE_LIMIT / 7 + 1).into_bytes();
    each(&bytes);
    bytes.pop();
    each(&bytes);
}
