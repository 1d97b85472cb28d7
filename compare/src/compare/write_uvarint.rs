//! Writing varints.

use crate::inputs::numbers;
use crate::random::Random;
use crate::tally::{Tally, hex};

const RANDOM_INPUTS: usize = 1_000_000;

/// One number: its bytes, the place after it and its width, against the Rust.
pub fn one(seed: u64) -> Tally {
    let mut tally = Tally::new("rlc2_write_uvarint, _width, the Rust's write_uvarint");
    let mut expected = Vec::new();
    numbers::all(seed, RANDOM_INPUTS, |number| {
        let mut out = [0; 10];
        let next = port::rlc2_write_uvarint(&mut out, 0, number);
        let width = port::rlc2_uvarint_width(number);
        expected.clear();
        original::write_uvarint(number, &mut expected);
        let length = expected.len();
        tally.same((&out[..next], width), (&expected[..], length), || {
            number.to_string()
        });
    });
    tally
}

/// The word of a signed number, and the number of the word, against the Rust.
pub fn signed(seed: u64) -> Tally {
    let mut tally = Tally::new("rlc2_zigzag, _unzigzag, the Rust's write_ivarint");
    let mut bytes = Vec::new();
    numbers::all(seed, RANDOM_INPUTS, |number| {
        for value in [number as i64, (number as i64).wrapping_neg()] {
            let word = port::rlc2_zigzag(value);
            bytes.clear();
            original::write_ivarint(value, &mut bytes);
            let expected = original::uvarint(&bytes).map(|(word, _)| (word, value));
            tally.same(Ok((word, port::rlc2_unzigzag(word))), expected, || {
                value.to_string()
            });
        }
    });
    tally
}

/// Any output and any place in it: the bytes around the number stay, and without room all do.
pub fn room(seed: u64) -> Tally {
    let mut tally = Tally::new("rlc2_write_uvarint, lent bytes by document 01");
    let mut random = Random::new(seed);
    for _ in 0..RANDOM_INPUTS {
        let number = random.number();
        let lent = random.some_bytes(24);
        let at = match random.below(20) {
            0 => usize::MAX - random.below(12),
            _ => random.below(lent.len() + 3),
        };
        let mut out = lent.clone();
        let next = port::rlc2_write_uvarint(&mut out, at, number);
        tally.same((next, out), written_at(&lent, at, number), || {
            format!("{number} at {at} of {} bytes", lent.len())
        });
    }
    tally
}

fn written_at(lent: &[u8], at: usize, number: u64) -> (usize, Vec<u8>) {
    let mut bytes = Vec::new();
    original::write_uvarint(number, &mut bytes);
    let next = at.saturating_add(bytes.len());
    let mut out = lent.to_vec();
    match out.get_mut(at..next) {
        Some(part) => {
            part.copy_from_slice(&bytes);
            (next, out)
        }
        None => (0, out),
    }
}

/// Many numbers one after the other, also with too little room, against the Rust.
pub fn many(seed: u64) -> Tally {
    let mut tally = Tally::new("rlc2_write_all, the Rust's write_uvarint in a loop");
    let mut random = Random::new(seed);
    for _ in 0..RANDOM_INPUTS / 2 {
        let list: Vec<u64> = (0..random.below(12)).map(|_| random.number()).collect();
        let lent = random.some_bytes(80);
        let mut out = lent.clone();
        let length = port::rlc2_write_all(&list, &mut out);
        tally.same((length, out), written(&list, &lent), || {
            format!("{list:?} into {}", hex(&lent))
        });
    }
    tally
}

fn written(list: &[u64], lent: &[u8]) -> (usize, Vec<u8>) {
    let mut bytes = Vec::new();
    for number in list {
        let length = bytes.len();
        original::write_uvarint(*number, &mut bytes);
        if bytes.len() > lent.len() {
            bytes.truncate(length);
            break;
        }
    }
    let length = bytes.len();
    bytes.extend(&lent[length..]);
    (length, bytes)
}
