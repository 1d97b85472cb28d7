//! Reading varints.

use crate::document::{answered, uvarint_at};
use crate::inputs::varints;
use crate::messages::refusal;
use crate::random::Random;
use crate::tally::{Tally, hex};

const RANDOM_INPUTS: usize = 500_000;

/// The exported call against the Rust: number and bytes used, 0 at a refusal.
pub fn host(seed: u64) -> Tally {
    let mut tally = Tally::new("rlc2_uvarint, the Rust's uvarint");
    varints::all(seed, |bytes| {
        let mut number = [0; 8];
        let used = port::rlc2_uvarint(bytes, &mut number);
        let expected = original::uvarint(bytes).unwrap_or_default();
        tally.same((u64::from_le_bytes(number), used), expected, || hex(bytes));
    });
    tally
}

/// The layer's call against the Rust: number and place after it, or the refusal.
pub fn leaf(seed: u64) -> Tally {
    let mut tally = Tally::new("rlc2_uvarint_at, the Rust's uvarint");
    varints::all(seed, |bytes| {
        let expected = original::uvarint(bytes).map_err(|message| refusal(&message));
        tally.same(read(bytes), expected, || hex(bytes));
    });
    tally
}

pub fn signed(seed: u64) -> Tally {
    let mut tally = Tally::new("rlc2_unzigzag, the Rust's ivarint");
    varints::all(seed, |bytes| {
        let ours = read(bytes).map(|(word, used)| (port::rlc2_unzigzag(word), used));
        let expected = original::ivarint(bytes).map_err(|message| refusal(&message));
        tally.same(ours, expected, || hex(bytes));
    });
    tally
}

fn read(bytes: &[u8]) -> Result<(u64, usize), u64> {
    let mut answer = [0; 3];
    match port::rlc2_uvarint_at(bytes, 0, &mut answer) {
        0 => Ok((answer[0], answer[1] as usize)),
        number => Err(number),
    }
}

/// Any place to read at and any answer lent, by document 01.
pub fn places(seed: u64) -> Tally {
    let mut tally = Tally::new("rlc2_uvarint_at, place and answer by document 01");
    let mut random = Random::new(seed);
    for _ in 0..RANDOM_INPUTS {
        let bytes = several(&mut random);
        let at = match random.below(20) {
            0 => usize::MAX - random.below(12),
            _ => random.below(bytes.len() + 3),
        };
        let lent = random.some_words(6);
        let mut answer = lent.clone();
        let number = port::rlc2_uvarint_at(&bytes, at, &mut answer);
        let (expected, fields) = match uvarint_at(&bytes, at) {
            Ok((value, next)) => (0, [value, next as u64, 0]),
            Err((number, place)) => (number, [0, 0, place as u64]),
        };
        tally.same(
            (number, answer),
            (expected, answered(&lent, &fields)),
            || format!("{} at {at}, answer of {} words", hex(&bytes), lent.len()),
        );
    }
    tally
}

/// Any slice lent for the number, by document 01.
pub fn lent_number(seed: u64) -> Tally {
    let mut tally = Tally::new("rlc2_uvarint, lent bytes by document 01");
    let mut random = Random::new(seed);
    for _ in 0..RANDOM_INPUTS {
        let bytes = varints::damaged(&mut random);
        let lent = random.some_bytes(13);
        let mut number = lent.clone();
        let used = port::rlc2_uvarint(&bytes, &mut number);
        tally.same((used, number), number_in(&bytes, &lent), || {
            format!("{}, {} bytes for the number", hex(&bytes), lent.len())
        });
    }
    tally
}

fn number_in(bytes: &[u8], lent: &[u8]) -> (usize, Vec<u8>) {
    let mut number = lent.to_vec();
    match (uvarint_at(bytes, 0), number.get_mut(..8)) {
        (Ok((value, used)), Some(front)) => {
            front.copy_from_slice(&value.to_le_bytes());
            (used, number)
        }
        _ => (0, number),
    }
}

/// Many numbers one after the other, also with too little room, against the Rust.
pub fn many(seed: u64) -> Tally {
    let mut tally = Tally::new("rlc2_read_all, the Rust's uvarint in a loop");
    let mut random = Random::new(seed);
    for _ in 0..RANDOM_INPUTS {
        let bytes = several(&mut random);
        let lent = random.some_words(12);
        let mut numbers = lent.clone();
        let count = port::rlc2_read_all(&bytes, &mut numbers);
        let mut expected = Vec::new();
        original::read_uvarints(&bytes, &mut expected);
        expected.truncate(lent.len());
        let read = expected.len();
        expected.extend(&lent[read..]);
        tally.same((count, numbers), (read, expected), || {
            format!("{}, room for {}", hex(&bytes), lent.len())
        });
    }
    tally
}

/// Up to nine varints, sometimes damaged ones.
fn several(random: &mut Random) -> Vec<u8> {
    let mut bytes = Vec::new();
    for _ in 0..random.below(10) {
        match random.below(8) {
            0 => bytes.extend(varints::damaged(random)),
            1 => bytes.extend(varints::padded(random)),
            _ => original::write_uvarint(random.number(), &mut bytes),
        }
    }
    bytes
}
