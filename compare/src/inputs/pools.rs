//! Programs of many strings, most of which come again.

use crate::random::Random;
use original::tree::{self, Program, Row, counted};

/// Distinct strings, and uses of them: about the counts where an index takes one byte or two, and above.
pub const SIZES: [(usize, usize); 6] = [
    (40, 200),
    (127, 500),
    (128, 500),
    (129, 500),
    (700, 2_000),
    (3_000, 6_000),
];

/// The most of which the Rust is asked.
pub const LARGEST: (usize, usize) = (60_000, 65_000);

/// Strings, marks, and records of one field, in random order.
pub fn program(random: &mut Random, (distinct, uses): (usize, usize)) -> Program {
    let string = |random: &mut Random| string(random.below(distinct));
    let constants = (0..uses).map(|_| match random.below(8) {
        0 => tree::strings(17, &[&string(random), &string(random)]),
        1 => record(string(random), string(random)),
        _ => tree::strings(6, &[&string(random)]),
    });
    Program {
        chunk: Row {
            parts: vec![vec![]],
            ..counted(32, constants.collect())
        },
        line_index: Some((string(random).into_bytes(), vec![0])),
    }
}

/// A string of a number, which differs from others in its first bytes or in its last ones alone.
fn string(number: usize) -> String {
    match number % 3 {
        0 => format!("the same words behind the number {number}"),
        1 => format!("{number} the same words"),
        _ => format!("{number}"),
    }
}

/// A record that is named as its field.
fn record(name: String, value: String) -> Row {
    let field = Row {
        below: vec![tree::strings(6, &[&value])],
        ..tree::strings(33, &[&name])
    };
    Row {
        parts: vec![name.into_bytes()],
        ..counted(16, vec![field])
    }
}
