//! Payloads read and checked, with the tables that are left.

use super::{Files, Quotas, starts_of, u16_of, words_of};
use crate::compare::domain::{COUNT_LIMIT, is_compared, natives, rust_check, rust_read};
use crate::document::{self, Loan, Reading};
use crate::inputs::loans;
use crate::inputs::payloads::{Style, damaged, payload};
use crate::inputs::programs::{self, Draw, NAME_LISTS};
use crate::layout;
use crate::random::Random;
use original::native::Module;

/// Longer payloads and larger tables are not recorded.
const LONGEST: usize = 300;
const LARGEST: Loan = Loan {
    rows: 5 * 512,
    spans: 2 * 1024,
    starts: 512,
    pool: 2 * 256,
};

/// So many records of each answer.
const READS: Quotas = Quotas {
    accepted: 380,
    refused: 38,
    numbers: &[
        1, 2, 3, 4, 5, 6, 7, 8, 9, 10, 11, 12, 13, 14, 15, 21, 22, 23, 24,
    ],
};
const CHECKS: Quotas = Quotas {
    accepted: 120,
    refused: 7,
    numbers: &[
        1, 2, 3, 4, 5, 6, 7, 8, 9, 10, 11, 12, 13, 14, 15, 19, 19, 19, 19, 19, 19, 19, 19, 19, 19,
        21, 22, 23, 24,
    ],
};

pub fn reads(seed: u64) -> Files {
    record("read", READS, seed, |payload, list, loan, natives| {
        let ample = loans::ample(&mut Random::new(seed), payload.len());
        let reading = document::read(payload, NAME_LISTS[list].0, ample);
        if is_compared(&reading, COUNT_LIMIT) {
            let ours = match reading.program(payload) {
                Ok((consumed, program)) => Ok((consumed, layout::tree(&program))),
                Err((number, _)) => Err(number),
            };
            assert!(
                ours == rust_read(payload, &natives[list]),
                "the Rust reads otherwise"
            );
        }
        document::read(payload, NAME_LISTS[list].0, loan)
    })
}

pub fn checks(seed: u64) -> Files {
    record("check", CHECKS, seed, |payload, list, loan, natives| {
        let ample = loans::ample(&mut Random::new(seed), payload.len());
        let reading = document::check(payload, NAME_LISTS[list].0, ample);
        if let Some(number) = rust_check(payload, &natives[list], &reading) {
            assert_eq!(reading.fields()[0], number, "the Rust's check is another");
        }
        document::check(payload, NAME_LISTS[list].0, loan)
    })
}

/// Draws payloads and loans until there are enough of each answer.
fn record(
    name: &'static str,
    quotas: Quotas,
    seed: u64,
    answer: impl Fn(&[u8], usize, Loan, &[Module]) -> Reading,
) -> Files {
    let mut random = Random::new(seed);
    let natives = natives();
    let mut files = Files::new(name);
    let mut left = quotas.left();
    let mut last = Vec::new();
    while !left.is_empty() {
        let bytes = drawn(&mut random, &last);
        let list = random.below(NAME_LISTS.len());
        let ample = loans::ample(&mut random, bytes.len());
        let fields = document::read(&bytes, NAME_LISTS[list].0, ample).fields();
        let loan = match random.once_in(2) {
            true => ample,
            false => loans::small(&mut random, &fields),
        };
        if bytes.len() <= LONGEST && fits(loan) {
            let reading = answer(&bytes, list, loan, &natives);
            if left.take(reading.fields()[0]) {
                add(&mut files, &bytes, NAME_LISTS[list].0, loan, &reading);
            }
        }
        last = bytes;
    }
    files
}

fn fits(loan: Loan) -> bool {
    loan.rows <= LARGEST.rows
        && loan.spans <= LARGEST.spans
        && loan.starts <= LARGEST.starts
        && loan.pool <= LARGEST.pool
}

/// A payload in the writer's form, beside it, or damaged.
fn drawn(random: &mut Random, other: &[u8]) -> Vec<u8> {
    let draw = Draw {
        size: random.pick(&[1, 2, 4, 8]),
        flaws: random.pick(&[0, 10, 40]),
        few_keys: random.once_in(2),
    };
    let program = programs::program(random, draw);
    let style = match random.below(3) {
        0 => Style::default(),
        1 => Style::one(random),
        _ => Style::loose(random),
    };
    let bytes = payload(random, &program, style);
    match random.once_in(3) {
        true => damaged(random, &bytes, other),
        false => bytes,
    }
}

fn add(files: &mut Files, payload: &[u8], names: &[u8], loan: Loan, reading: &Reading) {
    let fields = reading.fields();
    let [_, _, rows, spans, starts, strings, ..] = fields.map(|field| field as usize);
    let tables = &reading.tables;
    files.add(&[
        &u16_of(payload.len()),
        &u16_of(names.len()),
        &u16_of(loan.rows),
        &u16_of(loan.spans),
        &u16_of(loan.starts),
        &u16_of(loan.pool),
        payload,
        names,
        &words_of(&fields),
        &words_of(&tables.rows[..5 * rows]),
        &words_of(&tables.spans[..2 * spans]),
        &words_of(&tables.pool[..2 * strings]),
        &starts_of(&tables.starts[..starts]),
    ]);
}
