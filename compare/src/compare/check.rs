//! The house check.

use super::domain::{natives, rust_check, rust_write};
use crate::document::{self, Loan, Reading};
use crate::inputs::loans;
use crate::inputs::payloads::{Style, damaged, every_short, payload};
use crate::inputs::pools;
use crate::inputs::programs::{self, Draw, NAME_LISTS};
use crate::ours::{self, Called};
use crate::random::Random;
use crate::tally::{Tally, hex};
use original::native::Module;
use port::rlc2_house_check_tables;

/// So many programs are drawn by each thread; each gives several payloads.
const PROGRAMS: usize = 370_000;
const COPIES: usize = 8;

/// So many programs with a large pool of each size.
const LARGE_POOLS: usize = 20;

/// The tables of `rlc2_house_check`: 512 rows, 1,024 spans, 512 starts and 256 strings.
const OWN_TABLES: Loan = Loan {
    rows: 5 * 512,
    spans: 2 * 1024,
    starts: 512,
    pool: 2 * 256,
};

/// Every short payload, then programs in the writer's form and with one departure from it, and damaged copies.
pub fn payloads(seed: u64, half: u64) -> Vec<Tally> {
    let mut short = Comparison::new("every short payload", 2 * seed + half);
    let mut number = 0;
    every_short(|payload| {
        number += 1;
        if number % 2 == half {
            short.compare(payload);
        }
    });
    let mut drawn = Comparison::new("random payloads", 2 * seed + half);
    let mut last = Vec::new();
    for _ in 0..PROGRAMS {
        last = drawn.compare_copies(&last);
    }
    for size in pools::SIZES {
        drawn.compare_large_pools(size);
    }
    if half == 0 {
        drawn.compare_largest_pool();
    }
    [short, drawn]
        .into_iter()
        .flat_map(Comparison::tallies)
        .collect()
}

struct Comparison {
    random: Random,
    natives: Vec<Module>,
    against_rust: Tally,
    against_document: Tally,
    own_tables: Tally,
}

impl Comparison {
    fn new(inputs: &str, seed: u64) -> Self {
        let tally = |call, with| Tally::new(format!("{call}, {with}, {inputs}"));
        Self {
            random: Random::new(seed),
            natives: natives(),
            against_rust: tally("rlc2_house_check_tables", "the Rust"),
            against_document: tally("rlc2_house_check_tables", "document 01"),
            own_tables: tally("rlc2_house_check", "document 01"),
        }
    }

    fn tallies(self) -> [Tally; 3] {
        [self.against_rust, self.against_document, self.own_tables]
    }

    fn compare_copies(&mut self, other: &[u8]) -> Vec<u8> {
        let random = &mut self.random;
        let draw = Draw {
            size: random.pick(&[2, 6, 12, 25]),
            flaws: random.pick(&[0, 0, 0, 60]),
            few_keys: !random.once_in(5),
        };
        let program = programs::program(random, draw);
        let tidy = payload(random, &program, Style::default());
        for copy in 0..COPIES {
            let bytes = match copy {
                0 => tidy.clone(),
                1 => damaged(&mut self.random, &tidy, other),
                _ => {
                    let style = Style::one(&mut self.random);
                    payload(&mut self.random, &program, style)
                }
            };
            self.compare(&bytes);
        }
        tidy
    }

    /// The writing of a program, and with one string again, two changed for each other, or one departure.
    fn compare_large_pools(&mut self, size: (usize, usize)) {
        for _ in 0..LARGE_POOLS {
            let program = pools::program(&mut self.random, size);
            let repeated = Style {
                repeated_strings: 1,
                ..Style::default()
            };
            let swapped = Style {
                swapped_strings: 1,
                ..Style::default()
            };
            let one = Style::one(&mut self.random);
            for style in [Style::default(), repeated, swapped, one] {
                let payload = payload(&mut self.random, &program, style);
                self.compare(&payload);
            }
        }
    }

    fn compare_largest_pool(&mut self) {
        let program = pools::program(&mut self.random, pools::LARGEST);
        let payload = rust_write(&program).expect("record names that are gathered");
        self.compare(&payload);
    }

    fn compare(&mut self, payload: &[u8]) {
        let list = self.random.below(NAME_LISTS.len());
        let names = NAME_LISTS[list].0;
        let loan = loans::ample(&mut self.random, payload.len());
        let reading = document::check(payload, names, loan);
        let expected = rust_check(payload, &self.natives[list], &reading);
        let fields = document::read(payload, names, loan).fields();
        let small = loans::small(&mut self.random, &fields);
        let number = self.compare_lent(payload, names, loan, reading);
        match expected {
            Some(expected) => {
                self.against_rust.answer(expected);
                self.against_rust.same(number, expected, || hex(payload));
            }
            None => self.against_rust.leave_out(),
        }
        let reading = document::check(payload, names, small);
        self.compare_lent(payload, names, small, reading);
        if self.random.once_in(8) {
            self.compare_own_tables(payload, names);
        }
    }

    fn compare_own_tables(&mut self, payload: &[u8], names: &[u8]) {
        let expected = document::check(payload, names, OWN_TABLES).fields()[0];
        self.own_tables.answer(expected);
        let number = port::rlc2_house_check(payload, names);
        self.own_tables.same(number, expected, || hex(payload));
    }

    fn compare_lent(&mut self, payload: &[u8], names: &[u8], loan: Loan, reading: Reading) -> u64 {
        let answer = self.random.some_words(12);
        let tables = ours::lent(&mut self.random, loan);
        let called = ours::read(rlc2_house_check_tables, payload, names, tables, &answer);
        let expected = Called::expected(reading, &answer);
        self.against_document.answer(expected.number);
        self.against_document.same(&called, &expected, || {
            format!("{loan:?}, names {}, payload {}", hex(names), hex(payload))
        });
        called.number
    }
}
