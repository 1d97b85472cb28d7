//! Reading a payload.

use super::domain::{COUNT_LIMIT, is_compared, natives, rust_read, rust_write};
use crate::document::{self, BYTE_LIMIT, Loan, ROW_LIMIT, Reading, START_LIMIT, STRING_LIMIT};
use crate::inputs::loans;
use crate::inputs::natives::natives as many_natives;
use crate::inputs::payloads::{Style, damaged, every_short, payload};
use crate::inputs::pools;
use crate::inputs::programs::{self, Draw, NAME_LISTS};
use crate::ours::{self, Called};
use crate::random::Random;
use crate::tally::{Tally, hex};
use original::native::Module;

/// So many programs are drawn by each thread; each gives several payloads.
const PROGRAMS: usize = 450_000;
const LONG_LISTS: usize = 2_000;
const LOOSE_COPIES: usize = 3;
const DAMAGED_COPIES: usize = 6;

/// So many programs with a large pool of each size.
const LARGE_POOLS: usize = 20;

/// Every short payload, then random programs in and beside the writer's form and damaged copies of them, large pools, then natives of long lists.
pub fn payloads(seed: u64, half: u64) -> Vec<Tally> {
    let mut short = Comparison::new("every short payload", 2 * seed + half);
    let mut number = 0;
    every_short(|payload| {
        number += 1;
        if number % 2 == half {
            short.compare(payload, COUNT_LIMIT);
        }
    });
    let mut drawn = Comparison::new("random payloads", 2 * seed + half);
    let mut last = Vec::new();
    for _ in 0..PROGRAMS {
        last = drawn.compare_copies(&last);
    }
    for size in pools::SIZES {
        drawn.compare_large_pools(size);
    }
    if half == 0 {
        drawn.compare_largest_pool();
        drawn.compare_limits();
    }
    let mut listed = Comparison::new("natives of long lists", 2 * seed + half);
    for _ in 0..LONG_LISTS {
        listed.compare_natives();
    }
    [short, drawn, listed]
        .into_iter()
        .flat_map(|comparison| [comparison.against_rust, comparison.against_document])
        .collect()
}

struct Comparison {
    random: Random,
    natives: Vec<Module>,
    against_rust: Tally,
    against_document: Tally,
}

impl Comparison {
    fn new(inputs: &str, seed: u64) -> Self {
        let tally = |with| Tally::new(format!("rlc2_deserialize, {with}, {inputs}"));
        Self {
            random: Random::new(seed),
            natives: natives(),
            against_rust: tally("the Rust"),
            against_document: tally("document 01"),
        }
    }

    /// The payloads of one random program; its payload in the writer's form, so that the next one's can be spliced with it.
    fn compare_copies(&mut self, other: &[u8]) -> Vec<u8> {
        let random = &mut self.random;
        let draw = Draw {
            size: random.pick(&[2, 6, 12, 25]),
            flaws: random.pick(&[0, 0, 30, 100]),
            few_keys: false,
        };
        let program = programs::program(random, draw);
        let mut copies = vec![payload(random, &program, Style::default())];
        for _ in 0..LOOSE_COPIES {
            let styles = [Style::one(random), Style::loose(random)];
            copies.extend(styles.map(|style| payload(random, &program, style)));
        }
        for copy in 0..DAMAGED_COPIES {
            copies.push(damaged(random, &copies[copy], other));
        }
        for copy in &copies {
            self.compare(copy, COUNT_LIMIT);
        }
        copies.swap_remove(0)
    }

    /// Natives with a list of their own, whose module stands behind the others for so long.
    fn compare_natives(&mut self) {
        let input = many_natives(&mut self.random);
        let list = self.natives.len();
        let names = input.names.iter().map(String::as_str);
        self.natives.push(Module::of_names(names));
        self.compare_listed(&input.payload, list, &input.list, COUNT_LIMIT);
        self.natives.truncate(list);
    }

    fn compare(&mut self, payload: &[u8], count_limit: u64) {
        let list = self.random.below(NAME_LISTS.len());
        self.compare_listed(payload, list, NAME_LISTS[list].0, count_limit);
    }

    /// A payload with tables that are large enough, and with small ones.
    fn compare_listed(&mut self, payload: &[u8], list: usize, names: &[u8], count_limit: u64) {
        let loan = loans::ample(&mut self.random, payload.len());
        let reading = document::read(payload, names, loan);
        let compared = is_compared(&reading, count_limit);
        let small = loans::small(&mut self.random, &reading.fields());
        let words = 9 + self.random.below(3);
        let answer = self.random.words(words);
        if let Some(called) = self.compare_lent(payload, names, loan, reading, answer) {
            match compared {
                true => self.compare_with_rust(payload, list, &called),
                false => self.against_rust.leave_out(),
            }
        }
        let reading = document::read(payload, names, small);
        let answer = self.random.some_words(12);
        self.compare_lent(payload, names, small, reading, answer);
    }

    /// What the port leaves, where that is what document 01 says.
    fn compare_lent(
        &mut self,
        payload: &[u8],
        names: &[u8],
        loan: Loan,
        reading: Reading,
        answer: Vec<u64>,
    ) -> Option<Called> {
        let tables = ours::lent(&mut self.random, loan);
        let called = ours::read(port::rlc2_deserialize, payload, names, tables, &answer);
        let expected = Called::expected(reading, &answer);
        self.against_document.answer(expected.number);
        let same = self.against_document.same(&called, &expected, || {
            format!("{loan:?}, names {}, payload {}", hex(names), hex(payload))
        });
        same.then_some(called)
    }

    fn compare_with_rust(&mut self, payload: &[u8], list: usize, called: &Called) {
        let ours = match called.number {
            0 => Ok(called.program(payload)),
            number => Err(number),
        };
        let expected = rust_read(payload, &self.natives[list]);
        self.against_rust.answer(called.number);
        self.against_rust.same(ours, expected, || hex(payload));
    }

    fn compare_large_pools(&mut self, size: (usize, usize)) {
        for _ in 0..LARGE_POOLS {
            let program = pools::program(&mut self.random, size);
            for style in [Style::default(), Style::one(&mut self.random)] {
                let payload = payload(&mut self.random, &program, style);
                self.compare(&payload, COUNT_LIMIT);
            }
        }
    }

    fn compare_largest_pool(&mut self) {
        let program = pools::program(&mut self.random, pools::LARGEST);
        let payload = rust_write(&program).expect("record names that are gathered");
        self.compare(&payload, COUNT_LIMIT);
    }

    /// Payloads of the greatest length, and with the most rows, strings and starts, and one more of each.
    fn compare_limits(&mut self) {
        for more in [0, 1] {
            let mut longest = vec![0; BYTE_LIMIT + more];
            self.compare(&longest, COUNT_LIMIT);
            let code = BYTE_LIMIT + more - 14;
            longest.clear();
            longest.push(0);
            put_number(&mut longest, code);
            longest.resize(longest.len() + code, 7);
            longest.extend([1, 0, 0]);
            put_number(&mut longest, code);
            longest.extend([0, 0]);
            self.compare(&longest, BYTE_LIMIT as u64);
            for payload in [
                many(&[], STRING_LIMIT + more, &[0, 0, 0, 0]),
                many(&[0, 0, 0], ROW_LIMIT - 1 + more, &[0]),
                many(&[1, 0, 0, 0, 0, 1, 0], START_LIMIT + more, &[]),
            ] {
                self.compare(&payload, 2 * ROW_LIMIT as u64);
            }
        }
    }
}

/// A count, and as many zeros.
fn many(front: &[u8], count: usize, behind: &[u8]) -> Vec<u8> {
    let mut bytes = front.to_vec();
    put_number(&mut bytes, count);
    bytes.resize(bytes.len() + count, 0);
    bytes.extend(behind);
    bytes
}

fn put_number(bytes: &mut Vec<u8>, number: usize) {
    original::write_uvarint(number as u64, bytes);
}
