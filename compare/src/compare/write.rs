//! Writing a program.

use super::domain::rust_write;
use crate::document::{self, BYTE_LIMIT, Counts, Program, ROW_LIMIT, START_LIMIT};
use crate::inputs::loans;
use crate::inputs::pools;
use crate::inputs::programs::{self, Draw};
use crate::inputs::tables::{self, Held};
use crate::ours::{self, Written};
use crate::random::Random;
use crate::tally::{Tally, hex};
use original::tree;

/// So many programs are drawn by each thread.
const PROGRAMS: usize = 1_800_000;
const DAMAGED_COPIES: usize = 2;

/// So many programs with a large pool of each size.
const LARGE_POOLS: usize = 20;

/// With strings of each length up to one of these the writing is just below the limit of a writing, or above it.
const OVERLAPPING: [u64; 3] = [5_788, 5_789, 5_790];

/// Sound programs wherever their parts stand, and damaged copies of their tables.
pub fn programs(seed: u64, half: u64) -> Vec<Tally> {
    let mut comparison = Comparison::new(2 * seed + half);
    for _ in 0..PROGRAMS {
        comparison.compare_copies();
    }
    for size in pools::SIZES {
        comparison.compare_large_pools(size);
    }
    if half == 0 {
        comparison.compare_largest_pool();
        comparison.compare_limits();
    }
    vec![comparison.against_rust, comparison.against_document]
}

struct Comparison {
    random: Random,
    against_rust: Tally,
    against_document: Tally,
}

impl Comparison {
    fn new(seed: u64) -> Self {
        Self {
            random: Random::new(seed),
            against_rust: Tally::new("rlc2_serialize, the Rust's serialize_payload"),
            against_document: Tally::new("rlc2_serialize, all lent words by document 01"),
        }
    }

    fn compare_copies(&mut self) {
        let random = &mut self.random;
        let draw = Draw {
            size: random.pick(&[2, 6, 12, 25]),
            flaws: 0,
            few_keys: !random.once_in(8),
        };
        let program = programs::program(random, draw);
        let held = tables::tables(random, &program);
        let written = self.compare(&held, true);
        match draw.few_keys {
            true => self.compare_with_rust(&program, &held, written),
            false => self.against_rust.leave_out(),
        }
        self.compare(&held, false);
        for _ in 0..DAMAGED_COPIES {
            let mut copy = held.clone();
            for _ in 0..1 + self.random.below(2) {
                tables::damage(&mut self.random, &mut copy);
            }
            let ample = self.random.once_in(2);
            self.compare(&copy, ample);
        }
    }

    fn compare_with_rust(&mut self, program: &tree::Program, held: &Held, written: Written) {
        let ours = match written.number {
            0 => Ok(written.out),
            number => Err(number),
        };
        let expected = rust_write(program);
        let number = expected.as_ref().err().copied();
        self.against_rust.answer(number.unwrap_or(0));
        self.against_rust
            .same(ours, expected, || described(&held.program()));
    }

    /// Strings wherever they stand, often at several places.
    fn compare_large_pools(&mut self, size: (usize, usize)) {
        for _ in 0..LARGE_POOLS {
            let program = pools::program(&mut self.random, size);
            let held = tables::tables(&mut self.random, &program);
            let written = self.compare(&held, true);
            self.compare_with_rust(&program, &held, written);
            self.compare(&held, false);
        }
    }

    /// Strings in a payload that was read.
    fn compare_largest_pool(&mut self) {
        let program = pools::program(&mut self.random, pools::LARGEST);
        let store = rust_write(&program).expect("record names that are gathered");
        let loan = loans::ample(&mut self.random, store.len());
        let reading = document::read(&store, &[], loan);
        let held = Held {
            counts: reading.answer.expect("a payload that reads").counts,
            rows: reading.tables.rows,
            spans: reading.tables.spans,
            starts: reading.tables.starts,
            store,
        };
        let written = self.compare(&held, true);
        self.compare_with_rust(&program, &held, written);
    }

    /// A program with a pool table that is large enough and an output that is as long as the writing, or both about that.
    fn compare(&mut self, held: &Held, exact: bool) -> Written {
        let program = held.program();
        let most = 4 * held.rows.len() + 2;
        let sized = document::write(&program, most, BYTE_LIMIT);
        let (pool_words, room) = match exact {
            true => (most, sized.bytes.len()),
            false => (self.about(2 * sized.strings), self.about(sized.bytes.len())),
        };
        let answer = self.random.some_words(5);
        let out = self.random.bytes(room);
        let written = ours::write(&mut self.random, &program, pool_words, &out, &answer);
        let expected = document::write(&program, pool_words, room);
        self.against_document.answer(expected.fields()[0]);
        let expected = Written::expected(expected, &answer, &out);
        self.against_document.same(&written, &expected, || {
            let lent = format!("pool of {pool_words} words, output of {room} bytes");
            format!("{lent}, {}", described(&program))
        });
        written
    }

    fn about(&mut self, needed: usize) -> usize {
        match self.random.below(4) {
            0 => self.random.below(needed + 1),
            1 => needed.saturating_sub(1),
            2 => needed,
            _ => needed + self.random.below(20),
        }
    }

    /// Stores and writings of the greatest length, the most rows and starts, and one more of each.
    fn compare_limits(&mut self) {
        for more in [0, 1] {
            let mut longest = empty();
            longest.store = vec![0; BYTE_LIMIT + more];
            self.compare(&longest, true);
            let mut rows = empty();
            rows.rows.resize(5 * (ROW_LIMIT + more), 0);
            rows.rows[3] = (ROW_LIMIT - 1 + more) as u64;
            rows.counts.rows = (ROW_LIMIT + more) as u64;
            self.compare(&rows, true);
            let mut starts = empty();
            starts.starts = vec![9; START_LIMIT + more];
            starts.counts.starts = (START_LIMIT + more) as u64;
            starts.counts.line_flag = 1;
            self.compare(&starts, true);
        }
        for longest in OVERLAPPING {
            self.compare(&overlapping(longest), true);
        }
    }
}

/// The empty program.
fn empty() -> Held {
    Held {
        counts: Counts {
            rows: 1,
            ..Counts::default()
        },
        rows: vec![32, 0, 0, 0, 0],
        ..Held::default()
    }
}

/// A store of as many bytes, and a string of each length in it: their writings in the pool reach the limit of a writing.
fn overlapping(longest: u64) -> Held {
    let mut rows = vec![32, 0, 0, longest, 0];
    for length in 1..=longest {
        rows.extend([6, 0, length, 0, 0]);
    }
    Held {
        store: vec![b'a'; longest as usize],
        counts: Counts {
            rows: longest + 1,
            ..Counts::default()
        },
        rows,
        ..Held::default()
    }
}

fn described(program: &Program) -> String {
    format!(
        "{:?}, rows {:?}, spans {:?}, starts {:?}, store {}",
        program.counts,
        program.rows,
        program.spans,
        program.starts,
        hex(program.store)
    )
}
