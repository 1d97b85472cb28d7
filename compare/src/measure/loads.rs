//! The measured programs: payload, tables that are exactly as long as it needs, and the Rust's program.

use crate::compare::domain::rust_write;
use crate::document::{Counts, Loan, Program, Tables, read};
use crate::inputs::loads::{
    self, NATIVES, native_names, script, short_strings, strings, strings_again,
};
use crate::layout::part_count;
use original::native::Module;
use original::tree;
use original::{Chunk, LineIndex};

/// Titles of the script load, which has about 4 MB; its growing copies have 1 to 16 MB.
const TITLES: usize = 40_000;
const STRINGS: usize = 100_000;
const SHORT_STRINGS: usize = 1_000_000;
const FEW: usize = 16;
const USES: usize = 40_000;
const USED: usize = 10_000;
const NAMES: usize = 10_000;
const GROWTH: [usize; 5] = [TITLES / 4, TITLES / 2, TITLES, 2 * TITLES, 4 * TITLES];

pub struct Load {
    pub name: String,
    pub payload: Vec<u8>,
    /// The list that has the natives it names.
    pub names: Vec<u8>,
    /// Where the rows' parts stand: the payload, unless it says otherwise.
    store: Vec<u8>,
    pub counts: Counts,
    pub tables: Tables,
    pub chunk: Chunk,
    pub lines: Option<LineIndex>,
}

impl Load {
    fn new(name: String, program: &tree::Program) -> Self {
        Self::with_names(name, program, NATIVES.to_vec())
    }

    fn with_names(name: String, program: &tree::Program, names: Vec<u8>) -> Self {
        let payload = rust_write(program).expect("record names that are gathered");
        let ample = Loan {
            rows: 5 << 20,
            spans: 2 * payload.len(),
            starts: 1 << 20,
            pool: 2 << 20,
        };
        let reading = read(&payload, &names, ample);
        let accepted = reading.answer.expect("a payload that reads");
        let counts = accepted.counts;
        let tables = reading.tables.padded(Loan {
            rows: 5 * counts.rows as usize,
            spans: 2 * counts.spans as usize,
            starts: counts.starts as usize,
            pool: 2 * accepted.strings as usize,
        });
        let (chunk, lines) = original::from_tree::program(program);
        Self {
            name: format!("{name}, {} bytes", payload.len()),
            store: payload.clone(),
            payload,
            names,
            counts,
            tables,
            chunk,
            lines,
        }
    }

    /// The same program with bytes of its own in the store for each part of a row.
    fn apart(mut self) -> Self {
        for row in self.tables.rows.chunks_mut(5) {
            let parts = part_count(row[0]);
            for part in row[1..].chunks_mut(2).take(parts) {
                let from = part[0] as usize;
                part[0] = self.store.len() as u64;
                self.store.extend_from_within(from..from + part[1] as usize);
            }
        }
        self
    }

    pub fn program(&self) -> Program<'_> {
        Program {
            store: &self.store,
            counts: self.counts,
            rows: &self.tables.rows,
            spans: &self.tables.spans,
            starts: &self.tables.starts,
        }
    }

    /// Its natives, every one under its own name.
    pub fn natives(&self) -> Module {
        let names = str::from_utf8(&self.names).expect("names that are text");
        Module::of_names(names.lines())
    }
}

pub fn strings_load(seed: u64) -> Load {
    Load::new(format!("{STRINGS} strings"), &strings(seed, STRINGS))
}

pub fn short_strings_load(seed: u64) -> Load {
    let program = short_strings(seed, SHORT_STRINGS);
    Load::new(format!("{SHORT_STRINGS} strings"), &program)
}

/// Strings that come again in random order, from a store that is no payload.
pub fn strings_again_load(seed: u64) -> Load {
    let name = format!("{USES} strings, {USED} distinct");
    Load::new(name, &strings_again(seed, USES, USED)).apart()
}

/// As many natives as the list has names.
pub fn natives_load(seed: u64) -> Load {
    let names = native_names(NAMES);
    let list = names.iter().map(|name| format!("{name}\n"));
    let list: String = list.collect();
    let program = loads::natives(seed, &names);
    Load::with_names(format!("{NAMES} natives"), &program, list.into_bytes())
}

/// The script load in five sizes, the middle one being the load itself.
pub fn growing(seed: u64) -> impl Iterator<Item = Load> {
    GROWTH.into_iter().map(move |titles| {
        let name = format!("script, {titles} titles");
        Load::new(name, &script(seed, titles, titles))
    })
}

/// The same with few distinct strings, so that a search in the pool takes no time.
pub fn growing_of_few(seed: u64) -> impl Iterator<Item = Load> {
    GROWTH.into_iter().map(move |titles| {
        let name = format!("{titles} titles, {FEW} distinct");
        Load::new(name, &script(seed, titles, FEW))
    })
}
