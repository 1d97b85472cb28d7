//! Lent tables, and a program in tables.

use super::{ROW_LIMIT, Refusal, SPAN_LIMIT, START_LIMIT, STRING_LIMIT};

/// Tag and four words.
pub type Row = [u64; 5];

/// Offset and length in the store.
pub type Part = (u64, u64);

/// How many words of each table are lent.
#[derive(Debug, Clone, Copy, Default, PartialEq)]
pub struct Loan {
    pub rows: usize,
    pub spans: usize,
    pub starts: usize,
    pub pool: usize,
}

/// How many entries a program may have: the whole entries lent, or the limits if fewer.
pub struct Capacities {
    pub rows: usize,
    pub spans: usize,
    pub starts: usize,
    pub strings: usize,
}

impl Loan {
    pub fn capacities(&self) -> Capacities {
        Capacities {
            rows: ROW_LIMIT.min(self.rows / 5),
            spans: SPAN_LIMIT.min(self.spans / 2),
            starts: START_LIMIT.min(self.starts),
            strings: STRING_LIMIT.min(self.pool / 2),
        }
    }
}

/// Every word of the lent tables.
#[derive(Debug, Clone, Default, PartialEq)]
pub struct Tables {
    pub rows: Vec<u64>,
    pub spans: Vec<u64>,
    pub starts: Vec<u32>,
    pub pool: Vec<u64>,
}

impl Tables {
    /// The tables with zeros up to the lent lengths.
    pub fn padded(mut self, loan: Loan) -> Self {
        self.rows.resize(loan.rows, 0);
        self.spans.resize(loan.spans, 0);
        self.starts.resize(loan.starts, 0);
        self.pool.resize(loan.pool, 0);
        self
    }

    pub fn zero(loan: Loan) -> Self {
        Self::default().padded(loan)
    }
}

/// What a program record says: how much of each table is used, and the line index's flag and name.
#[derive(Debug, Clone, Copy, Default, PartialEq)]
pub struct Counts {
    pub rows: u64,
    pub spans: u64,
    pub starts: u64,
    pub line_flag: u64,
    pub name: Part,
}

impl Counts {
    pub fn words(&self) -> [u64; 6] {
        let (offset, length) = self.name;
        [
            self.rows,
            self.spans,
            self.starts,
            self.line_flag,
            offset,
            length,
        ]
    }
}

/// A program in tables that may be longer than it.
#[derive(Debug, Clone, Copy)]
pub struct Program<'a> {
    pub store: &'a [u8],
    pub counts: Counts,
    pub rows: &'a [u64],
    pub spans: &'a [u64],
    pub starts: &'a [u32],
}

impl<'a> Program<'a> {
    pub fn row(&self, row: usize) -> Row {
        let words = &self.rows[5 * row..5 * row + 5];
        words.try_into().expect("five words")
    }

    /// The bytes of a part that lies in the store.
    pub fn bytes(&self, (offset, length): Part) -> &'a [u8] {
        &self.store[offset as usize..][..length as usize]
    }

    /// The parts of a row that are strings, in their order; `bytes` has those of sound rows.
    pub fn strings(&self, row: usize) -> Vec<Part> {
        let [tag, a, b, c, d] = self.row(row);
        match tag {
            6 | 7 | 8 | 16 | 33 => vec![(a, b)],
            17 => vec![(a, b), (c, d)],
            _ => vec![],
        }
    }

    pub fn refused_after_rows(&self) -> Refusal {
        (17, self.counts.rows as usize)
    }
}
