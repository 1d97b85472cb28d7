//! Payloads of programs, in the writer's form or with departures from it, and short payloads one by one.

use super::{damage, every_string};
use crate::random::Random;
use original::tree::{Program, Row};

/// How a payload departs from what the writer would write: each once in so many chances, 0 for never.
#[derive(Debug, Clone, Copy, Default)]
pub struct Style {
    pub padded_varints: usize,
    /// Bits above those that a number is cut to, and other bytes than 1 for true.
    pub uncut_numbers: usize,
    pub swapped_strings: usize,
    pub repeated_strings: usize,
    pub unused_strings: usize,
    pub split_runs: usize,
    pub empty_runs: usize,
    pub wrong_counts: usize,
    pub wrong_tags: usize,
    pub trailing_bytes: usize,
}

impl Style {
    /// One departure or none; a payload with some chances for it meets it about once.
    pub fn one(random: &mut Random) -> Self {
        let mut style = Self::default();
        match random.below(13) {
            0 => style.padded_varints = 20,
            1 => style.uncut_numbers = 6,
            2 => style.swapped_strings = 1,
            3 => style.repeated_strings = 1,
            4 => style.unused_strings = 1,
            5 => style.split_runs = 3,
            6 => style.empty_runs = 5,
            7 => style.wrong_counts = 10,
            8 => style.wrong_tags = 15,
            9 => style.trailing_bytes = 1,
            _ => {}
        }
        style
    }

    /// Departures of every kind.
    pub fn loose(random: &mut Random) -> Self {
        let odds = random.pick(&[4, 12, 40]);
        Self {
            padded_varints: odds,
            uncut_numbers: odds,
            swapped_strings: 2,
            repeated_strings: 3,
            unused_strings: 3,
            split_runs: odds,
            empty_runs: odds,
            wrong_counts: 20 * odds,
            wrong_tags: 20 * odds,
            trailing_bytes: 4,
        }
    }
}

/// The payload of a program in this style; without departures it is the writing where no record name is missing.
pub fn payload(random: &mut Random, program: &Program, style: Style) -> Vec<u8> {
    let mut draft = Draft {
        random,
        style,
        pool: Vec::new(),
        out: Vec::new(),
    };
    draft.pool(program);
    draft.chunk(&program.chunk);
    draft.line_index(program);
    if draft.departs(style.trailing_bytes) {
        let trail = draft.random.some_bytes(4);
        draft.out.extend(trail);
    }
    draft.out
}

struct Draft<'a> {
    random: &'a mut Random,
    style: Style,
    pool: Vec<Vec<u8>>,
    out: Vec<u8>,
}

impl Draft<'_> {
    fn departs(&mut self, odds: usize) -> bool {
        odds > 0 && self.random.once_in(odds)
    }

    fn number(&mut self, number: u64) {
        let begin = self.out.len();
        original::write_uvarint(number, &mut self.out);
        if self.departs(self.style.padded_varints) {
            self.pad(begin);
        }
    }

    /// Lengthens the varint that begins there, rarely above ten bytes; a tenth byte also gets bits that are dropped.
    fn pad(&mut self, begin: usize) {
        let longest = if self.random.once_in(30) { 11 } else { 10 };
        let length = self.out.len() - begin;
        let padded = match self.random.below(4) {
            0 => longest,
            more => longest.min(length + more),
        };
        let mut last = self.out.len() - 1;
        for _ in length..padded {
            self.out[last] |= 0x80;
            self.out.push(0);
            last += 1;
        }
        if last - begin == 9 && self.random.once_in(2) {
            self.out[last] |= self.random.byte() & 0x7E;
        }
    }

    fn signed(&mut self, number: i64) {
        self.number((number << 1 ^ number >> 63) as u64);
    }

    /// A number that a reader cuts to so many bits.
    fn cut(&mut self, number: u64, bits: u32) {
        let above = match self.departs(self.style.uncut_numbers) {
            true => self.random.number() << bits,
            false => 0,
        };
        self.number(number | above);
    }

    fn cut_signed(&mut self, number: i64, bits: u32) {
        let above = match self.departs(self.style.uncut_numbers) {
            true => (self.random.number() << bits) as i64,
            false => 0,
        };
        self.signed(number.wrapping_add(above));
    }

    fn count(&mut self, count: usize) {
        let wrong = match self.departs(self.style.wrong_counts) {
            true => self.random.pick(&[1, 2, u64::MAX, 1 << 32, 1 << 63, 3]),
            false => 0,
        };
        self.number((count as u64).wrapping_add(wrong));
    }

    fn tag(&mut self, tag: u64) {
        let wrong = self.departs(self.style.wrong_tags);
        let tag = if wrong {
            self.random.byte() >> self.random.below(5)
        } else {
            tag as u8
        };
        self.out.push(tag);
    }

    /// The gathered strings, and behind them the record names that are missing among them.
    fn pool(&mut self, program: &Program) {
        let mut record_names = Vec::new();
        gather(&program.chunk, &mut self.pool, &mut record_names);
        let line_name = program.line_index.iter().map(|(name, _)| name.clone());
        for string in line_name.chain(record_names) {
            keep(&mut self.pool, &string);
        }
        self.disturb_pool();
        self.count(self.pool.len());
        for string in std::mem::take(&mut self.pool) {
            self.count(string.len());
            self.out.extend(&string);
            self.pool.push(string);
        }
    }

    fn disturb_pool(&mut self) {
        if self.departs(self.style.unused_strings) {
            self.insert_string("unused".into());
        }
        if !self.pool.is_empty() {
            let one = self.random.below(self.pool.len());
            if self.departs(self.style.repeated_strings) {
                let copy = self.pool[one].clone();
                self.insert_string(copy);
            }
            if self.departs(self.style.swapped_strings) {
                let other = self.random.below(self.pool.len());
                self.pool.swap(one, other);
            }
        }
    }

    fn insert_string(&mut self, string: Vec<u8>) {
        let place = self.random.below(self.pool.len() + 1);
        self.pool.insert(place, string);
    }

    /// The index of a string; of a repeated one the first or the last.
    fn string(&mut self, string: &[u8]) {
        let same = |pooled: &Vec<u8>| pooled == string;
        let index = match self.random.once_in(2) {
            true => self.pool.iter().position(same),
            false => self.pool.iter().rposition(same),
        };
        let index = index.expect("a pooled string") as u64;
        let wrong = self.departs(self.style.wrong_counts) as u64;
        self.cut(index + wrong, 32);
    }

    fn chunk(&mut self, row: &Row) {
        let code = &row.parts[0];
        self.count(code.len());
        self.out.extend(code);
        self.runs(&row.spans);
        self.count(row.below.len());
        self.values(&row.below);
    }

    fn runs(&mut self, spans: &[(u64, u64)]) {
        let mut runs = Vec::new();
        for run in spans.chunk_by(|one, next| one == next) {
            self.add_run(&mut runs, run[0], run.len() as u64);
        }
        if self.departs(self.style.empty_runs) {
            runs.push(((0, 0), 0));
        }
        self.count(runs.len());
        let mut before = (0, 0);
        for ((start, end), count) in runs {
            self.signed(start.wrapping_sub(before.0) as i64);
            self.signed(end.wrapping_sub(before.1) as i64);
            self.count(count as usize);
            before = (start, end);
        }
    }

    /// A run, sometimes in two, sometimes with an empty one before it.
    fn add_run(&mut self, runs: &mut Vec<((u64, u64), u64)>, span: (u64, u64), count: u64) {
        if self.departs(self.style.empty_runs) {
            runs.push(((self.random.number() >> 1, span.1), 0));
        }
        if count > 1 && self.departs(self.style.split_runs) {
            let first = 1 + self.random.below(count as usize - 1) as u64;
            runs.extend([(span, first), (span, count - first)]);
        } else {
            runs.push((span, count));
        }
    }

    fn line_index(&mut self, program: &Program) {
        match &program.line_index {
            None => self.tag(0),
            Some((name, starts)) => {
                self.tag(1);
                self.string(name);
                self.count(starts.len());
                let mut before = 0;
                for &start in starts {
                    self.cut_signed(i64::from(start) - before, 32);
                    before = i64::from(start);
                }
            }
        }
    }

    fn values(&mut self, rows: &[Row]) {
        for row in rows {
            self.value(row);
        }
    }

    fn value(&mut self, row: &Row) {
        if row.tag != 33 {
            self.tag(row.tag);
        }
        let word = row.words.first().copied().unwrap_or_default();
        match row.tag {
            1 => self.signed(word as i64),
            2 => self.out.extend(word.to_le_bytes()),
            3 => {
                let any = word == 1 && self.departs(self.style.uncut_numbers);
                let byte = if any {
                    self.random.byte() | 2
                } else {
                    word as u8
                };
                self.out.push(byte);
            }
            4 => self.out.push(word as u8),
            5 | 21 => self.cut(word, 32),
            7 => {
                self.string(&row.parts[0]);
                self.number(word);
                self.chunk(&row.below[0]);
            }
            12..=14 => {
                self.count(row.below.len());
                self.values(&row.below);
            }
            15 => {
                self.count(row.below.len() / 2);
                self.values(&row.below);
            }
            16 => {
                self.string(&row.parts[0]);
                self.count(row.below.len());
                self.values(&row.below);
            }
            18 => {
                self.value(&row.below[0]);
                self.cut(word, 16);
                self.count(row.below.len() - 1);
                self.values(&row.below[1..]);
            }
            19 => self.number(word),
            20 => self.cut_signed(word as i64, 32),
            22 => self.cut(word, 16),
            23 => self.cut_signed(word as i64, 16),
            24 => self.cut_signed(word as i64, 8),
            25 => self.out.extend((word as u32).to_le_bytes()),
            26 => {
                self.cut(word, 8);
                self.number(row.words[1]);
            }
            _ => {
                row.parts.iter().for_each(|part| self.string(part));
                self.values(&row.below);
            }
        }
    }
}

/// The strings in row order, each once; record names apart.
fn gather(row: &Row, strings: &mut Vec<Vec<u8>>, record_names: &mut Vec<Vec<u8>>) {
    match row.tag {
        32 => {}
        16 => record_names.extend(row.parts.iter().cloned()),
        _ => row.parts.iter().for_each(|part| keep(strings, part)),
    }
    for below in &row.below {
        gather(below, strings, record_names);
    }
}

fn keep(strings: &mut Vec<Vec<u8>>, string: &Vec<u8>) {
    if !strings.contains(string) {
        strings.push(string.clone());
    }
}

/// A change or two at random places, or the end of another payload in place of its own.
pub fn damaged(random: &mut Random, payload: &[u8], other: &[u8]) -> Vec<u8> {
    let mut bytes = payload.to_vec();
    if random.once_in(6) {
        bytes.truncate(random.below(bytes.len() + 1));
        bytes.extend(&other[random.below(other.len() + 1)..]);
        return bytes;
    }
    for _ in 0..1 + random.below(2) {
        damage(random, &mut bytes);
    }
    bytes
}

/// Bytes that begin a value or an item, or end a varint.
const ALPHABET: [u8; 16] = [0, 1, 2, 3, 6, 7, 8, 9, 12, 14, 15, 16, 18, 26, 0x80, 0xFF];

/// A pool with one string and no code, so that what follows is the constants.
const CONSTANTS_NEXT: [u8; 5] = [1, 1, b'a', 0, 0];

/// Every payload of up to three bytes, those of four to six bytes over the alphabet, and up to five bytes of it as constants.
pub fn every_short(mut each: impl FnMut(&[u8])) {
    every_string(3, &mut each);
    for length in 4..=6 {
        over_alphabet(&[], length, &mut each);
    }
    for length in 0..=5 {
        over_alphabet(&CONSTANTS_NEXT, length, &mut each);
    }
}

fn over_alphabet(front: &[u8], length: usize, each: &mut impl FnMut(&[u8])) {
    let mut bytes = front.to_vec();
    bytes.resize(front.len() + length, 0);
    for number in 0..1_usize << (4 * length) {
        for place in 0..length {
            bytes[front.len() + place] = ALPHABET[number >> (4 * place) & 15];
        }
        each(&bytes);
    }
}
