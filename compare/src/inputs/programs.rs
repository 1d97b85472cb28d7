//! Random programs as trees of rows, with a bias to limits.

use super::texts;
use crate::random::Random;
use original::tree::{Program, Row, counted};

/// Names lists, each with its names; a name that is not UTF-8 is none in the Rust.
pub const NAME_LISTS: [(&[u8], &[&str]); 6] = [
    (b"", &[]),
    (b"pr\nlen\n", &["pr", "len"]),
    (b"pr\nlen", &["pr"]),
    (b"\n", &[""]),
    (
        b"a\n\nb\nab\npr\nlen\nmain",
        &["a", "", "b", "ab", "pr", "len"],
    ),
    (b"a\nb\xFF\npr\n", &["a", "pr"]),
];

/// Strings that are often drawn, and stand in some of the lists.
const NAMES: [&str; 7] = ["", "a", "b", "ab", "pr", "len", "main"];

/// The tags without a value, chunk or field below.
const LEAVES: [u64; 18] = [
    0, 1, 2, 3, 4, 5, 6, 6, 8, 17, 19, 20, 21, 22, 23, 24, 25, 26,
];
const KEYS: [u64; 11] = [1, 3, 4, 5, 6, 19, 20, 21, 22, 23, 24];
const COMPOSITES: [u64; 10] = [7, 9, 10, 11, 12, 13, 14, 15, 16, 18];

/// Codes at the ends of what a Char may be; the last three are no Unicode scalars.
const CODES: [u64; 8] = [
    0, 0x7F, 0xD7FF, 0xE000, 0x10_FFFF, 0xD800, 0xDFFF, 0x11_0000,
];

/// What is drawn: how large, whether one value in so many breaks a rule (0 for none), and whether sets and maps have at
/// most one entry, so that their order is the same for the Rust.
#[derive(Clone, Copy)]
pub struct Draw {
    pub size: usize,
    pub flaws: usize,
    pub few_keys: bool,
}

pub fn program(random: &mut Random, draw: Draw) -> Program {
    let mut strings: Vec<Vec<u8>> = (0..1 + random.below(4)).map(|_| string(random)).collect();
    if random.once_in(3) {
        let length = random.below(2 * draw.size);
        strings.push(texts::mixed(random, length).into_bytes());
    }
    let mut drawing = Drawing {
        random,
        draw,
        strings,
        left: draw.size,
    };
    let chunk = drawing.chunk(1);
    let line_index = drawing.line_index();
    Program { chunk, line_index }
}

fn string(random: &mut Random) -> Vec<u8> {
    match random.below(4) {
        0 => {
            let length = random.below(12);
            texts::mixed(random, length).into_bytes()
        }
        _ => random.pick(&NAMES).as_bytes().to_vec(),
    }
}

struct Drawing<'a> {
    random: &'a mut Random,
    draw: Draw,
    strings: Vec<Vec<u8>>,
    /// So many values more are wanted.
    left: usize,
}

impl Drawing<'_> {
    fn flaw(&mut self) -> bool {
        self.draw.flaws > 0 && self.random.once_in(self.draw.flaws)
    }

    fn string(&mut self) -> Vec<u8> {
        let index = self.random.below(self.strings.len());
        self.strings[index].clone()
    }

    fn chunk(&mut self, depth: u32) -> Row {
        let length = match self.random.below(40) {
            0 => self.random.below(200),
            1..12 => 0,
            _ => self.random.below(7),
        };
        let code = self.random.bytes(length);
        let spans = self.spans(length);
        let most = if depth == 1 { self.left + 1 } else { 4 };
        let count = self.random.below(most.min(self.left + 1));
        let below = (0..count).map(|_| self.value(depth)).collect();
        Row {
            tag: 32,
            words: vec![count as u64],
            parts: vec![code],
            spans,
            below,
        }
    }

    /// Spans that often stay, then move a little, and sometimes anywhere.
    fn spans(&mut self, count: usize) -> Vec<(u64, u64)> {
        let mut span = (self.position(0), self.position(0));
        (0..count)
            .map(|_| {
                if self.random.once_in(3) {
                    span.0 = self.position(span.0);
                }
                if self.random.once_in(3) {
                    span.1 = self.position(span.1);
                }
                span
            })
            .collect()
    }

    /// At most 2^63 - 1, which is what a sound position is, unless a flaw is drawn.
    fn position(&mut self, before: u64) -> u64 {
        if self.flaw() {
            return self.random.draw() | 1 << 63;
        }
        match self.random.below(20) {
            0 => self.random.number() >> 1,
            1 => self.random.pick(&[0, i64::MAX as u64, i64::MAX as u64 - 1]),
            _ => before.saturating_add(self.random.below(40) as u64) & i64::MAX as u64,
        }
    }

    fn line_index(&mut self) -> Option<(Vec<u8>, Vec<u32>)> {
        if self.random.once_in(2) {
            return None;
        }
        let count = match self.random.below(20) {
            0 => self.random.below(100),
            _ => self.random.below(5),
        };
        let starts = match self.random.below(3) {
            0 => (0..count).map(|_| self.random.draw() as u32).collect(),
            _ => super::lines::rising(self.random, count),
        };
        Some((self.string(), starts))
    }

    /// A value of this depth; one in sixty lies over a deep one.
    fn value(&mut self, depth: u32) -> Row {
        self.left = self.left.saturating_sub(1);
        let deepest = if self.draw.flaws > 0 { 35 } else { 32 };
        if depth < 20 && self.random.once_in(60) {
            let bottom = 30 + self.random.below(deepest - 29) as u32;
            return self.chain(depth, bottom);
        }
        if self.left == 0 || depth >= 32 || self.random.once_in(2) {
            let tag = self.random.pick(&LEAVES);
            return self.leaf(tag);
        }
        let tag = self.random.pick(&COMPOSITES);
        let most = if tag == 18 || tag == 16 { 3 } else { 4 };
        let count = self.random.below(most);
        self.composite(tag, count, depth)
    }

    /// Values within each other down to the depth of the bottom.
    fn chain(&mut self, depth: u32, bottom: u32) -> Row {
        if depth >= bottom {
            let tag = self.random.pick(&[0, 4, 6, 12, 13]);
            return match tag {
                12 | 13 => counted(tag, vec![]),
                _ => self.leaf(tag),
            };
        }
        let tag = self.random.pick(&COMPOSITES);
        let next = self.chain(depth + 1, bottom);
        match tag {
            7 => self.function(vec![next]),
            14 => counted(12, vec![next]),
            15 => {
                let key = self.key();
                row(15, vec![1], vec![key, next])
            }
            16 => {
                let field = self.field(next);
                self.record(vec![field])
            }
            18 if next.tag == 7 => self.closure(vec![next]),
            18 => {
                let template = self.function(vec![]);
                self.closure(vec![template, next])
            }
            12 | 13 => counted(tag, vec![next]),
            _ => row(tag, vec![], vec![next]),
        }
    }

    fn composite(&mut self, tag: u64, count: usize, depth: u32) -> Row {
        let keys = if self.draw.few_keys {
            count.min(1)
        } else {
            count
        };
        match tag {
            7 => {
                let chunk = self.chunk(depth + 1);
                self.function_of(chunk)
            }
            12 | 13 => {
                let below = self.values(count, depth + 1);
                counted(tag, below)
            }
            14 => {
                let mut below = Vec::new();
                for _ in 0..keys {
                    let key = self.key_after(&below, depth + 1);
                    below.extend(key);
                }
                counted(14, below)
            }
            15 => self.map(keys, depth),
            16 => {
                let values = self.values(count, depth + 1);
                let fields = values.into_iter().map(|value| self.field(value)).collect();
                self.record(fields)
            }
            18 => {
                let mut below = vec![self.template(depth + 1)];
                below.extend(self.values(count, depth + 1));
                self.closure(below)
            }
            _ => {
                let below = self.values(1, depth + 1);
                row(tag, vec![], below)
            }
        }
    }

    fn values(&mut self, count: usize, depth: u32) -> Vec<Row> {
        (0..count).map(|_| self.value(depth)).collect()
    }

    fn map(&mut self, count: usize, depth: u32) -> Row {
        let (mut keys, mut below) = (Vec::new(), Vec::new());
        for _ in 0..count {
            if let Some(key) = self.key_after(&keys, depth + 1) {
                keys.push(key.clone());
                below.extend([key, self.value(depth + 1)]);
            }
        }
        row(15, vec![keys.len() as u64], below)
    }

    /// A key other than those before it, unless a flaw is drawn.
    fn key_after(&mut self, before: &[Row], depth: u32) -> Option<Row> {
        if self.flaw() {
            return Some(match before.first() {
                Some(first) if self.random.once_in(2) => first.clone(),
                _ => self.value(depth),
            });
        }
        let key = self.key();
        (!before.contains(&key)).then_some(key)
    }

    fn key(&mut self) -> Row {
        let tag = self.random.pick(&KEYS);
        self.leaf(tag)
    }

    fn function(&mut self, constants: Vec<Row>) -> Row {
        let length = self.random.below(3);
        let code = self.random.bytes(length);
        let chunk = Row {
            spans: self.spans(length),
            parts: vec![code],
            ..counted(32, constants)
        };
        self.function_of(chunk)
    }

    fn function_of(&mut self, chunk: Row) -> Row {
        let arity = match self.random.below(8) {
            0 => self.random.number(),
            _ => self.random.below(5) as u64,
        };
        Row {
            parts: vec![self.string()],
            ..row(7, vec![arity], vec![chunk])
        }
    }

    fn template(&mut self, depth: u32) -> Row {
        if self.flaw() {
            return self.value(depth);
        }
        let chunk = self.chunk(depth + 1);
        self.function_of(chunk)
    }

    fn closure(&mut self, below: Vec<Row>) -> Row {
        let start = self.random.draw() & 0xFFFF;
        row(18, vec![start, below.len() as u64 - 1], below)
    }

    fn field(&mut self, value: Row) -> Row {
        Row {
            parts: vec![self.string()],
            ..row(33, vec![], vec![value])
        }
    }

    /// Half of the records are named as one of their fields is, so that the name is among the gathered strings.
    fn record(&mut self, fields: Vec<Row>) -> Row {
        let name = match fields.first() {
            Some(field) if self.random.once_in(2) => field.parts[0].clone(),
            _ => self.string(),
        };
        Row {
            parts: vec![name],
            ..counted(16, fields)
        }
    }

    fn leaf(&mut self, tag: u64) -> Row {
        match tag {
            6 => parts(6, vec![self.string()]),
            8 if self.random.once_in(12) => parts(8, vec![self.string()]),
            8 => parts(8, vec![self.random.pick(&["pr", "pr", "len", "a"]).into()]),
            17 => {
                let name = self.string();
                parts(17, vec![name, self.string()])
            }
            0 => row(0, vec![], vec![]),
            26 => {
                let kind = self.kind();
                row(26, vec![kind, self.random.number()], vec![])
            }
            _ => {
                let word = self.scalar(tag);
                row(tag, vec![word], vec![])
            }
        }
    }

    fn kind(&mut self) -> u64 {
        match self.flaw() {
            true => self.random.pick(&[6, 7, 255]),
            false => self.random.below(6) as u64,
        }
    }

    /// A word that fits its kind: often a small one, so that keys meet.
    fn scalar(&mut self, tag: u64) -> u64 {
        let number = match self.random.below(3) {
            0 => self.random.below(3) as u64,
            1 => self.random.number(),
            _ => self.random.number().wrapping_neg(),
        };
        match tag {
            3 => number & 1,
            4 => number & 0xFF,
            5 if self.flaw() => self.random.pick(&CODES[5..]),
            5 if self.random.once_in(2) => self.random.pick(&CODES[..5]),
            5 => number & 0x7FF,
            20 => number as i32 as u64,
            21 | 25 => number & 0xFFFF_FFFF,
            22 => number & 0xFFFF,
            23 => number as i16 as u64,
            24 => number as i8 as u64,
            _ => number,
        }
    }
}

fn row(tag: u64, words: Vec<u64>, below: Vec<Row>) -> Row {
    Row {
        tag,
        words,
        below,
        ..Row::default()
    }
}

fn parts(tag: u64, parts: Vec<Vec<u8>>) -> Row {
    Row {
        tag,
        parts,
        ..Row::default()
    }
}
