//! The writing of a program in tables.

use super::sound::sound;
use super::{BYTE_LIMIT, Loan, Part, Program, Refusal};
use std::collections::HashMap;

/// The answer of a write: length or refusal, the bytes that it puts at the output's front, and the whole pool table.
#[derive(Debug, Clone, PartialEq)]
pub struct Write {
    pub answer: Result<usize, Refusal>,
    pub bytes: Vec<u8>,
    pub pool: Vec<u64>,
    /// The distinct gathered strings.
    pub strings: usize,
}

impl Write {
    /// The answer's fields: number, length or place.
    pub fn fields(&self) -> [u64; 2] {
        match self.answer {
            Ok(length) => [0, length as u64],
            Err((number, place)) => [number, place as u64],
        }
    }
}

/// Writes a program with so many words lent for the pool and bytes for the output.
pub fn write(program: &Program, pool_words: usize, room: usize) -> Write {
    let written =
        writing(program, pool_words).and_then(|(bytes, parts)| match bytes.len() <= room {
            true => Ok((bytes, parts)),
            false => Err((25, bytes.len())),
        });
    match written {
        Ok((bytes, parts)) => Write {
            answer: Ok(bytes.len()),
            bytes,
            strings: parts.len(),
            pool: padded(parts, pool_words),
        },
        Err(refusal) => Write {
            answer: Err(refusal),
            bytes: Vec::new(),
            strings: 0,
            pool: vec![0; pool_words],
        },
    }
}

fn padded(parts: Vec<Part>, words: usize) -> Vec<u64> {
    let mut table: Vec<u64> = parts.iter().flat_map(|&(o, n)| [o, n]).collect();
    table.resize(words, 0);
    table
}

/// The writing and the pool's parts, or the refusal; the tests stand in this order: 16, 17, 21, 18, 16.
pub fn writing(program: &Program, pool_words: usize) -> Result<(Vec<u8>, Vec<Part>), Refusal> {
    if program.store.len() > BYTE_LIMIT {
        return Err((16, 0));
    }
    sound(program)?;
    let pool = Pool::gathered(program);
    let lent = Loan {
        pool: pool_words,
        ..Loan::default()
    };
    if pool.parts.len() > lent.capacities().strings {
        return Err((21, 0));
    }
    if let Some(row) =
        (0..program.counts.rows as usize).find(|&row| lacks_name(program, &pool, row))
    {
        return Err((18, row));
    }
    let mut writer = Writer {
        program,
        pool: &pool,
        row: 0,
        span: 0,
        out: Vec::new(),
    };
    writer.payload();
    let bytes = writer.out;
    match bytes.len() <= BYTE_LIMIT {
        true => Ok((bytes, pool.parts)),
        false => Err((16, 0)),
    }
}

/// Whether the row is a record whose name equals no gathered string.
fn lacks_name(program: &Program, pool: &Pool, row: usize) -> bool {
    let [tag, offset, length, ..] = program.row(row);
    tag == 16 && !pool.indices.contains_key(program.bytes((offset, length)))
}

/// The distinct gathered strings, each with its first part.
struct Pool<'a> {
    indices: HashMap<&'a [u8], u64>,
    parts: Vec<Part>,
}

impl<'a> Pool<'a> {
    /// All strings in row order except record names, then the line index's name.
    fn gathered(program: &Program<'a>) -> Self {
        let mut pool = Self {
            indices: HashMap::new(),
            parts: Vec::new(),
        };
        for row in 0..program.counts.rows as usize {
            if program.row(row)[0] != 16 {
                for part in program.strings(row) {
                    pool.add(program.bytes(part), part);
                }
            }
        }
        if program.counts.line_flag == 1 {
            let name = program.counts.name;
            pool.add(program.bytes(name), name);
        }
        pool
    }

    fn add(&mut self, string: &'a [u8], part: Part) {
        let next = self.parts.len() as u64;
        let index = *self.indices.entry(string).or_insert(next);
        if index == next {
            self.parts.push(part);
        }
    }
}

/// The next row and the next span to be written.
struct Writer<'a> {
    program: &'a Program<'a>,
    pool: &'a Pool<'a>,
    row: usize,
    span: usize,
    out: Vec<u8>,
}

impl Writer<'_> {
    fn payload(&mut self) {
        self.number(self.pool.parts.len() as u64);
        for &part in &self.pool.parts {
            self.number(part.1);
            self.out.extend(self.program.bytes(part));
        }
        self.chunk();
        self.line_index();
    }

    /// The shortest ULEB128.
    fn number(&mut self, mut number: u64) {
        while number > 0x7F {
            self.out.push(number as u8 | 0x80);
            number >>= 7;
        }
        self.out.push(number as u8);
    }

    fn signed(&mut self, number: i64) {
        let twice = i128::from(number) * 2;
        let word = if number >= 0 { twice } else { -twice - 1 };
        self.number(word as u64);
    }

    fn string(&mut self, offset: u64, length: u64) {
        let string = self.program.bytes((offset, length));
        self.number(self.pool.indices[string]);
    }

    fn line_index(&mut self) {
        let counts = self.program.counts;
        self.out.push(counts.line_flag as u8);
        if counts.line_flag == 1 {
            self.string(counts.name.0, counts.name.1);
            self.number(counts.starts);
            let mut before = 0;
            for &start in &self.program.starts[..counts.starts as usize] {
                self.signed(i64::from(start) - before);
                before = i64::from(start);
            }
        }
    }

    fn chunk(&mut self) {
        let [_, offset, length, constants, _] = self.next();
        self.number(length);
        self.out.extend(self.program.bytes((offset, length)));
        self.runs(length as usize);
        self.number(constants);
        self.values(constants);
    }

    /// The next spans as maximal runs of equal ones.
    fn runs(&mut self, count: usize) {
        let words = &self.program.spans[2 * self.span..2 * (self.span + count)];
        let spans: Vec<(i64, i64)> = words
            .chunks(2)
            .map(|span| (span[0] as i64, span[1] as i64))
            .collect();
        self.span += count;
        let runs: Vec<&[(i64, i64)]> = spans.chunk_by(|one, next| one == next).collect();
        self.number(runs.len() as u64);
        let mut before = (0, 0);
        for run in runs {
            self.signed(run[0].0 - before.0);
            self.signed(run[0].1 - before.1);
            self.number(run.len() as u64);
            before = run[0];
        }
    }

    fn next(&mut self) -> [u64; 5] {
        self.row += 1;
        self.program.row(self.row - 1)
    }

    fn values(&mut self, count: u64) {
        for _ in 0..count {
            self.value();
        }
    }

    fn value(&mut self) {
        let [tag, a, b, c, d] = self.next();
        self.out.push(tag as u8);
        match tag {
            0 => {}
            1 | 20 | 23 | 24 => self.signed(a as i64),
            2 => self.out.extend(a.to_le_bytes()),
            3 | 4 => self.out.push(a as u8),
            5 | 19 | 21 | 22 => self.number(a),
            6 | 8 => self.string(a, b),
            7 => {
                self.string(a, b);
                self.number(c);
                self.chunk();
            }
            9..=11 => self.value(),
            12..=14 => {
                self.number(a);
                self.values(a);
            }
            15 => {
                self.number(a);
                self.values(2 * a);
            }
            16 => {
                self.string(a, b);
                self.number(c);
                self.fields(c);
            }
            17 => {
                self.string(a, b);
                self.string(c, d);
            }
            18 => {
                self.value();
                self.number(a);
                self.number(b);
                self.values(b);
            }
            25 => self.out.extend((a as u32).to_le_bytes()),
            26 => {
                self.number(a);
                self.number(b);
            }
            _ => unreachable!("no sound value has tag {tag}"),
        }
    }

    fn fields(&mut self, count: u64) {
        for _ in 0..count {
            let [_, offset, length, ..] = self.next();
            self.string(offset, length);
            self.value();
        }
    }
}
