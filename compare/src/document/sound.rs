//! Whether a program in tables is sound: refusal 17 and its place.

use super::{DEPTH_LIMIT, Loan, Part, Program, Refusal, Row, is_key};
use std::str::from_utf8;

/// The greatest position of a span.
const POSITION_LIMIT: u64 = i64::MAX as u64;

/// Counts first, then the rows one by one, then spans and line index.
pub fn sound(program: &Program) -> Result<(), Refusal> {
    if !counts_fit(program) {
        return Err(program.refused_after_rows());
    }
    let mut scan = Scan {
        program,
        at: 0,
        code: 0,
    };
    scan.chunk(1)?;
    if scan.at < program.counts.rows as usize {
        return Err((17, scan.at));
    }
    if !spans_sound(program, scan.code) || !line_index_sound(program) {
        return Err(program.refused_after_rows());
    }
    Ok(())
}

fn counts_fit(program: &Program) -> bool {
    let lent = Loan {
        rows: program.rows.len(),
        spans: program.spans.len(),
        starts: program.starts.len(),
        pool: 0,
    };
    let capacities = lent.capacities();
    let counts = &program.counts;
    counts.rows <= capacities.rows as u64
        && counts.spans <= capacities.spans as u64
        && counts.starts <= capacities.starts as u64
}

/// One span for each code byte, and positions within signed 64 bits.
fn spans_sound(program: &Program, code: u128) -> bool {
    let used = &program.spans[..2 * program.counts.spans as usize];
    u128::from(program.counts.spans) == code
        && used.iter().all(|&position| position <= POSITION_LIMIT)
}

fn line_index_sound(program: &Program) -> bool {
    let counts = &program.counts;
    match counts.line_flag {
        0 => counts.starts == 0 && counts.name == (0, 0),
        1 => is_string(program.store, counts.name),
        _ => false,
    }
}

fn lies_in(store: &[u8], (offset, length): Part) -> bool {
    u128::from(offset) + u128::from(length) <= store.len() as u128
}

fn is_string(store: &[u8], part: Part) -> bool {
    let (offset, length) = part;
    lies_in(store, part) && from_utf8(&store[offset as usize..][..length as usize]).is_ok()
}

/// What the rows before allow a value's row to be.
#[derive(Clone, Copy, PartialEq)]
enum Place {
    Any,
    Key,
    Template,
}

/// The rows scanned so far, and the length of their code.
struct Scan<'a> {
    program: &'a Program<'a>,
    at: usize,
    code: u128,
}

impl Scan<'_> {
    /// The next row and its number; where it is missing the refusal names the row count.
    fn next(&mut self) -> Result<(usize, Row), Refusal> {
        let row = self.at;
        if row == self.program.counts.rows as usize {
            return Err(self.program.refused_after_rows());
        }
        self.at += 1;
        Ok((row, self.program.row(row)))
    }

    /// A chunk whose constants have this depth.
    fn chunk(&mut self, depth: u32) -> Result<(), Refusal> {
        let (row, [tag, offset, length, count, unused]) = self.next()?;
        if tag != 32 || unused != 0 || !lies_in(self.program.store, (offset, length)) {
            return Err((17, row));
        }
        self.code += u128::from(length);
        self.values(count, depth)
    }

    fn values(&mut self, count: u64, depth: u32) -> Result<(), Refusal> {
        for _ in 0..count {
            self.value(depth, Place::Any)?;
        }
        Ok(())
    }

    /// A value and the rows below it; its row.
    fn value(&mut self, depth: u32, place: Place) -> Result<usize, Refusal> {
        let (row, words) = self.next()?;
        let tag = words[0];
        let follows = match place {
            Place::Any => tag <= 26,
            Place::Key => is_key(tag),
            Place::Template => tag == 7,
        };
        if !follows || depth > DEPTH_LIMIT || !words_fit(self.program.store, words) {
            return Err((17, row));
        }
        match tag {
            7 => self.chunk(depth + 1)?,
            9..=11 => self.values(1, depth + 1)?,
            12 | 13 => self.values(words[1], depth + 1)?,
            14 => self.keys(words[1], depth + 1, false)?,
            15 => self.keys(words[1], depth + 1, true)?,
            16 => self.fields(words[3], depth + 1)?,
            18 => {
                self.value(depth + 1, Place::Template)?;
                self.values(words[2], depth + 1)?;
            }
            _ => {}
        }
        Ok(row)
    }

    fn fields(&mut self, count: u64, depth: u32) -> Result<(), Refusal> {
        for _ in 0..count {
            let (row, words) = self.next()?;
            if words[0] != 33 || !words_fit(self.program.store, words) {
                return Err((17, row));
            }
            self.value(depth, Place::Any)?;
        }
        Ok(())
    }

    /// The elements of a set, or the keys and values of a map. A repeated key is the later one's fault.
    fn keys(&mut self, count: u64, depth: u32, with_values: bool) -> Result<(), Refusal> {
        let mut keys = Vec::new();
        for _ in 0..count {
            let key = self.value(depth, Place::Key)?;
            if keys.iter().any(|&earlier| self.same_key(earlier, key)) {
                return Err((17, key));
            }
            keys.push(key);
            if with_values {
                self.value(depth, Place::Any)?;
            }
        }
        Ok(())
    }

    fn same_key(&self, one: usize, other: usize) -> bool {
        let [tag, a, b, ..] = self.program.row(one);
        let [other_tag, c, d, ..] = self.program.row(other);
        tag == other_tag
            && match tag {
                6 => self.program.bytes((a, b)) == self.program.bytes((c, d)),
                _ => a == c,
            }
    }
}

/// Whether the words of a value's or field's row fit its tag: unused ones are 0, strings are UTF-8 in the store.
fn words_fit(store: &[u8], [tag, a, b, c, d]: Row) -> bool {
    let string = is_string(store, (a, b));
    match tag {
        0 | 9..=11 => [a, b, c, d] == [0; 4],
        1..=5 | 19..=25 => scalar_fits(tag, a) && [b, c, d] == [0; 3],
        6 | 8 | 33 => string && [c, d] == [0; 2],
        7 | 16 => string && d == 0,
        12..=15 => [b, c, d] == [0; 3],
        17 => string && is_string(store, (c, d)),
        18 => a <= 0xFFFF && [c, d] == [0; 2],
        26 => a <= 5 && [c, d] == [0; 2],
        _ => false,
    }
}

fn scalar_fits(tag: u64, word: u64) -> bool {
    let value = word as i64;
    match tag {
        3 => word <= 1,
        4 => word <= 0xFF,
        5 => u32::try_from(word).is_ok_and(|code| char::from_u32(code).is_some()),
        20 => i32::try_from(value).is_ok(),
        21 | 25 => word <= 0xFFFF_FFFF,
        22 => word <= 0xFFFF,
        23 => i16::try_from(value).is_ok(),
        24 => i8::try_from(value).is_ok(),
        _ => true,
    }
}
