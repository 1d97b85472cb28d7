//! Reading a payload into lent tables.

use super::tables::Capacities;
use super::{
    BYTE_LIMIT, Counts, DEPTH_LIMIT, Loan, Part, Program, Refusal, Row, Tables, is_key, is_listed,
    uvarint_at,
};
use std::str::from_utf8;

/// The answer of a read or check, and every word that was lent.
#[derive(Debug, Clone, PartialEq)]
pub struct Reading {
    pub answer: Result<Accepted, Refusal>,
    pub tables: Tables,
    /// The greatest count that was read. The Rust makes room for a count before it reads on.
    pub greatest_count: u64,
}

#[derive(Debug, Clone, Copy, PartialEq)]
pub struct Accepted {
    pub consumed: usize,
    pub counts: Counts,
    pub strings: u64,
}

impl Reading {
    pub fn refused(refusal: Refusal, loan: Loan, greatest_count: u64) -> Self {
        Self {
            answer: Err(refusal),
            tables: Tables::zero(loan),
            greatest_count,
        }
    }

    /// Bytes consumed and the program of an accepted reading.
    pub fn program<'a>(&'a self, payload: &'a [u8]) -> Result<(u64, Program<'a>), Refusal> {
        let accepted = self.answer?;
        let program = Program {
            store: payload,
            counts: accepted.counts,
            rows: &self.tables.rows,
            spans: &self.tables.spans,
            starts: &self.tables.starts,
        };
        Ok((accepted.consumed as u64, program))
    }

    /// The answer's fields: number, bytes consumed or place, used rows, spans, starts and strings, line flag, name.
    pub fn fields(&self) -> [u64; 9] {
        match self.answer {
            Err((number, place)) => [number, place as u64, 0, 0, 0, 0, 0, 0, 0],
            Ok(accepted) => {
                let [rows, spans, starts, flag, offset, length] = accepted.counts.words();
                let consumed = accepted.consumed as u64;
                let strings = accepted.strings;
                [
                    0, consumed, rows, spans, starts, strings, flag, offset, length,
                ]
            }
        }
    }
}

pub fn read(payload: &[u8], names: &[u8], loan: Loan) -> Reading {
    if payload.len() > BYTE_LIMIT {
        return Reading::refused((16, 0), loan, 0);
    }
    let mut reader = Reader {
        payload,
        names,
        capacities: loan.capacities(),
        at: 0,
        rows: Vec::new(),
        spans: Vec::new(),
        starts: Vec::new(),
        pool: Vec::new(),
        greatest_count: 0,
    };
    match reader.payload() {
        Err(refusal) => Reading::refused(refusal, loan, reader.greatest_count),
        Ok((line_flag, name)) => Reading {
            answer: Ok(reader.accepted(line_flag, name)),
            greatest_count: reader.greatest_count,
            tables: reader.tables(loan),
        },
    }
}

/// What is read so far; `at` is the next unread byte.
struct Reader<'a> {
    payload: &'a [u8],
    names: &'a [u8],
    capacities: Capacities,
    at: usize,
    rows: Vec<Row>,
    spans: Vec<[u64; 2]>,
    starts: Vec<u32>,
    pool: Vec<Part>,
    greatest_count: u64,
}

impl Reader<'_> {
    fn accepted(&self, line_flag: u64, name: Part) -> Accepted {
        Accepted {
            consumed: self.at,
            counts: Counts {
                rows: self.rows.len() as u64,
                spans: self.spans.len() as u64,
                starts: self.starts.len() as u64,
                line_flag,
                name,
            },
            strings: self.pool.len() as u64,
        }
    }

    fn tables(self, loan: Loan) -> Tables {
        let tables = Tables {
            rows: self.rows.into_flattened(),
            spans: self.spans.into_flattened(),
            starts: self.starts,
            pool: self.pool.iter().flat_map(|&(o, n)| [o, n]).collect(),
        };
        tables.padded(loan)
    }

    fn payload(&mut self) -> Result<(u64, Part), Refusal> {
        self.pool()?;
        self.chunk(1)?;
        self.line_index()
    }

    // Items.

    fn byte(&mut self) -> Result<u8, Refusal> {
        let byte = *self.payload.get(self.at).ok_or((1, self.at))?;
        self.at += 1;
        Ok(byte)
    }

    fn varint(&mut self) -> Result<u64, Refusal> {
        let (number, next) = uvarint_at(self.payload, self.at)?;
        self.at = next;
        Ok(number)
    }

    /// Zigzag: 0, -1, 1, -2 stand as 0, 1, 2, 3.
    fn signed(&mut self) -> Result<i64, Refusal> {
        let word = self.varint()?;
        let half = (word / 2) as i64;
        Ok(if word % 2 == 0 { half } else { -half - 1 })
    }

    fn body(&mut self, length: u64) -> Result<Part, Refusal> {
        let left = self.payload.len() - self.at;
        if length > left as u64 {
            return Err((1, self.at));
        }
        let part = (self.at as u64, length);
        self.at += length as usize;
        Ok(part)
    }

    fn bytes(&self, (offset, length): Part) -> &[u8] {
        &self.payload[offset as usize..][..length as usize]
    }

    fn count(&mut self) -> Result<u64, Refusal> {
        let count = self.varint()?;
        self.greatest_count = self.greatest_count.max(count);
        Ok(count)
    }

    /// A running position after the next delta.
    fn moved(&mut self, position: i64) -> Result<i64, Refusal> {
        let place = self.at;
        let delta = self.signed()?;
        position.checked_add(delta).ok_or((8, place))
    }

    /// The string that the next pool index names; the index is cut before its test.
    fn string(&mut self) -> Result<Part, Refusal> {
        let place = self.at;
        let index = self.varint()? as u32;
        let part = self.pool.get(index as usize);
        part.copied().ok_or((4, place))
    }

    // Pool, chunk and line index.

    fn pool(&mut self) -> Result<(), Refusal> {
        for _ in 0..self.count()? {
            if self.pool.len() == self.capacities.strings {
                return Err((21, self.at));
            }
            let length = self.varint()?;
            let part = self.body(length)?;
            if from_utf8(self.bytes(part)).is_err() {
                return Err((3, part.0 as usize));
            }
            self.pool.push(part);
        }
        Ok(())
    }

    /// A chunk whose constants have this depth.
    fn chunk(&mut self, depth: u32) -> Result<(), Refusal> {
        let row = self.begin_row(32)?;
        let length = self.varint()?;
        let (offset, length) = self.body(length)?;
        if self.capacities.spans - self.spans.len() < length as usize {
            return Err((23, self.at));
        }
        self.runs(length)?;
        let constants = self.count()?;
        self.put(row, &[offset, length, constants]);
        self.values(constants, depth)
    }

    /// The spans of so many code bytes. The counts are summed uncut; spans past the code are left out.
    fn runs(&mut self, length: u64) -> Result<(), Refusal> {
        let (mut start, mut end, mut sum) = (0, 0, 0_u128);
        for _ in 0..self.varint()? {
            start = self.moved(start)?;
            end = self.moved(end)?;
            let count = self.count()?;
            let missing = u128::from(length).saturating_sub(sum);
            for _ in 0..missing.min(count.into()) {
                self.spans.push([start as u64, end as u64]);
            }
            sum += u128::from(count);
        }
        match sum == length.into() {
            true => Ok(()),
            false => Err((7, self.at)),
        }
    }

    /// Line flag and name.
    fn line_index(&mut self) -> Result<(u64, Part), Refusal> {
        let place = self.at;
        match self.byte()? {
            0 => Ok((0, (0, 0))),
            1 => {
                let name = self.string()?;
                self.starts()?;
                Ok((1, name))
            }
            _ => Err((13, place)),
        }
    }

    fn starts(&mut self) -> Result<(), Refusal> {
        let mut start = 0;
        for _ in 0..self.count()? {
            if self.starts.len() == self.capacities.starts {
                return Err((24, self.at));
            }
            start = self.moved(start)?;
            self.starts.push(start as u32);
        }
        Ok(())
    }

    // Rows and values.

    fn begin_row(&mut self, tag: u64) -> Result<usize, Refusal> {
        if self.rows.len() == self.capacities.rows {
            return Err((22, self.at));
        }
        self.rows.push([tag, 0, 0, 0, 0]);
        Ok(self.rows.len() - 1)
    }

    fn put(&mut self, row: usize, words: &[u64]) {
        self.rows[row][1..=words.len()].copy_from_slice(words);
    }

    fn values(&mut self, count: u64, depth: u32) -> Result<(), Refusal> {
        for _ in 0..count {
            self.value(depth)?;
        }
        Ok(())
    }

    /// A value of this depth; its row.
    fn value(&mut self, depth: u32) -> Result<usize, Refusal> {
        let place = self.at;
        let tag = u64::from(self.byte()?);
        if tag > 26 {
            return Err((5, place));
        }
        if depth > DEPTH_LIMIT {
            return Err((15, place));
        }
        let row = self.begin_row(tag)?;
        match tag {
            0 => {}
            6 => {
                let (offset, length) = self.string()?;
                self.put(row, &[offset, length]);
            }
            7 => self.function(row, depth)?,
            8 => self.native(row)?,
            9..=11 => self.values(1, depth + 1)?,
            12 | 13 => {
                let count = self.count()?;
                self.put(row, &[count]);
                self.values(count, depth + 1)?;
            }
            14 => self.set(row, depth)?,
            15 => self.map(row, depth)?,
            16 => self.record(row, depth)?,
            17 => {
                let (name_offset, name_length) = self.string()?;
                let (offset, length) = self.string()?;
                self.put(row, &[name_offset, name_length, offset, length]);
            }
            18 => self.closure(row, depth)?,
            26 => self.handle(row)?,
            _ => {
                let word = self.scalar(tag)?;
                self.put(row, &[word]);
            }
        }
        Ok(row)
    }

    /// The word of a scalar, cut to its kind.
    fn scalar(&mut self, tag: u64) -> Result<u64, Refusal> {
        Ok(match tag {
            1 => self.signed()? as u64,
            2 => self.bits(8)?,
            3 => u64::from(self.byte()? != 0),
            4 => u64::from(self.byte()?),
            5 => self.character()?,
            19 => self.varint()?,
            20 => self.signed()? as i32 as u64,
            21 => self.varint()? as u32 as u64,
            22 => self.varint()? as u16 as u64,
            23 => self.signed()? as i16 as u64,
            24 => self.signed()? as i8 as u64,
            25 => self.bits(4)?,
            _ => unreachable!("no scalar has tag {tag}"),
        })
    }

    /// The bits of a float, which is one body, little-endian.
    fn bits(&mut self, length: u64) -> Result<u64, Refusal> {
        let part = self.body(length)?;
        let bytes = self.bytes(part).iter().rev();
        Ok(bytes.fold(0, |bits, &byte| bits << 8 | u64::from(byte)))
    }

    fn character(&mut self) -> Result<u64, Refusal> {
        let place = self.at;
        let code = self.varint()? as u32;
        match char::from_u32(code) {
            Some(_) => Ok(code.into()),
            None => Err((6, place)),
        }
    }

    fn handle(&mut self, row: usize) -> Result<(), Refusal> {
        let place = self.at;
        let kind = self.varint()? as u8;
        if kind > 5 {
            return Err((12, place));
        }
        let id = self.varint()?;
        self.put(row, &[kind.into(), id]);
        Ok(())
    }

    fn native(&mut self, row: usize) -> Result<(), Refusal> {
        let place = self.at;
        let name = self.string()?;
        if !is_listed(self.names, self.bytes(name)) {
            return Err((14, place));
        }
        self.put(row, &[name.0, name.1]);
        Ok(())
    }

    fn function(&mut self, row: usize, depth: u32) -> Result<(), Refusal> {
        let (offset, length) = self.string()?;
        let arity = self.varint()?;
        self.put(row, &[offset, length, arity]);
        self.chunk(depth + 1)
    }

    fn record(&mut self, row: usize, depth: u32) -> Result<(), Refusal> {
        let (offset, length) = self.string()?;
        let count = self.count()?;
        self.put(row, &[offset, length, count]);
        for _ in 0..count {
            let field = self.begin_row(33)?;
            let (offset, length) = self.string()?;
            self.put(field, &[offset, length]);
            self.value(depth + 1)?;
        }
        Ok(())
    }

    /// The template comes first in the bytes, and is read whole before its kind is tested.
    fn closure(&mut self, row: usize, depth: u32) -> Result<(), Refusal> {
        let place = self.at;
        let template = self.value(depth + 1)?;
        if self.rows[template][0] != 7 {
            return Err((11, place));
        }
        let capture_start = self.varint()? as u16;
        let count = self.count()?;
        self.put(row, &[capture_start.into(), count]);
        self.values(count, depth + 1)
    }

    fn set(&mut self, row: usize, depth: u32) -> Result<(), Refusal> {
        let count = self.count()?;
        self.put(row, &[count]);
        let mut keys = Vec::new();
        for _ in 0..count {
            let place = self.at;
            let key = self.value(depth + 1)?;
            self.add_key(&mut keys, key, place)?;
        }
        Ok(())
    }

    /// A key is tested after its value.
    fn map(&mut self, row: usize, depth: u32) -> Result<(), Refusal> {
        let count = self.count()?;
        self.put(row, &[count]);
        let mut keys = Vec::new();
        for _ in 0..count {
            let place = self.at;
            let key = self.value(depth + 1)?;
            self.value(depth + 1)?;
            self.add_key(&mut keys, key, place)?;
        }
        Ok(())
    }

    fn add_key(&self, keys: &mut Vec<usize>, key: usize, place: usize) -> Result<(), Refusal> {
        if !is_key(self.rows[key][0]) {
            return Err((9, place));
        }
        if keys.iter().any(|&earlier| self.same_key(earlier, key)) {
            return Err((10, place));
        }
        keys.push(key);
        Ok(())
    }

    /// Same tag and value, strings by bytes.
    fn same_key(&self, one: usize, other: usize) -> bool {
        let ([tag, a, b, ..], [other_tag, c, d, ..]) = (self.rows[one], self.rows[other]);
        tag == other_tag
            && match tag {
                6 => self.bytes((a, b)) == self.bytes((c, d)),
                _ => a == c,
            }
    }
}
