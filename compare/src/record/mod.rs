//! Recorded answers of the Rust, a file of records for each leaf; all numbers are little-endian.
//!
//! | file | a record |
//! |---|---|
//! | `uvarint.bin` | length u8, bytes, status u8, value u64, used u8 |
//! | `ivarint.bin` | length u8, bytes, status u8, value i64, used u8 |
//! | `uwrite.bin` | number u64, length u8, bytes |
//! | `utf8.bin` | length u16, bytes, 1 for UTF-8 or else 0 u8 |
//! | `lines.bin` | length u16, text, count u16, starts u32 each |
//! | `linecol.bin` | count u16, starts u32 each, offset u64, line u32, column u64 |
//!
//! The status is 0, or 1 or 2 as document 01 numbers the refusals; value and used are 0 then.
//! The records follow each other up to the end of the file.
//!
//! Payloads read (`read1.bin`, `read2.bin` ..) and checked (`check1.bin` ..), a record each:
//!
//! | bytes | field |
//! |---|---|
//! | u16 each | length of the payload, length of the names list, words lent for rows, spans, starts, pool |
//! | as long | payload |
//! | as long | names list |
//! | u64 each | the nine fields: number, bytes consumed or place, used rows, spans, starts and strings, line flag, name |
//! | u64 each | the used words: five to a row, two to a span, two to a string |
//! | u32 each | the used starts |
//!
//! All other lent words are 0 after the call, whatever stood there before.
//!
//! Programs written (`write1.bin` ..), a record each:
//!
//! | bytes | field |
//! |---|---|
//! | u16 each | length of the store, words of rows, spans, starts, words lent for the pool, bytes lent for the output |
//! | u64 each | the program record: used rows, spans and starts, line flag, name |
//! | as long | store |
//! | u64 each | rows, then spans |
//! | u32 each | starts |
//! | u64 each | the two fields: number, length or place |
//! | u64 each | every word of the pool table after the call |
//! | as long | the bytes written, none at a refusal; the output's other bytes stay |
//!
//! Answers are those of `document`, and the Rust agrees wherever it can be asked. A file is shorter than 65,536 bytes.

mod lines;
mod payloads;
mod utf8;
mod varints;
mod writes;

use crate::compare::silence_panics;
use std::collections::BTreeMap;
use std::path::Path;
use std::{fs, io};

/// The records of one file.
struct Records {
    file: &'static str,
    count: usize,
    bytes: Vec<u8>,
}

impl Records {
    fn new(file: &'static str) -> Self {
        Self {
            file,
            count: 0,
            bytes: Vec::new(),
        }
    }

    fn add(&mut self, parts: &[&[u8]]) {
        self.count += 1;
        self.bytes.extend(parts.concat());
    }
}

/// A file is at most so long.
const FILE_LIMIT: usize = 65_535;

/// Records in as many files as they need.
struct Files {
    name: &'static str,
    count: usize,
    files: Vec<Vec<u8>>,
}

impl Files {
    fn new(name: &'static str) -> Self {
        Self {
            name,
            count: 0,
            files: Vec::new(),
        }
    }

    fn add(&mut self, parts: &[&[u8]]) {
        let record = parts.concat();
        self.count += 1;
        match self.files.last_mut() {
            Some(last) if last.len() + record.len() <= FILE_LIMIT => last.extend(record),
            _ => self.files.push(record),
        }
    }

    fn save(&self, folder: &Path) -> io::Result<()> {
        fs::create_dir_all(folder)?;
        for (bytes, number) in self.files.iter().zip(1..) {
            let file = format!("{}{number}.bin", self.name);
            fs::write(folder.join(&file), bytes)?;
            println!("{file:<12} {:>6} bytes", bytes.len());
        }
        println!("{} records", self.count);
        Ok(())
    }
}

/// How many records of an accepted call, and of a refusal with each number; a number that stands twice counts twice.
struct Quotas {
    accepted: usize,
    refused: usize,
    numbers: &'static [u64],
}

/// The records that are still wanted.
struct Left(BTreeMap<u64, usize>);

impl Quotas {
    fn left(&self) -> Left {
        let mut left = BTreeMap::from([(0, self.accepted)]);
        for number in self.numbers {
            *left.entry(*number).or_default() += self.refused;
        }
        Left(left)
    }
}

impl Left {
    fn is_empty(&self) -> bool {
        self.0.is_empty()
    }

    /// Whether a record with this answer is wanted; then it is one less.
    fn take(&mut self, number: u64) -> bool {
        match self.0.get_mut(&number) {
            None => return false,
            Some(1) => drop(self.0.remove(&number)),
            Some(count) => *count -= 1,
        }
        true
    }
}

pub fn read(folder: &Path, seed: u64) -> io::Result<()> {
    payloads::reads(seed).save(folder)
}

pub fn write(folder: &Path, seed: u64) -> io::Result<()> {
    silence_panics();
    writes::writes(seed).save(folder)
}

pub fn check(folder: &Path, seed: u64) -> io::Result<()> {
    silence_panics();
    payloads::checks(seed).save(folder)
}

/// The layers under the payload: varints, UTF-8 and lines.
pub fn leaves(folder: &Path, seed: u64) -> io::Result<()> {
    let files = [
        varints::unsigned(seed),
        varints::signed(seed),
        varints::written(seed),
        utf8::tested(seed),
        lines::indexed(seed),
        lines::found(seed),
    ];
    fs::create_dir_all(folder)?;
    for records in files {
        fs::write(folder.join(records.file), &records.bytes)?;
        println!(
            "{:<12} {:>5} records, {:>6} bytes",
            records.file,
            records.count,
            records.bytes.len()
        );
    }
    Ok(())
}

fn u8_of(length: usize) -> [u8; 1] {
    [u8::try_from(length).expect("a short record")]
}

fn u16_of(length: usize) -> [u8; 2] {
    u16::try_from(length).expect("a short record").to_le_bytes()
}

fn words_of(words: &[u64]) -> Vec<u8> {
    words.iter().flat_map(|word| word.to_le_bytes()).collect()
}

fn starts_of(starts: &[u32]) -> Vec<u8> {
    starts
        .iter()
        .flat_map(|start| start.to_le_bytes())
        .collect()
}
