//! Where bytes come from.

use rlc2::BYTE_LIMIT;
use std::ffi::OsStr;
use std::fmt::{Display, Formatter};
use std::fs::File;
use std::io::{self, Read};
use std::path::PathBuf;

#[derive(Debug, PartialEq)]
pub enum Source {
    StandardInput,
    File(PathBuf),
}

impl Source {
    pub fn named(word: &OsStr) -> Source {
        match word.to_str() {
            Some("-") => Source::StandardInput,
            _ => Source::File(word.into()),
        }
    }
}

impl Display for Source {
    fn fmt(&self, f: &mut Formatter<'_>) -> std::fmt::Result {
        match self {
            Source::StandardInput => f.write_str("standard input"),
            Source::File(path) => path.display().fmt(f),
        }
    }
}

/// The bytes of a payload. One byte above the limit is enough for a refusal, so that a huge file is not read whole.
pub fn payload(source: &Source) -> io::Result<Vec<u8>> {
    read(source, BYTE_LIMIT as u64 + 1)
}

pub fn whole(source: &Source) -> io::Result<Vec<u8>> {
    read(source, u64::MAX)
}

fn read(source: &Source, most: u64) -> io::Result<Vec<u8>> {
    let mut bytes = Vec::new();
    match source {
        Source::StandardInput => io::stdin().lock().take(most).read_to_end(&mut bytes)?,
        Source::File(path) => File::open(path)?.take(most).read_to_end(&mut bytes)?,
    };
    Ok(bytes)
}
