//! `rlc2 stat`: how much of what a payload holds.

use crate::arguments::Request;
use crate::explain::explained;
use crate::format::grouped;
use crate::progress::with_progress;
use crate::style::Style;
use crate::{Outcome, complain, opened};
use rlc2::{Read, Refusal, Tables, tag_name};
use std::collections::BTreeMap;
use std::io::{self, Write};

pub fn stat(request: &Request, out: &mut impl Write) -> io::Result<Outcome> {
    let Some((names, payload)) = opened(request) else {
        return Ok(Outcome::Failed);
    };
    let source = &request.files[0];
    let mut tables = Tables::new();
    let what = format!("checking {source}");
    let check = with_progress(&what, || tables.house_check(&payload, &names).map(|_| ()));
    match tables.deserialize(&payload, &names) {
        Ok(read) => {
            writeln!(out, "{source}")?;
            write_counts(&payload, &read, check, out)?;
            Ok(Outcome::Passed)
        }
        Err(refusal) => {
            let line = explained(&payload, &names, refusal, Style::PLAIN);
            complain(&format!("{source}: {line}"));
            Ok(Outcome::Refused)
        }
    }
}

fn write_counts(
    payload: &[u8],
    read: &Read,
    check: Result<(), Refusal>,
    out: &mut impl Write,
) -> io::Result<()> {
    let program = &read.program;
    write_line(out, "bytes", payload.len())?;
    if read.consumed < payload.len() {
        write_line(out, "  after the end", payload.len() - read.consumed)?;
    }
    write_line(out, "strings", read.strings.len())?;
    let text = read.strings.iter().map(|part| program.bytes(*part).len());
    write_line(out, "  bytes of text", text.sum())?;
    write_line(out, "rows", program.rows.len())?;
    for (name, count) in rows_by_tag(read) {
        write_line(out, &format!("  {name}"), count)?;
    }
    write_line(out, "deepest value", deepest(read))?;
    write_line(out, "code bytes, spans", program.spans.len())?;
    write_line(out, "  runs", runs(read))?;
    if let Some(index) = program.line_index {
        write_line(out, "line starts", index.starts.len())?;
        writeln!(out, "  of {:?}", program.text(index.name))?;
    }
    write_line(out, "bytes of tables", read.sizes().bytes())?;
    match check {
        Ok(()) => writeln!(out, "house-written"),
        Err(refusal) => writeln!(out, "not house-written ({refusal})"),
    }
}

fn write_line(out: &mut impl Write, name: &str, count: usize) -> io::Result<()> {
    writeln!(out, "{name:<20}{:>12}", grouped(count))
}

/// In the order of tags.
fn rows_by_tag(read: &Read) -> Vec<(&'static str, usize)> {
    let mut counts = BTreeMap::new();
    for row in read.program.rows {
        *counts.entry(row[0]).or_insert(0) += 1;
    }
    counts.iter().map(|(tag, n)| (tag_name(*tag), *n)).collect()
}

fn deepest(read: &Read) -> usize {
    read.program
        .walk()
        .map(|node| node.depth)
        .max()
        .unwrap_or(0)
}

/// Runs of equal spans; a run ends where its chunk does.
fn runs(read: &Read) -> usize {
    let mut rest = read.program.spans;
    let lengths = read.program.rows.iter().filter(|row| row[0] == 32);
    lengths
        .map(|row| {
            let own = usize::try_from(row[2])
                .unwrap_or(usize::MAX)
                .min(rest.len());
            let (here, after) = rest.split_at(own);
            rest = after;
            here.chunk_by(|a, b| a == b).count()
        })
        .sum()
}
