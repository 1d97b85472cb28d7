//! `rlc2 list`: the rows of a payload, indented by the rows that they stand in.

use crate::arguments::{ListOptions, Request};
use crate::explain::explained;
use crate::format::counted;
use crate::progress::with_progress;
use crate::style::Style;
use crate::{Outcome, complain, opened};
use rlc2::{Node, Part, Program, Role, Span, Tables, line_col, tag_name};
use std::io::{self, Write};

pub fn list(request: &Request, options: ListOptions, out: &mut impl Write) -> io::Result<Outcome> {
    let Some((names, payload)) = opened(request) else {
        return Ok(Outcome::Failed);
    };
    let source = &request.files[0];
    let mut tables = Tables::new();
    let what = format!("reading {source}");
    match with_progress(&what, || tables.deserialize(&payload, &names)) {
        Ok(read) => {
            Listing::new(&read.program, options).write(out)?;
            after_the_end(payload.len() - read.consumed, out)?;
            Ok(Outcome::Passed)
        }
        Err(refusal) => {
            let line = explained(&payload, &names, refusal, Style::PLAIN);
            complain(&format!("{source}: {line}"));
            Ok(Outcome::Refused)
        }
    }
}

fn after_the_end(left: usize, out: &mut impl Write) -> io::Result<()> {
    match left {
        0 => Ok(()),
        _ => writeln!(out, "{} after its end", counted(left, "byte")),
    }
}

struct Listing<'a> {
    program: &'a Program<'a>,
    options: ListOptions,
    /// The line starts, where places are shown as lines and columns: they are asked for, there, and rise.
    starts: Option<&'a [u32]>,
    number_width: usize,
}

impl<'a> Listing<'a> {
    fn new(program: &'a Program<'a>, options: ListOptions) -> Listing<'a> {
        let index = program.line_index.filter(|_| options.lines);
        let starts = index.map(|index| index.starts);
        let last = program.rows.len().saturating_sub(1);
        Listing {
            program,
            options,
            starts: starts.filter(|starts| line_col(starts, 0).is_ok()),
            number_width: last.to_string().len(),
        }
    }

    fn write(&self, out: &mut impl Write) -> io::Result<()> {
        let mut spans = self.program.spans;
        for node in self.program.walk() {
            let indent = 2 * node.level;
            let width = self.number_width;
            let text = described(self.program, &node);
            writeln!(out, "{:width$} {:indent$}{text}", node.index, "")?;
            if let [32, _, length, ..] = *node.row {
                let own = usize::try_from(length)
                    .unwrap_or(usize::MAX)
                    .min(spans.len());
                let (here, rest) = spans.split_at(own);
                spans = rest;
                if self.options.spans {
                    self.write_spans(here, width + indent + 3, out)?;
                }
            }
        }
        self.write_line_index(out)
    }

    /// Code bytes with equal spans on one line.
    fn write_spans(&self, spans: &[Span], indent: usize, out: &mut impl Write) -> io::Result<()> {
        let mut from = 0;
        for run in spans.chunk_by(|a, b| a == b) {
            let to = from + run.len();
            let [start, end] = run[0].map(|position| self.place(position));
            writeln!(out, "{:indent$}code {from}..{to} from {start}..{end}", "")?;
            from = to;
        }
        Ok(())
    }

    /// A position in the source text: line and column where they are known, else the offset, which is signed.
    fn place(&self, position: u64) -> String {
        let signed = position.cast_signed();
        let known = self.starts.filter(|_| u32::try_from(signed).is_ok());
        let column = known.and_then(|starts| {
            // The starts rise, so the one before the position is all that the column needs.
            let line = starts.partition_point(|start| u64::from(*start) <= position);
            let own = starts.get(line.saturating_sub(1)..line.max(1))?;
            let at = line_col(own, position).ok()?;
            Some(format!("{}:{}", line.max(1), at.column))
        });
        column.unwrap_or_else(|| signed.to_string())
    }

    fn write_line_index(&self, out: &mut impl Write) -> io::Result<()> {
        let Some(index) = self.program.line_index.filter(|_| self.options.lines) else {
            return Ok(());
        };
        let name = self.program.text(index.name);
        let starts = counted(index.starts.len(), "line start");
        writeln!(out, "line index {name:?}, {starts}")?;
        for (i, start) in index.starts.iter().enumerate() {
            writeln!(out, "  line {} at {start}", i + 1)?;
        }
        Ok(())
    }
}

/// A row in words, after what it is to the row above where that is not plain.
fn described(program: &Program, node: &Node) -> String {
    let words = words(program, node);
    match node.role {
        Role::Key => format!("key {words}"),
        Role::Value => format!("value {words}"),
        Role::Template => format!("template {words}"),
        Role::Captured => format!("captured {words}"),
        _ => words,
    }
}

fn words(program: &Program, node: &Node) -> String {
    let text = |offset, length| format!("{:?}", program.text([offset, length] as Part));
    let count = |number: u64, noun| counted(usize::try_from(number).unwrap_or(usize::MAX), noun);
    let [tag, a, b, c, d] = *node.row;
    let name = tag_name(tag);
    match tag {
        0 | 9..=11 => name.to_string(),
        1 | 20 | 23 | 24 => format!("{name} {}", a.cast_signed()),
        2 => format!("{name} {}", float(f64::from_bits(a), a)),
        25 => format!("{name} {}", short_float(a)),
        3 => format!("{name} {}", a != 0),
        5 => format!("{name} {}", character(a)),
        6 | 8 | 33 => format!("{name} {}", text(a, b)),
        17 => format!("{name} {} {}", text(a, b), text(c, d)),
        7 => format!("{name} {}, arity {c}", text(a, b)),
        12..=14 => format!("{name}, {}", count(a, "element")),
        15 => format!("{name}, {}", count(a, "entry")),
        16 => format!("{name} {}, {}", text(a, b), count(c, "field")),
        18 => format!("{name}, captures from {a}, {b} captured"),
        26 => format!("{name} {} {b}", handle_kind(a)),
        32 => format!("{name}, {}, {}", code(b), count(c, "constant")),
        _ => format!("{name} {a}"),
    }
}

fn code(length: u64) -> String {
    format!(
        "{} of code",
        counted(usize::try_from(length).unwrap_or(usize::MAX), "byte")
    )
}

fn float(value: f64, bits: u64) -> String {
    if value.is_nan() {
        format!("NaN with bits {bits:X}")
    } else {
        format!("{value:?}")
    }
}

fn short_float(word: u64) -> String {
    let bits = u32::try_from(word).unwrap_or_default();
    let value = f32::from_bits(bits);
    if value.is_nan() {
        format!("NaN with bits {bits:X}")
    } else {
        format!("{value:?}")
    }
}

fn character(word: u64) -> String {
    let scalar = u32::try_from(word).ok().and_then(char::from_u32);
    scalar.map_or_else(|| word.to_string(), |c| format!("{c:?}"))
}

fn handle_kind(kind: u64) -> &'static str {
    match kind {
        0 => "C",
        1 => "Net",
        2 => "Http",
        3 => "Audio",
        4 => "Gui",
        _ => "File",
    }
}

#[cfg(test)]
mod tests {
    use super::*;
    use rlc2::LineIndex;

    const STORE: &[u8] = "Guten Abend".as_bytes();

    fn listed(program: &Program, options: ListOptions) -> String {
        let mut out = Vec::new();
        Listing::new(program, options)
            .write(&mut out)
            .expect("memory");
        String::from_utf8(out).expect("text")
    }

    #[test]
    fn rows_are_indented_and_strings_are_text() {
        let rows = [
            [32, 0, 0, 2, 0],
            [15, 1, 0, 0, 0],
            [6, 0, 5, 0, 0],
            [1, u64::MAX, 0, 0, 0],
            [2, f64::NAN.to_bits(), 0, 0, 0],
        ];
        let program = Program {
            store: STORE,
            rows: &rows,
            spans: &[],
            line_index: None,
        };
        let expected = "\
0 chunk, 0 bytes of code, 2 constants
1   Map, 1 entry
2     key Str \"Guten\"
3     value Int -1
4   Float NaN with bits 7FF8000000000000
";
        assert_eq!(listed(&program, ListOptions::default()), expected);
    }

    #[test]
    fn spans_are_shown_by_runs_and_lines() {
        let program = Program {
            store: STORE,
            rows: &[[32, 0, 3, 0, 0]],
            spans: &[[0, 4], [0, 4], [7, 9]],
            line_index: Some(LineIndex {
                name: [0, 5],
                starts: &[0, 6],
            }),
        };
        let spans = ListOptions {
            spans: true,
            lines: false,
        };
        let expected = "\
0 chunk, 3 bytes of code, 0 constants
    code 0..2 from 0..4
    code 2..3 from 7..9
";
        assert_eq!(listed(&program, spans), expected);
        let both = ListOptions {
            spans: true,
            lines: true,
        };
        let expected = "\
0 chunk, 3 bytes of code, 0 constants
    code 0..2 from 1:1..1:5
    code 2..3 from 2:2..2:4
line index \"Guten\", 2 line starts
  line 1 at 0
  line 2 at 6
";
        assert_eq!(listed(&program, both), expected);
    }

    #[test]
    fn places_without_lines_are_offsets() {
        let program = Program {
            store: STORE,
            rows: &[[32, 0, 1, 0, 0]],
            spans: &[[u64::MAX, 1 << 40]],
            line_index: Some(LineIndex {
                name: [0, 0],
                starts: &[5, 5],
            }),
        };
        let options = ListOptions {
            spans: true,
            lines: true,
        };
        let shown = listed(&program, options);
        assert!(shown.contains("from -1..1099511627776"), "{shown}");
    }
}
