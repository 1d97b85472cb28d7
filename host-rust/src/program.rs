//! A program in tables.

use crate::tables::{Part, Row, Span, count};
use crate::walk::Walk;
use std::borrow::Cow;

/// A program in tables: what a read gives, and what [`serialize`](crate::serialize) writes.
///
/// The rows stand parent first, the outer chunk before all. Document 01, "The program tables", says what each tag's
/// words are; [`Program::walk`] goes through them.
#[derive(Debug, Clone, Copy, PartialEq, Eq)]
pub struct Program<'a> {
    /// The bytes that parts lie in: of a read, the payload.
    pub store: &'a [u8],
    /// The rows, parent first.
    pub rows: &'a [Row],
    /// One span a code byte, in row order.
    pub spans: &'a [Span],
    /// The name and line starts of the source text, where the payload has them.
    pub line_index: Option<LineIndex<'a>>,
}

/// The optional part of a program that says where the lines of its source text start.
#[derive(Debug, Clone, Copy, PartialEq, Eq)]
pub struct LineIndex<'a> {
    /// The source text's name.
    pub name: Part,
    /// Where its lines start; they need not rise.
    pub starts: &'a [u32],
}

impl<'a> Program<'a> {
    /// The bytes of a part; empty where it does not lie in the store. After a read every part does.
    pub fn bytes(&self, [offset, length]: Part) -> &'a [u8] {
        let (from, to) = (count(offset), count(offset.saturating_add(length)));
        self.store.get(from..to).unwrap_or_default()
    }

    /// The text of a part. After a read every string is UTF-8; in what a caller made, other bytes show as U+FFFD.
    pub fn text(&self, part: Part) -> Cow<'a, str> {
        String::from_utf8_lossy(self.bytes(part))
    }

    /// The rows one by one, each with the rows that it stands in.
    pub fn walk(&self) -> Walk<'a> {
        Walk::new(self.rows)
    }

    pub(crate) fn starts(&self) -> &'a [u32] {
        self.line_index.map_or(&[], |index| index.starts)
    }

    /// The program record: rows, spans, starts, line flag, the name's offset and length.
    pub(crate) fn counts(&self) -> [u64; 6] {
        let length = |entries: usize| entries as u64;
        let [offset, name_length] = self.line_index.map_or([0, 0], |index| index.name);
        [
            length(self.rows.len()),
            length(self.spans.len()),
            length(self.starts().len()),
            u64::from(self.line_index.is_some()),
            offset,
            name_length,
        ]
    }
}
