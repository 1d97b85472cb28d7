//! The calls on lines: where they start in a text, and the line and column of an offset.

use crate::calls;
use crate::refusal::Refusal;
use crate::tables::{Sizes, count};

/// A line and a column, both counted from 1; the column counts bytes.
#[derive(Debug, Clone, Copy, PartialEq, Eq, Hash)]
pub struct LineCol {
    /// From 1.
    pub line: u64,
    /// From 1.
    pub column: u64,
}

/// Finds where the lines of a text start, and gives the used part of the lent table: 0, then the place after each 0A.
///
/// Refusals: 16, and 24 where the table is full (place: the 0A whose line does not fit, or 0 for the first). A
/// refusal zeroes the table, and words past the used ones are 0.
///
/// ```
/// let text = b"Vissi d'arte,\nvissi d'amore";
/// let mut starts = vec![0; rlc2::line_count(text)];
/// assert_eq!(rlc2::line_starts(text, &mut starts)?, [0, 14]);
/// # Ok::<(), rlc2::Refusal>(())
/// ```
pub fn line_starts<'a>(text: &[u8], starts: &'a mut [u32]) -> Result<&'a [u32], Refusal> {
    let mut answer = [0; 2];
    calls::rlc2_line_starts(text, starts, &mut answer);
    let [number, used] = answer;
    Refusal::unless_accepted(number, used)?;
    Ok(starts.get(..count(used)).unwrap_or_default())
}

/// How many starts the lines of a text have: a table of this length is never too short. At most the greatest table's
/// length.
pub fn line_count(text: &[u8]) -> usize {
    let ends = text.iter().filter(|byte| **byte == b'\n').count();
    (ends + 1).min(Sizes::CAPACITIES.starts)
}

/// The line and column of an offset, given where the lines start. The offset is taken modulo 2^32.
///
/// Refusal: 20 where the starts do not rise. Every start is looked at for that, so a call takes time in proportion to
/// their number.
///
/// ```
/// let at = rlc2::line_col(&[0, 14], 20)?;
/// assert_eq!((at.line, at.column), (2, 7));
/// # Ok::<(), rlc2::Refusal>(())
/// ```
pub fn line_col(starts: &[u32], offset: u64) -> Result<LineCol, Refusal> {
    let mut answer = [0; 4];
    calls::rlc2_line_col(starts, offset, &mut answer);
    let [number, place, line, column] = answer;
    Refusal::unless_accepted(number, place)?;
    Ok(LineCol { line, column })
}
