//! The call that writes a program as payload bytes.

use crate::calls;
use crate::program::Program;
use crate::refusal::Refusal;
use crate::tables::{BYTE_LIMIT, Part, Sizes, count};

/// Writes a program into `out`, and gives the bytes written.
///
/// `strings` is lent for the pool: it then holds each distinct string's first part, in pool order, and zeros. Refusals:
/// 16, 17 for a program that is not sound, 18, 21 where `strings` is too short, and 25 where `out` is, with the length
/// needed as place. A refused write leaves `out` as it was, and zeroes `strings`; an accepted one leaves the bytes past
/// its own.
///
/// ```
/// use rlc2::Program;
/// let program = Program { store: b"Hi", rows: &[[32, 0, 0, 1, 0], [6, 0, 2, 0, 0]], spans: &[], line_index: None };
/// let (mut strings, mut out) = ([[0; 2]; 1], [0; 32]);
/// let payload = rlc2::serialize(&program, &mut strings, &mut out)?;
/// assert_eq!(payload, [1, 2, b'H', b'i', 0, 0, 1, 6, 0, 0]);
/// assert_eq!(strings, [[0, 2]]);
/// # Ok::<(), rlc2::Refusal>(())
/// ```
pub fn serialize<'a>(
    program: &Program<'_>,
    strings: &mut [Part],
    out: &'a mut [u8],
) -> Result<&'a [u8], Refusal> {
    let mut answer = [0; 2];
    calls::rlc2_serialize(
        program.store,
        &program.counts(),
        program.rows.as_flattened(),
        program.spans.as_flattened(),
        program.starts(),
        strings.as_flattened_mut(),
        out,
        &mut answer,
    );
    let [number, length] = answer;
    Refusal::unless_accepted(number, length)?;
    Ok(out.get(..count(length)).unwrap_or_default())
}

impl Program<'_> {
    /// [`serialize`] into memory that is large enough.
    ///
    /// ```
    /// let payload = [0, 0, 0, 1, 1, 3, 0];
    /// let mut tables = rlc2::Tables::new();
    /// let read = tables.deserialize(&payload, b"")?;
    /// assert_eq!(read.program.to_payload()?, payload);
    /// # Ok::<(), rlc2::Refusal>(())
    /// ```
    pub fn to_payload(&self) -> Result<Vec<u8>, Refusal> {
        let mut strings = vec![[0; 2]; self.string_count()];
        // A program that was read is mostly written in the length of its payload.
        let mut out = vec![0; self.store.len().min(BYTE_LIMIT)];
        loop {
            match serialize(self, &mut strings, &mut out).map(<[u8]>::len) {
                Ok(length) => {
                    out.truncate(length);
                    return Ok(out);
                }
                Err(Refusal { number: 25, place }) if out.len() < place => out.resize(place, 0),
                Err(refusal) => return Err(refusal),
            }
        }
    }

    /// How many strings the rows and the line index have, those that occur often counted each time. A record's name
    /// is none of them: it uses the index of an equal string.
    fn string_count(&self) -> usize {
        let in_rows: usize = self.rows.iter().map(|row| strings_of(row[0])).sum();
        (in_rows + 1).min(Sizes::CAPACITIES.strings)
    }
}

fn strings_of(tag: u64) -> usize {
    match tag {
        6 | 7 | 8 | 33 => 1,
        17 => 2,
        _ => 0,
    }
}
