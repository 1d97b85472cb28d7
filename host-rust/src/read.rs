//! The calls that read a payload into lent tables.

use crate::calls::{self, ReadCall};
use crate::program::{LineIndex, Program};
use crate::refusal::{Refusal, RefusalNumber};
use crate::tables::{Loan, Part, Sizes, count};

/// Number, bytes consumed or place, rows, spans, starts, strings, line flag, the name's offset and length.
pub(crate) type ReadFields = [u64; 9];

/// What an accepted read or check gives: the used parts of the lent tables.
#[derive(Debug, Clone, Copy, PartialEq, Eq)]
pub struct Read<'a> {
    /// How many bytes of the payload were read. A read accepts bytes after them, a check does not.
    pub consumed: usize,
    /// The program; its store is the payload.
    pub program: Program<'a>,
    /// The pool's strings, in pool order.
    pub strings: &'a [Part],
}

impl<'a> Read<'a> {
    pub(crate) fn new(
        fields: ReadFields,
        payload: &'a [u8],
        loan: Loan<'a>,
    ) -> Result<Read<'a>, Refusal> {
        let [
            number,
            consumed,
            rows,
            spans,
            starts,
            strings,
            flag,
            offset,
            length,
        ] = fields;
        Refusal::unless_accepted(number, consumed)?;
        let line_index = (flag == 1).then_some(LineIndex {
            name: [offset, length],
            starts: used(loan.starts, starts),
        });
        Ok(Read {
            consumed: count(consumed),
            program: Program {
                store: payload,
                rows: used(loan.rows, rows),
                spans: used(loan.spans, spans),
                line_index,
            },
            strings: used(loan.strings, strings),
        })
    }

    /// The sizes of the smallest tables that hold the payload.
    pub fn sizes(&self) -> Sizes {
        Sizes {
            rows: self.program.rows.len(),
            spans: self.program.spans.len(),
            starts: self.program.starts().len(),
            strings: self.strings.len(),
        }
    }
}

/// What a read or check of the payload into the lent tables answers.
pub(crate) fn read_fields(
    call: ReadCall,
    payload: &[u8],
    names: &[u8],
    loan: &mut Loan<'_>,
) -> ReadFields {
    let mut answer = [0; 9];
    call(
        payload,
        names,
        loan.rows.as_flattened_mut(),
        loan.spans.as_flattened_mut(),
        loan.starts,
        loan.strings.as_flattened_mut(),
        &mut answer,
    );
    answer
}

fn used<T>(table: &[T], entries: u64) -> &[T] {
    table.get(..count(entries)).unwrap_or_default()
}

/// Reads a payload into the lent tables.
///
/// `names` is the list of native functions: every name ends in 0A. Refusals: 1 to 16, and 21 to 24 where a table is
/// full. After a refusal every word of every table is 0, after an accepted read every word past the used part.
///
/// ```
/// use rlc2::{Sizes, Tables};
/// let payload = [0, 0, 0, 1, 8, 0, 0];
/// let mut tables = Tables::with_sizes(Sizes { rows: 2, spans: 0, starts: 0, strings: 0 });
/// let refused = rlc2::deserialize(&payload, b"show\n", tables.loan()).unwrap_err();
/// assert_eq!((refused.number, refused.place), (4, 5));
/// ```
pub fn deserialize<'a>(
    payload: &'a [u8],
    names: &[u8],
    mut loan: Loan<'a>,
) -> Result<Read<'a>, Refusal> {
    let fields = read_fields(calls::rlc2_deserialize, payload, names, &mut loan);
    Read::new(fields, payload, loan)
}

/// Reads a payload into the lent tables, and passes it exactly where it is what the writer writes for a sound
/// program.
///
/// Refusals: those of [`deserialize`], and 19 for a payload that reads but is not house-written. The tables are left
/// as by a read, or zero at a refusal.
///
/// ```
/// use rlc2::{Sizes, Tables};
/// let payload = [0, 0, 0, 0, 0];
/// let mut tables = Tables::with_sizes(Sizes { rows: 1, spans: 0, starts: 0, strings: 0 });
/// let read = rlc2::house_check(&payload, b"", tables.loan())?;
/// assert_eq!(read.consumed, 5);
/// # Ok::<(), rlc2::Refusal>(())
/// ```
pub fn house_check<'a>(
    payload: &'a [u8],
    names: &[u8],
    mut loan: Loan<'a>,
) -> Result<Read<'a>, Refusal> {
    let fields = read_fields(calls::rlc2_house_check_tables, payload, names, &mut loan);
    Read::new(fields, payload, loan)
}

/// The house check for a small payload, with tables of its own ([`Sizes::OWN_TABLES`](crate::Sizes::OWN_TABLES)) and
/// no memory lent.
///
/// ```
/// assert!(rlc2::house_check_own_tables(&[0, 0, 0, 0, 0], b"").is_ok());
/// assert_eq!(rlc2::house_check_own_tables(&[0, 0], b"").unwrap_err().0, 1);
/// ```
pub fn house_check_own_tables(payload: &[u8], names: &[u8]) -> Result<(), RefusalNumber> {
    match calls::rlc2_house_check(payload, names) {
        0 => Ok(()),
        number => Err(RefusalNumber(number)),
    }
}
