//! The tables that a caller lends: their entries, their sizes, and memory for them.

use crate::bytes::uvarint;
use crate::calls::{self, ReadCall};
use crate::read::{Read, ReadFields, read_fields};
use crate::refusal::Refusal;

/// Tag and four words; unused words are 0.
pub type Row = [u64; 5];

/// Start and end in the source text of what a code byte was made from.
pub type Span = [u64; 2];

/// Offset and length of a string or of code in the store.
pub type Part = [u64; 2];

/// Payload, text, store or writing above this length is refused with 16.
pub const BYTE_LIMIT: usize = 16_777_216;

/// How many entries each of the four tables has.
#[derive(Debug, Clone, Copy, PartialEq, Eq, Hash)]
pub struct Sizes {
    /// Rows, of 40 bytes.
    pub rows: usize,
    /// Spans, of 16 bytes.
    pub spans: usize,
    /// Line starts, of 4 bytes.
    pub starts: usize,
    /// Pool strings, as parts of 16 bytes.
    pub strings: usize,
}

impl Sizes {
    /// What a call uses at most of the tables lent.
    pub const CAPACITIES: Sizes = Sizes {
        rows: 1_048_576,
        spans: 16_777_216,
        starts: 1_048_576,
        strings: 1_048_576,
    };

    /// The tables that [`house_check_own_tables`](crate::house_check_own_tables) has of its own.
    pub const OWN_TABLES: Sizes = Sizes {
        rows: 512,
        spans: 1_024,
        starts: 512,
        strings: 256,
    };

    /// Sizes that are enough for every payload of this length: no larger tables give another answer.
    ///
    /// Each row, code byte, start and string takes at least one byte of the payload, beside the pool's count. That is
    /// 76 bytes of tables for a byte of payload, and 316 MiB for the longest payload; [`Tables::deserialize`] mostly
    /// takes much less.
    ///
    /// ```
    /// use rlc2::Sizes;
    /// assert_eq!(Sizes::sufficient(1_000).bytes(), 76_000);
    /// assert_eq!(Sizes::sufficient(rlc2::BYTE_LIMIT).bytes(), 316 << 20);
    /// ```
    pub fn sufficient(payload_length: usize) -> Sizes {
        Sizes {
            rows: payload_length,
            spans: payload_length,
            starts: payload_length,
            strings: payload_length,
        }
        .within(Sizes::CAPACITIES)
    }

    /// A first try: as many strings as the pool's count says, and of the rest what most payloads need.
    fn likely(payload: &[u8]) -> Sizes {
        let length = payload.len();
        Sizes {
            rows: length / 16 + 64,
            spans: length / 4 + 64,
            starts: length / 32 + 64,
            strings: uvarint(payload).map_or(0, |read| count(read.number)),
        }
        .within(Sizes::sufficient(length))
    }

    /// The memory that tables of these sizes take.
    pub fn bytes(&self) -> usize {
        let words = [
            (self.rows, size_of::<Row>()),
            (self.spans, size_of::<Span>()),
            (self.starts, size_of::<u32>()),
            (self.strings, size_of::<Part>()),
        ];
        words.iter().fold(0, |sum, (entries, width)| {
            sum.saturating_add(entries.saturating_mul(*width))
        })
    }

    fn within(self, most: Sizes) -> Sizes {
        Sizes {
            rows: self.rows.min(most.rows),
            spans: self.spans.min(most.spans),
            starts: self.starts.min(most.starts),
            strings: self.strings.min(most.strings),
        }
    }
}

/// Four tables, lent to a read or check. A refused call leaves every word of them 0, an accepted one every word past
/// the used part.
///
/// ```
/// let (mut rows, mut strings) = ([[0; 5]; 8], [[0; 2]; 4]);
/// let loan = rlc2::Loan { rows: &mut rows, spans: &mut [], starts: &mut [], strings: &mut strings };
/// let read = rlc2::deserialize(&[1, 2, b'H', b'i', 0, 0, 1, 6, 0, 0], b"", loan)?;
/// assert_eq!(read.strings, [[2, 2]]);
/// # Ok::<(), rlc2::Refusal>(())
/// ```
#[derive(Debug)]
pub struct Loan<'a> {
    /// For the program's rows.
    pub rows: &'a mut [Row],
    /// For one span a code byte, in row order.
    pub spans: &'a mut [Span],
    /// For the line index.
    pub starts: &'a mut [u32],
    /// For the pool's strings, in pool order.
    pub strings: &'a mut [Part],
}

/// Memory for the four tables.
///
/// Sized by the caller ([`Tables::with_sizes`]), for a payload ([`Tables::for_payload`]), or as it turns out
/// ([`Tables::new`] and then [`Tables::deserialize`]).
#[derive(Debug, Default)]
pub struct Tables {
    rows: Vec<Row>,
    spans: Vec<Span>,
    starts: Vec<u32>,
    strings: Vec<Part>,
}

impl Tables {
    /// Tables without an entry.
    pub fn new() -> Tables {
        Tables::default()
    }

    /// Tables of these sizes, cleared.
    pub fn with_sizes(sizes: Sizes) -> Tables {
        Tables {
            rows: vec![[0; 5]; sizes.rows],
            spans: vec![[0; 2]; sizes.spans],
            starts: vec![0; sizes.starts],
            strings: vec![[0; 2]; sizes.strings],
        }
    }

    /// Tables that are large enough for this payload whatever it holds: [`Sizes::sufficient`] says how much memory
    /// that is.
    pub fn for_payload(payload: &[u8]) -> Tables {
        Tables::with_sizes(Sizes::sufficient(payload.len()))
    }

    /// The sizes now.
    pub fn sizes(&self) -> Sizes {
        Sizes {
            rows: self.rows.len(),
            spans: self.spans.len(),
            starts: self.starts.len(),
            strings: self.strings.len(),
        }
    }

    /// Lends all four.
    pub fn loan(&mut self) -> Loan<'_> {
        Loan {
            rows: &mut self.rows,
            spans: &mut self.spans,
            starts: &mut self.starts,
            strings: &mut self.strings,
        }
    }

    /// [`deserialize`](crate::deserialize) into these tables, which grow until none of them is too short for the
    /// payload.
    ///
    /// The answer is that for tables of [`Sizes::sufficient`]. Tables start at about 7 bytes for a byte of payload,
    /// and a full one is taken four times as large and the payload read again.
    ///
    /// ```
    /// let payload = [1, 2, b'H', b'i', 1, 0, 1, 0, 10, 1, 1, 6, 0, 1, 0, 1, 0];
    /// let mut tables = rlc2::Tables::new();
    /// let read = tables.deserialize(&payload, b"")?;
    /// assert_eq!(read.consumed, 17);
    /// assert_eq!(read.program.rows, [[32, 5, 1, 1, 0], [6, 2, 2, 0, 0]]);
    /// assert_eq!(read.program.text([2, 2]), "Hi");
    /// # Ok::<(), rlc2::Refusal>(())
    /// ```
    pub fn deserialize<'a>(
        &'a mut self,
        payload: &'a [u8],
        names: &[u8],
    ) -> Result<Read<'a>, Refusal> {
        let fields = self.enlarged_until_accepted(calls::rlc2_deserialize, payload, names);
        Read::new(fields, payload, self.loan())
    }

    /// [`house_check`](crate::house_check) with these tables, which grow as in [`Tables::deserialize`].
    ///
    /// ```
    /// let mut tables = rlc2::Tables::new();
    /// assert!(tables.house_check(&[0, 0, 0, 0, 0], b"").is_ok());
    /// assert_eq!(tables.house_check(&[0x80, 0, 0, 0, 0, 0], b"").unwrap_err().number, 19);
    /// ```
    pub fn house_check<'a>(
        &'a mut self,
        payload: &'a [u8],
        names: &[u8],
    ) -> Result<Read<'a>, Refusal> {
        let fields = self.enlarged_until_accepted(calls::rlc2_house_check_tables, payload, names);
        Read::new(fields, payload, self.loan())
    }

    fn enlarged_until_accepted(
        &mut self,
        call: ReadCall,
        payload: &[u8],
        names: &[u8],
    ) -> ReadFields {
        let enough = match payload.len() {
            0..=BYTE_LIMIT => Sizes::sufficient(payload.len()),
            _ => self.sizes(), // refused with 16, whatever is lent
        };
        self.raise(Sizes::likely(payload).within(enough));
        loop {
            let fields = read_fields(call, payload, names, &mut self.loan());
            if !self.enlarge_refused(fields[0], enough) {
                return fields;
            }
        }
    }

    fn raise(&mut self, sizes: Sizes) {
        raise(&mut self.rows, sizes.rows);
        raise(&mut self.spans, sizes.spans);
        raise(&mut self.starts, sizes.starts);
        raise(&mut self.strings, sizes.strings);
    }

    /// Whether the refusal is a full table that can be larger; it is then.
    fn enlarge_refused(&mut self, number: u64, enough: Sizes) -> bool {
        match number {
            21 => enlarge(&mut self.strings, enough.strings),
            22 => enlarge(&mut self.rows, enough.rows),
            23 => enlarge(&mut self.spans, enough.spans),
            24 => enlarge(&mut self.starts, enough.starts),
            _ => false,
        }
    }
}

fn enlarge<T: Clone + Default>(table: &mut Vec<T>, enough: usize) -> bool {
    let larger = table.len().saturating_mul(4).max(64).min(enough);
    raise(table, larger)
}

/// Whether the table was shorter than that. What it held is dropped: a read leaves nothing of it.
fn raise<T: Clone + Default>(table: &mut Vec<T>, entries: usize) -> bool {
    let shorter = table.len() < entries;
    if shorter {
        // The old memory goes first, and the new comes cleared from the system.
        *table = Vec::new();
        *table = vec![T::default(); entries];
    }
    shorter
}

/// A count or place of an answer; all of them fit, since the machine has 64 bits.
pub(crate) fn count(word: u64) -> usize {
    usize::try_from(word).unwrap_or(usize::MAX)
}
