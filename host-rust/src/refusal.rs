//! Refusals: a number and a place, and what they mean in plain words.

use std::error::Error;
use std::fmt::{Display, Formatter, Result};

/// Why a call refused its input, and where.
///
/// The place of a read or check is a byte offset in the payload; of 17 and 18 a row number; of 20 the index of a
/// start; of 25 the length that is needed. 16 and 19 have place 0, and so has 21 in a write.
///
/// ```
/// let refusal = rlc2::Refusal { number: 4, place: 11 };
/// assert_eq!(
///     refusal.to_string(),
///     "refusal 4 at byte 11: an index names a string that the pool does not have"
/// );
/// ```
#[derive(Debug, Clone, Copy, PartialEq, Eq, Hash)]
pub struct Refusal {
    /// From 1 to 25.
    pub number: u64,
    /// Where, as the number says.
    pub place: usize,
}

/// A refusal of a call that does not say the place.
#[derive(Debug, Clone, Copy, PartialEq, Eq, Hash)]
pub struct RefusalNumber(
    /// From 1 to 25.
    pub u64,
);

impl RefusalNumber {
    /// One plain sentence.
    pub fn sentence(self) -> &'static str {
        match self.0 {
            1 => "the payload ends inside an item",
            2 => "a number does not end within ten bytes",
            3 => "a string of the pool is not UTF-8",
            4 => "an index names a string that the pool does not have",
            5 => "no value has this tag, the greatest is 26",
            6 => "a character is not a Unicode scalar value",
            7 => "the counts of the runs do not add up to the length of the code",
            8 => "a position leaves the range of signed 64-bit numbers",
            9 => "a value of this kind cannot be a set element or a map key",
            10 => "the same key stands twice in a set or map",
            11 => "a closure's template is not a function",
            12 => "no handle has this kind, the greatest is 5",
            13 => "the line flag is neither 0 nor 1",
            14 => "the name of a native function is not in the names list",
            15 => "a value is nested deeper than 32 levels",
            16 => "there are more than 16,777,216 bytes",
            17 => "the program breaks a rule here, so it has no writing",
            18 => "a record's name is none of the strings that the pool gets, so it has no index",
            19 => "the payload reads, but it is not what the writer writes for its program",
            20 => "a line start is not above the one before it",
            21 => "the string table is full",
            22 => "the row table is full",
            23 => "the span table is full",
            24 => "the table of line starts is full",
            25 => "the output is shorter than the writing",
            _ => "no refusal has this number",
        }
    }
}

impl Refusal {
    /// One plain sentence, without the place.
    pub fn sentence(&self) -> &'static str {
        RefusalNumber(self.number).sentence()
    }

    /// What the call answered: `Ok` for number 0.
    pub(crate) fn unless_accepted(number: u64, place: u64) -> std::result::Result<(), Refusal> {
        match number {
            0 => Ok(()),
            _ => Err(Refusal {
                number,
                place: crate::tables::count(place),
            }),
        }
    }
}

impl Display for RefusalNumber {
    fn fmt(&self, f: &mut Formatter<'_>) -> Result {
        write!(f, "refusal {}: {}", self.0, self.sentence())
    }
}

impl Display for Refusal {
    fn fmt(&self, f: &mut Formatter<'_>) -> Result {
        let Refusal { number, place } = self;
        let sentence = self.sentence();
        match (number, place) {
            (16 | 19, _) | (21, 0) => write!(f, "refusal {number}: {sentence}"),
            (17 | 18, _) => write!(f, "refusal {number} at row {place}: {sentence}"),
            (20, _) => write!(f, "refusal {number} at start {place}: {sentence}"),
            (25, _) => write!(f, "refusal {number}: {sentence}, which has {place} bytes"),
            _ => write!(f, "refusal {number} at byte {place}: {sentence}"),
        }
    }
}

impl Error for RefusalNumber {}

impl Error for Refusal {}

#[cfg(test)]
mod tests {
    use super::*;
    use std::collections::HashSet;

    #[test]
    fn each_number_has_a_sentence_of_its_own() {
        let sentences: HashSet<_> = (0..=25).map(|n| RefusalNumber(n).sentence()).collect();
        assert_eq!(sentences.len(), 26);
        assert_eq!(RefusalNumber(26).sentence(), RefusalNumber(0).sentence());
    }

    #[test]
    fn the_place_is_named_by_what_it_counts() {
        let shown = |number, place| Refusal { number, place }.to_string();
        assert!(shown(3, 7).starts_with("refusal 3 at byte 7: "));
        assert!(shown(17, 7).starts_with("refusal 17 at row 7: "));
        assert!(shown(20, 7).starts_with("refusal 20 at start 7: "));
        assert!(shown(25, 7).ends_with("which has 7 bytes"));
        assert!(shown(19, 0).starts_with("refusal 19: "));
        assert!(shown(21, 0).starts_with("refusal 21: "));
        assert!(shown(21, 5).starts_with("refusal 21 at byte 5: "));
    }
}
