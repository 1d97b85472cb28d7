//! The bytes at a refusal's place, in brackets between their neighbours.

use crate::style::Style;
use rlc2::{Refusal, uvarint};
use std::ops::Range;

/// So many neighbours are shown on either side, and at most so many bytes in brackets.
const NEIGHBOURS: usize = 8;
const BRACKETED: usize = 16;

/// The bytes that a refusal of a read means; none for refusals that have no place in the payload.
pub fn meant(payload: &[u8], refusal: Refusal) -> Option<Range<usize>> {
    let Refusal { number, place } = refusal;
    let item = match number {
        1 => place..payload.len(),
        2 | 4 | 6 | 8 | 12 | 14 => place..place + number_length(payload, place),
        3 => wrong_text(payload, place),
        5 | 7 | 9..=11 | 13 | 15 | 21..=24 => place..place + 1,
        _ => return None,
    };
    Some(item)
}

/// As hexadecimal, the range in brackets: `48 69 [FF] 01`.
pub fn shown(payload: &[u8], range: Range<usize>, style: Style) -> String {
    let from = range.start.min(payload.len());
    let to = range.end.clamp(from, payload.len());
    let cut = to.min(from + BRACKETED);
    let first = from.saturating_sub(NEIGHBOURS);
    let last = payload.len().min(to + NEIGHBOURS);
    let inside = if from == to {
        "end".to_string()
    } else {
        format!("{}{}", hexadecimal(&payload[from..cut]), dots(cut < to))
    };
    let mut words = vec![style.bad(&format!("[{inside}]"))];
    if first < from {
        words.insert(0, hexadecimal(&payload[first..from]));
    }
    if first > 0 {
        words.insert(0, "..".to_string());
    }
    if to < last {
        words.push(format!(
            "{}{}",
            hexadecimal(&payload[to..last]),
            dots(last < payload.len())
        ));
    }
    words.join(" ")
}

fn dots(more: bool) -> &'static str {
    if more { " .." } else { "" }
}

fn hexadecimal(bytes: &[u8]) -> String {
    let words: Vec<_> = bytes.iter().map(|byte| format!("{byte:02X}")).collect();
    words.join(" ")
}

/// The bytes of the number that begins here, also where it does not end.
fn number_length(payload: &[u8], place: usize) -> usize {
    let rest = payload.get(place..).unwrap_or_default();
    uvarint(rest).map_or(rest.len().min(10), |read| read.length)
}

/// The first bytes of a string's body that are not UTF-8. The body's length is what stands before it.
fn wrong_text(payload: &[u8], place: usize) -> Range<usize> {
    let body = body_at(payload, place).unwrap_or_default();
    match std::str::from_utf8(body) {
        Ok(_) => place..place + 1,
        Err(e) => {
            let from = place + e.valid_up_to();
            let length = e.error_len().unwrap_or(body.len() - e.valid_up_to());
            from..from + length
        }
    }
}

/// The body of the pool string that begins at this place.
fn body_at(payload: &[u8], place: usize) -> Option<&[u8]> {
    let mut at = uvarint(payload).ok()?.length;
    loop {
        let length = uvarint(payload.get(at..)?).ok()?;
        let body = at + length.length;
        let end = body.checked_add(usize::try_from(length.number).ok()?)?;
        if body == place {
            return payload.get(body..end);
        }
        at = end;
    }
}

#[cfg(test)]
mod tests {
    use super::*;

    fn at(payload: &[u8], number: u64, place: usize) -> String {
        let range = meant(payload, Refusal { number, place }).expect("a place");
        shown(payload, range, Style::PLAIN)
    }

    #[test]
    fn a_byte_between_its_neighbours() {
        assert_eq!(at(&[0, 1, 0xFF, 2], 5, 2), "00 01 [FF] 02");
        let long: Vec<u8> = (0..40).collect();
        assert_eq!(
            at(&long, 5, 20),
            ".. 0C 0D 0E 0F 10 11 12 13 [14] 15 16 17 18 19 1A 1B 1C .."
        );
    }

    #[test]
    fn the_end_has_no_byte() {
        assert_eq!(at(&[0], 1, 1), "00 [end]");
        assert_eq!(at(&[], 1, 0), "[end]");
        assert_eq!(at(&[0, 0x80], 1, 1), "00 [80]");
    }

    #[test]
    fn a_number_is_shown_whole() {
        assert_eq!(at(&[6, 0x80, 0x80, 1, 9], 4, 1), "06 [80 80 01] 09");
        assert!(at(&[0xFF; 12], 2, 0).ends_with("FF] FF FF"));
    }

    #[test]
    fn text_is_shown_where_it_goes_wrong() {
        let payload = [2, 1, b'a', 4, b'b', 0xC3, 0x28, b'c', 0];
        assert_eq!(at(&payload, 3, 4), "02 01 61 04 62 [C3] 28 63 00");
        let cut = [1, 2, b'a', 0xC3];
        assert_eq!(at(&cut, 3, 2), "01 02 61 [C3]");
    }
}
