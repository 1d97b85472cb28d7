//! A refused payload in one line: number, place, what it means, and the bytes.

use crate::format::counted;
use crate::neighbourhood::{meant, shown};
use crate::style::Style;
use rlc2::{Refusal, Tables};

/// Above so many strings the writing of a payload that is not house-written is not looked for: it takes a search
/// among them for each.
const SEARCHED_STRINGS: usize = 65_536;

/// The line for a refused payload.
pub fn explained(payload: &[u8], names: &[u8], refusal: Refusal, style: Style) -> String {
    let detail = match (refusal.number, meant(payload, refusal)) {
        (19, _) => departure(payload, names, style),
        (14, Some(range)) => format!("{}{}", shown(payload, range, style), hint(names)),
        (3, Some(range)) => {
            let from = range.start;
            format!("byte {from} in {}", shown(payload, range, style))
        }
        (_, Some(range)) => shown(payload, range, style),
        (_, None) => String::new(),
    };
    let refused = refusal.to_string();
    if detail.is_empty() {
        refused
    } else {
        format!("{refused}: {detail}")
    }
}

fn hint(names: &[u8]) -> &'static str {
    if names.is_empty() {
        " (--names FILE gives the list)"
    } else {
        ""
    }
}

/// Where a payload that reads departs from the writing of its program.
fn departure(payload: &[u8], names: &[u8], style: Style) -> String {
    let mut tables = Tables::new();
    let Ok(read) = tables.deserialize(payload, names) else {
        return String::new();
    };
    if read.consumed < payload.len() {
        let extra = counted(payload.len() - read.consumed, "byte");
        let bytes = shown(payload, read.consumed..payload.len(), style);
        return format!("{extra} after its end: {bytes}");
    }
    if read.strings.len() > SEARCHED_STRINGS {
        return String::new();
    }
    match read.program.to_payload() {
        Err(refusal) => format!("its program has no writing: {refusal}"),
        Ok(writing) => {
            let at = first_difference(payload, &writing);
            let (own, written) = (
                shown(payload, at..at + 1, style),
                shown(&writing, at..at + 1, style),
            );
            format!("it differs first at byte {at}: {own}, where the writer has {written}")
        }
    }
}

/// Where one of two byte strings that are not equal departs from the other.
fn first_difference(left: &[u8], right: &[u8]) -> usize {
    let common = left.iter().zip(right).position(|(a, b)| a != b);
    common.unwrap_or(left.len().min(right.len()))
}
