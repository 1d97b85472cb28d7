//! The house check.

use super::write::writing;
use super::{Loan, Reading, read};

/// The read's answer and tables where the payload is what the writer would write, else its refusal or 19.
pub fn check(payload: &[u8], names: &[u8], loan: Loan) -> Reading {
    let reading = read(payload, names, loan);
    match reading.answer.is_ok() && !is_house_written(payload, &reading) {
        true => Reading::refused((19, 0), loan, reading.greatest_count),
        false => reading,
    }
}

/// All bytes are consumed, the program is sound, and its writing is the payload.
fn is_house_written(payload: &[u8], reading: &Reading) -> bool {
    reading.program(payload).is_ok_and(|(consumed, program)| {
        let written = writing(&program, reading.tables.pool.len());
        consumed == payload.len() as u64 && written.is_ok_and(|(bytes, _)| bytes == payload)
    })
}
