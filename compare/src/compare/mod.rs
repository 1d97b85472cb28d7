//! The comparisons, a module each; a subcommand runs a list of them.

mod check;
pub mod domain;
mod line_col;
mod line_starts;
mod read;
mod read_uvarint;
mod utf8;
mod write;
mod write_uvarint;

use crate::tally::Tally;
use crate::threads::on_two_threads;
use std::panic;

/// The layers under the payload: varints, UTF-8 and lines.
pub fn leaves(seed: u64) -> Vec<Tally> {
    vec![
        read_uvarint::host(seed),
        read_uvarint::leaf(seed),
        read_uvarint::signed(seed),
        read_uvarint::places(seed),
        read_uvarint::lent_number(seed),
        read_uvarint::many(seed),
        write_uvarint::one(seed),
        write_uvarint::signed(seed),
        write_uvarint::room(seed),
        write_uvarint::many(seed),
        utf8::is_utf8(seed),
        line_starts::texts(seed),
        line_starts::tables(seed),
        line_starts::limits(),
        line_col::offsets(seed),
        line_col::answers(seed),
    ]
}

pub fn read(seed: u64) -> Vec<Tally> {
    on_two_threads(|half| read::payloads(seed, half))
}

pub fn write(seed: u64) -> Vec<Tally> {
    silence_panics();
    on_two_threads(|half| write::programs(seed, half))
}

pub fn check(seed: u64) -> Vec<Tally> {
    silence_panics();
    on_two_threads(|half| check::payloads(seed, half))
}

/// The Rust's writer panics where a record's name is not gathered: that is an answer, and not to be printed.
pub fn silence_panics() {
    let print = panic::take_hook();
    panic::set_hook(Box::new(move |info| {
        let message = info.payload_as_str().unwrap_or_default();
        if !message.starts_with("string not interned") {
            print(info);
        }
    }));
}
