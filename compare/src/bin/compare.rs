//! Compares the port with the Rust; the exit status is 1 when an answer differs.

use compare::arguments::{arguments, refuse};
use compare::compare::{check, leaves, read, write};
use compare::tally::report;
use std::process::ExitCode;

const USAGE: &str = "compare leaves|read|write|check";

fn main() -> ExitCode {
    let arguments = arguments(USAGE);
    let [word] = &arguments.words[..] else {
        refuse(USAGE);
    };
    let tallies = match word.as_str() {
        "leaves" => leaves(arguments.seed),
        "read" => read(arguments.seed),
        "write" => write(arguments.seed),
        "check" => check(arguments.seed),
        _ => refuse(USAGE),
    };
    match report(&tallies) {
        true => ExitCode::SUCCESS,
        false => ExitCode::FAILURE,
    }
}
