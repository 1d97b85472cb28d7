//! Measures the port beside the Rust.

use compare::arguments::{arguments, refuse};
use compare::measure::{check, leaves, read, stack, write};

const USAGE: &str = "measure leaves|read|write|check|stack";

fn main() {
    let arguments = arguments(USAGE);
    let [word] = &arguments.words[..] else {
        refuse(USAGE);
    };
    match word.as_str() {
        "leaves" => leaves(arguments.seed),
        "read" => read(arguments.seed),
        "write" => write(arguments.seed),
        "check" => check(arguments.seed),
        "stack" => stack(),
        _ => refuse(USAGE),
    }
}
