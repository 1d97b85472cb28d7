//! Records the Rust's answers, for the programs that replay them.

use compare::arguments::{arguments, refuse};
use compare::record::{check, leaves, read, write};
use std::path::Path;
use std::process::ExitCode;

const USAGE: &str = "record leaves|read|write|check FOLDER";

fn main() -> ExitCode {
    let arguments = arguments(USAGE);
    let [word, folder] = &arguments.words[..] else {
        refuse(USAGE);
    };
    let folder = Path::new(folder);
    let recorded = match word.as_str() {
        "leaves" => leaves(folder, arguments.seed),
        "read" => read(folder, arguments.seed),
        "write" => write(folder, arguments.seed),
        "check" => check(folder, arguments.seed),
        _ => refuse(USAGE),
    };
    match recorded {
        Ok(()) => ExitCode::SUCCESS,
        Err(e) => {
            eprintln!("record: {e}");
            ExitCode::FAILURE
        }
    }
}
