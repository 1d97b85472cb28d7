//! The command `rlc2`: checks payloads, lists them, and counts what is in them.

mod arguments;
mod check;
mod explain;
mod format;
mod help;
mod input;
mod list;
mod neighbourhood;
mod progress;
mod stat;
mod style;

use arguments::{Command, Request};
use std::io::{self, ErrorKind, Write};
use std::process::ExitCode;

/// What a run came to, the worst last.
#[derive(Debug, Clone, Copy, PartialEq, Eq, PartialOrd, Ord)]
enum Outcome {
    Passed,
    Refused,
    /// Wrong words on the command line, or a file that cannot be read.
    Failed,
}

impl From<Outcome> for ExitCode {
    fn from(outcome: Outcome) -> ExitCode {
        ExitCode::from(outcome as u8)
    }
}

fn main() -> ExitCode {
    let words: Vec<_> = std::env::args_os().skip(1).collect();
    let outcome = match arguments::parse(&words) {
        Ok(command) => run(&command),
        Err(message) => {
            complain(&format!("{message}; `rlc2 --help` says more"));
            Outcome::Failed
        }
    };
    outcome.into()
}

fn run(command: &Command) -> Outcome {
    let mut out = io::BufWriter::new(io::stdout().lock());
    let done = match command {
        Command::Help(text) => out.write_all(text.as_bytes()).map(|()| Outcome::Passed),
        Command::Check(request) => check::check(request, &mut out),
        Command::List(request, options) => list::list(request, *options, &mut out),
        Command::Stat(request) => stat::stat(request, &mut out),
    };
    match done.and_then(|outcome| out.flush().map(|()| outcome)) {
        Ok(outcome) => outcome,
        // Whoever reads the output has had enough of it, which need not be said.
        Err(e) if e.kind() == ErrorKind::BrokenPipe => Outcome::Failed,
        Err(e) => {
            complain(&format!("standard output: {e}"));
            Outcome::Failed
        }
    }
}

/// The names list of a request, or nothing where it cannot be read, which is said.
fn names_list(request: &Request) -> Option<Vec<u8>> {
    let Some(source) = &request.names else {
        return Some(Vec::new());
    };
    match input::whole(source) {
        Ok(names) => {
            if !names.is_empty() && !names.ends_with(b"\n") {
                complain(&format!(
                    "{source}: the last line does not end, so its name is not in the list"
                ));
            }
            Some(names)
        }
        Err(e) => {
            complain(&format!("{source}: {e}"));
            None
        }
    }
}

/// The names list and the payload of a request for one file, or nothing where one cannot be read, which is said.
fn opened(request: &Request) -> Option<(Vec<u8>, Vec<u8>)> {
    let names = names_list(request)?;
    let source = request.files.first()?;
    match input::payload(source) {
        Ok(payload) => Some((names, payload)),
        Err(e) => {
            complain(&format!("{source}: {e}"));
            None
        }
    }
}

fn complain(message: &str) {
    // Nothing is left to be told where standard error is closed.
    let _ = writeln!(io::stderr(), "rlc2: {message}");
}
