//! Other programs, run for what they print.

use std::io::{self, Error};
use std::path::Path;
use std::process::{Command, Output};

/// What a program of this workspace printed for a word.
pub struct Printed {
    pub word: &'static str,
    pub text: String,
}

/// Runs a program of this workspace for each word; a word that it does not have, which ends with its usage and exit
/// status 2, is left out.
pub fn printed(program: &str, words: &[&'static str]) -> io::Result<Vec<Printed>> {
    let mut all = Vec::new();
    for word in words {
        eprintln!("{program} -- {word}");
        let run = Command::new("cargo")
            .args(["run", "--release", "--quiet", "--bin", program, "--", word])
            .current_dir(env!("CARGO_MANIFEST_DIR"))
            .output()?;
        match run.status.code() {
            Some(0) => all.push(Printed {
                word,
                text: text(&run),
            }),
            Some(2) => (),
            _ => return Err(failed(&format!("{program} -- {word}"), &run)),
        }
    }
    Ok(all)
}

/// What the gate prints, from nothing.
pub fn gate(project: &Path) -> io::Result<String> {
    eprintln!("rt ci");
    let run = Command::new("rt").arg("ci").current_dir(project).output()?;
    match run.status.success() {
        true => Ok(text(&run) + &String::from_utf8_lossy(&run.stderr)),
        false => Err(failed("rt ci", &run)),
    }
}

/// The kit that proves and builds the port, as `rt version` names it.
pub fn kit() -> String {
    let run = Command::new("rt").arg("version").output();
    match run {
        Ok(run) if run.status.success() => text(&run).trim().to_string(),
        _ => "an unknown kit".to_string(),
    }
}

/// The commit that is checked out, or that there is none.
pub fn commit(project: &Path) -> String {
    let run = Command::new("git")
        .args(["rev-parse", "--short", "HEAD"])
        .current_dir(project)
        .output();
    match run {
        Ok(run) if run.status.success() => text(&run).trim().to_string(),
        _ => "unknown".to_string(),
    }
}

/// The processor and how many of its cores are there.
pub fn machine() -> String {
    let cores = std::thread::available_parallelism().map_or(1, usize::from);
    let list = std::fs::read_to_string("/proc/cpuinfo").unwrap_or_default();
    let named = list.lines().find(|line| line.starts_with("model name"));
    let name = named.and_then(|line| line.split_once(": "));
    let name = name.map_or("an unnamed processor", |(_, name)| name);
    format!("{name}, {cores} cores")
}

fn text(run: &Output) -> String {
    String::from_utf8_lossy(&run.stdout).into_owned()
}

fn failed(what: &str, run: &Output) -> Error {
    let printed = text(run) + &String::from_utf8_lossy(&run.stderr);
    Error::other(format!("{what}: {}\n{printed}", run.status))
}
