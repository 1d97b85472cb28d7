//! Gathers the project's figures into docs/FIGURES.md, with docs/growth.svg: the gate's verdict, lines, comparison counts,
//! speed, growth.

mod gate;
mod lines;
mod plot;
mod runs;
mod today;

use std::fmt::Write as _;
use std::path::{Path, PathBuf};
use std::process::ExitCode;
use std::{env, fs, io};

const USAGE: &str = "\
usage: figures [--gate FILE]

Runs `rt ci`, the comparisons and the measurements, which takes a good half hour, and writes docs/FIGURES.md and
docs/growth.svg. Nothing else should run meanwhile. --gate FILE takes what `rt ci` printed from a file.";

/// What is compared and measured, each a word of the programs `compare` and `measure`, the last of `measure` alone.
const LAYERS: [&str; 5] = ["leaves", "read", "write", "check", "stack"];

fn main() -> ExitCode {
    let words: Vec<String> = env::args().skip(1).collect();
    let log = match &words[..] {
        [] => None,
        [option, file] if option == "--gate" => Some(PathBuf::from(file)),
        _ => {
            eprintln!("{USAGE}");
            return ExitCode::from(2);
        }
    };
    match gather(log.as_deref()) {
        Ok(()) => ExitCode::SUCCESS,
        Err(e) => {
            eprintln!("figures: {e}");
            ExitCode::FAILURE
        }
    }
}

/// The folder that holds `compare/`.
fn project_folder() -> PathBuf {
    Path::new(env!("CARGO_MANIFEST_DIR")).join("..")
}

fn gather(log: Option<&Path>) -> io::Result<()> {
    let project = project_folder();
    let gate = match log {
        Some(file) => gate::Gate::of(&fs::read_to_string(file)?),
        None => gate::Gate::of(&runs::gate(&project)?),
    };
    let crates = lines::crates(&project)?;
    let compared = runs::printed("compare", &LAYERS)?;
    let measured = runs::printed("measure", &LAYERS)?;
    let mut page = heading(&project);
    page += &gate.summary();
    page += &table(&crates);
    page += &section("Compared with the Rust", "compare", &compared);
    page += &section("Measured beside the Rust", "measure", &measured);
    let docs = project.join("docs");
    if let Some(svg) = plot::growth(&measured) {
        page += GROWTH;
        fs::write(docs.join("growth.svg"), svg)?;
    }
    fs::write(docs.join("FIGURES.md"), page)
}

const GROWTH: &str = "
## Growth

Time against the length of the payload, for growing copies of the script load; both axes double from mark to mark, so that
time in proportion to length rises one mark for each mark.

![time against length](growth.svg)
";

fn heading(project: &Path) -> String {
    format!(
        "# Figures\n\nGathered on {} from commit {} by `cargo run --release --bin figures` in `compare/`, with {}, on {}.\n",
        today::date(),
        runs::commit(project),
        runs::kit(),
        runs::machine()
    )
}

/// A line for each crate: the lines of each kind that it has, and its must-fail edits.
fn table(crates: &[lines::Lines]) -> String {
    let mut page = "\n## Crates\n\nLines that are neither empty nor comment.\n\n".to_string();
    page += "| crate | code | definitions | laws | proofs | must-fail edits |\n|---|---|---|---|---|---|\n";
    for lines in crates.iter().chain([&lines::total(crates)]) {
        let counts = lines.counts.map(|count| count.to_string()).join(" | ");
        // Writing into a string does not fail.
        let _ = writeln!(page, "| {} | {counts} |", lines.name);
    }
    page
}

fn section(title: &str, program: &str, printed: &[runs::Printed]) -> String {
    let mut page = format!("\n## {title}\n");
    for runs::Printed { word, text } in printed {
        let _ = write!(page, "\n`{program} -- {word}`\n\n```text\n{text}```\n");
    }
    page
}
