//! The lines of each crate: code, definitions, laws, proofs; and its must-fail edits.

use std::path::Path;
use std::{fs, io};

pub struct Lines {
    pub name: String,
    /// Code, definitions, laws, proofs, must-fail edits.
    pub counts: [usize; 5],
}

/// In the order of crates.txt.
pub fn crates(project: &Path) -> io::Result<Vec<Lines>> {
    let list = fs::read_to_string(project.join("crates.txt"))?;
    let listed = list.lines().filter(|line| !line.starts_with('#'));
    let listed = listed.filter_map(|line| line.split_once(':'));
    // Behind its name a static library's line says that it is one.
    let names = listed.filter_map(|(listed, _)| listed.split_whitespace().next());
    names.map(|name| of_crate(project, name)).collect()
}

pub fn total(crates: &[Lines]) -> Lines {
    let mut counts = [0; 5];
    for lines in crates {
        for (sum, count) in counts.iter_mut().zip(lines.counts) {
            *sum += count;
        }
    }
    Lines {
        name: "all".to_string(),
        counts,
    }
}

fn of_crate(project: &Path, name: &str) -> io::Result<Lines> {
    let folder = project.join("crates").join(name);
    let laws_of_specs = in_folder(&folder.join("specs/Laws"), "antt")?;
    let laws_of_proofs = in_folder(&folder.join("proofs/Laws"), "antt")?;
    let counts = [
        in_folder(&folder.join("src"), "rt")?,
        in_folder(&folder.join("specs"), "antt")? - laws_of_specs,
        laws_of_specs + laws_of_proofs,
        in_folder(&folder.join("proofs"), "antt")? - laws_of_proofs,
        edits(&folder.join("must-fail"))?,
    ];
    Ok(Lines {
        name: name.to_string(),
        counts,
    })
}

/// The lines of all files with this ending in a folder and those below; none where it is not there.
fn in_folder(folder: &Path, ending: &str) -> io::Result<usize> {
    if !folder.is_dir() {
        return Ok(0);
    }
    let mut lines = 0;
    for entry in fs::read_dir(folder)? {
        let path = entry?.path();
        if path.is_dir() {
            lines += in_folder(&path, ending)?;
        } else if path.extension().is_some_and(|e| e == ending) {
            lines += counted(&fs::read_to_string(&path)?);
        }
    }
    Ok(lines)
}

fn counted(text: &str) -> usize {
    let comment = |line: &str| line.starts_with("//") || line.starts_with("--");
    let lines = text.lines().map(str::trim_start);
    lines
        .filter(|line| !line.is_empty() && !comment(line))
        .count()
}

fn edits(folder: &Path) -> io::Result<usize> {
    if !folder.is_dir() {
        return Ok(0);
    }
    let names: Result<Vec<_>, _> = fs::read_dir(folder)?
        .map(|entry| entry.map(|entry| entry.path()))
        .collect();
    let is_edit = |path: &&std::path::PathBuf| path.extension().is_some_and(|e| e == "edit");
    Ok(names?.iter().filter(is_edit).count())
}
