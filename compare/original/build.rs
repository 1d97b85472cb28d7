//! Finds the Rust sources and writes `modules.rs`, which names them as modules of this crate.

use std::path::{Path, PathBuf};
use std::{env, fs, process};

/// The sources that are built where they stand.
const IN_PLACE: [(&str, &str); 3] = [
    ("chunk", "crates/rl-vm/src/chunk.rs"),
    ("values", "crates/rl-vm/src/values.rs"),
    ("line_index", "crates/rl-utils/src/line_index.rs"),
];

/// The source whose private functions are called: built from a copy with a child module behind it.
const BYTECODE: &str = "crates/rl-vm/src/bytecode.rs";

fn main() {
    println!("cargo::rerun-if-env-changed=RL_SOURCE");
    let source = source_folder();
    let mut modules: String = IN_PLACE
        .iter()
        .map(|(name, file)| module(name, &found(&source, file)))
        .collect();
    modules += &module("bytecode", &with_access(&found(&source, BYTECODE)));
    write(&out_folder().join("modules.rs"), modules.as_bytes());
}

fn source_folder() -> PathBuf {
    match env::var_os("RL_SOURCE") {
        Some(folder) => PathBuf::from(folder),
        None => manifest_folder().join("../../../shared/docs/src"),
    }
}

fn found(source: &Path, file: &str) -> PathBuf {
    let path = source.join(file);
    println!("cargo::rerun-if-changed={}", path.display());
    match path.canonicalize() {
        Ok(path) => path,
        Err(_) => refuse(&format!(
            "the Rust source {} is not there: set RL_SOURCE to the folder that holds {file}",
            path.display()
        )),
    }
}

/// A copy of the file, byte for byte, and after it the module that reaches its private functions.
fn with_access(file: &Path) -> PathBuf {
    let access = manifest_folder().join("src/access.rs");
    let mut text = fs::read(file).unwrap_or_else(|e| refuse(&format!("{}: {e}", file.display())));
    let door =
        format!("\n#[warn(clippy::all, dead_code)]\n#[path = {access:?}]\npub mod access;\n");
    text.extend(door.bytes());
    let copy = out_folder().join("bytecode.rs");
    write(&copy, &text);
    copy
}

/// The declaration of a module; what the compiler would remark on in the original is left alone.
fn module(name: &str, file: &Path) -> String {
    format!("#[allow(clippy::all, dead_code)]\n#[path = {file:?}]\npub mod {name};\n")
}

fn write(path: &Path, bytes: &[u8]) {
    fs::write(path, bytes).unwrap_or_else(|e| refuse(&format!("{}: {e}", path.display())));
}

fn manifest_folder() -> PathBuf {
    folder_of("CARGO_MANIFEST_DIR")
}

fn out_folder() -> PathBuf {
    folder_of("OUT_DIR")
}

fn folder_of(variable: &str) -> PathBuf {
    PathBuf::from(env::var_os(variable).expect("cargo sets this variable"))
}

fn refuse(message: &str) -> ! {
    println!("cargo::error={message}");
    process::exit(1);
}
