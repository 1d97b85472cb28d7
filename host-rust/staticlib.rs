//! For build scripts: finds static libraries of the project, or has `rt` build those that are missing or old, and links
//! them.

use std::io::ErrorKind;
use std::path::{Path, PathBuf};
use std::process::{self, Command};
use std::time::SystemTime;
use std::{env, fs};

/// Names a folder that holds the static libraries; nothing is built then.
const FOLDER: &str = "RLC2_STATICLIB";

/// In each crate's folder, what `rt` made of the crate.
const OUT: &str = "out";

pub fn link(libraries: &[&str]) {
    println!("cargo::rerun-if-env-changed={FOLDER}");
    refuse_other_machines();
    match env::var_os(FOLDER) {
        Some(folder) => given(&PathBuf::from(folder), libraries),
        None => built(&project_folder().join("crates"), libraries),
    }
}

/// The archives hold code for x86-64 Linux.
fn refuse_other_machines() {
    let set = |variable: &str| env::var(variable).unwrap_or_default();
    let (machine, system) = (set("CARGO_CFG_TARGET_ARCH"), set("CARGO_CFG_TARGET_OS"));
    if (machine.as_str(), system.as_str()) != ("x86_64", "linux") {
        refuse(&format!(
            "the static libraries are for x86_64 Linux, and this build is for {machine} {system}"
        ));
    }
}

/// Links the libraries in the folder that the environment names, where it holds every one.
fn given(folder: &Path, libraries: &[&str]) {
    for name in libraries {
        let archive = archive(folder, name);
        if modified(&archive).is_none() {
            refuse(&format!("{FOLDER}: {} is not there", archive.display()));
        }
        link_from(folder, name);
    }
}

/// Links the libraries that `rt` keeps, each in the folder `out` of its crate, and builds those that are missing or old.
fn built(crates: &Path, libraries: &[&str]) {
    let changed = newest_in(crates);
    for name in libraries {
        let folder = crates.join(name);
        let out = folder.join(OUT);
        let there = modified(&archive(&out, name));
        if there.is_none_or(|built| built < changed) {
            build(name, &folder, there.is_some());
        }
        link_from(&out, name);
    }
    rerun_if_changed(crates);
}

/// What `rt` prints is shown by cargo when the build fails.
fn build(name: &str, folder: &Path, old_is_there: bool) {
    let run = Command::new("rt").arg("lib").current_dir(folder).status();
    match run {
        Ok(status) if status.success() => (),
        Ok(status) => refuse(&format!("`rt lib` in crates/{name} failed, {status}")),
        Err(e) if e.kind() == ErrorKind::NotFound && old_is_there => println!(
            "cargo::warning=lib{name}.a is older than crates/ and `rt` is not on the PATH: the old library is linked"
        ),
        Err(e) if e.kind() == ErrorKind::NotFound => refuse(&format!(
            "lib{name}.a is not built and `rt` is not on the PATH: install the Rattle kit, \
             or set {FOLDER} to a folder that holds the static libraries"
        )),
        Err(e) => refuse(&format!("`rt lib` in crates/{name} does not run: {e}")),
    }
}

fn link_from(folder: &Path, name: &str) {
    println!(
        "cargo::rerun-if-changed={}",
        archive(folder, name).display()
    );
    println!("cargo::rustc-link-search=native={}", folder.display());
    println!("cargo::rustc-link-lib=static={name}");
}

/// The folder above the package that lists the crates.
fn project_folder() -> PathBuf {
    let manifest = env::var_os("CARGO_MANIFEST_DIR").expect("cargo sets this variable");
    let mut above = Path::new(&manifest).ancestors();
    match above.find(|folder| folder.join("crates.txt").is_file()) {
        Some(folder) => folder.to_path_buf(),
        None => refuse("no folder above this package has the project's crates.txt"),
    }
}

fn archive(folder: &Path, name: &str) -> PathBuf {
    folder.join(format!("lib{name}.a"))
}

/// When the last of the files in a folder was changed, but for what `rt` made of them.
fn newest_in(folder: &Path) -> SystemTime {
    written_in(folder)
        .map(|(path, is_folder)| match is_folder {
            true => newest_in(&path),
            false => modified(&path).unwrap_or(SystemTime::UNIX_EPOCH),
        })
        .max()
        .unwrap_or(SystemTime::UNIX_EPOCH)
}

/// Has cargo look again where a file of a crate has changed.
fn rerun_if_changed(crates: &Path) {
    for (folder, _) in written_in(crates) {
        for (path, _) in written_in(&folder) {
            println!("cargo::rerun-if-changed={}", path.display());
        }
    }
}

/// The files and folders in a folder, and which are folders, but for the folders that `rt` makes.
fn written_in(folder: &Path) -> impl Iterator<Item = (PathBuf, bool)> {
    let entries = fs::read_dir(folder).into_iter().flatten().flatten();
    let named = entries.map(|entry| {
        let is_folder = entry.file_type().is_ok_and(|kind| kind.is_dir());
        (entry.path(), is_folder)
    });
    named.filter(|(path, is_folder)| !(*is_folder && path.ends_with(OUT)))
}

fn modified(file: &Path) -> Option<SystemTime> {
    fs::metadata(file).and_then(|data| data.modified()).ok()
}

fn refuse(message: &str) -> ! {
    println!("cargo::error={message}");
    process::exit(1);
}
