//! Where a static library of the repository is, brought up to date. The build scripts of this package and of the tests share it.
//!
//! It is looked for in its crate's folder `out`, and `rt lib` makes it where it is missing or older than the sources. Where
//! `TUGROKT_LIB_DIR` names a folder, the library of that folder is taken as it is.

use std::path::{Path, PathBuf};
use std::process::{Command, Stdio};
use std::time::SystemTime;
use std::{env, fs};

/// Has cargo link the library `name`, and gives its archive.
pub fn link(root: &Path, name: &str) -> PathBuf {
    println!("cargo:rerun-if-env-changed=TUGROKT_LIB_DIR");
    let file = format!("lib{name}.a");
    let folder = env::var("TUGROKT_LIB_DIR").map_or_else(|_| made(root, name, &file, &["lib"]).parent().unwrap().to_path_buf(), PathBuf::from);
    let archive = folder.join(file);
    println!("cargo:rerun-if-changed={}", archive.display());
    println!("cargo:rustc-link-search=native={}", folder.display());
    println!("cargo:rustc-link-lib=static={name}");
    archive
}

/// What rt makes of a crate in its folder `out`: the file of this name, made by these words where it is missing or older than the sources.
pub fn made(root: &Path, name: &str, file: &str, words: &[&str]) -> PathBuf {
    let sources = sources(root);
    for source in &sources {
        println!("cargo:rerun-if-changed={}", source.display());
    }
    let folder = root.join("crates").join(name);
    let made = folder.join("out").join(file);
    if modified(&made) <= sources.iter().filter_map(|source| newest(source)).max() {
        let began = SystemTime::now();
        rt(&folder, words);
        // What is edited meanwhile is newer; and where rt finds that nothing has changed it leaves the file as it is.
        fs::File::open(&made).and_then(|file| file.set_modified(began)).unwrap_or_else(|e| panic!("{}: {e}", made.display()));
    }
    made
}

/// All that rt proves: the list of the crates, and of each its code, its definitions and its proofs.
fn sources(root: &Path) -> Vec<PathBuf> {
    let crates = fs::read_dir(root.join("crates")).into_iter().flatten().flatten();
    let parts = crates.flat_map(|folder| ["src", "specs", "proofs"].map(|part| folder.path().join(part)));
    parts.filter(|part| part.exists()).chain([root.join("crates.txt")]).collect()
}

/// Runs a command of the Rattle kit in a crate's folder, and fails with all that it said where it fails.
fn rt(folder: &Path, words: &[&str]) {
    let run = Command::new("rt").args(words).current_dir(folder).stdin(Stdio::null()).output();
    let run = run.unwrap_or_else(|e| panic!("rt {words:?}: {e}. Is the Rattle kit on this machine?"));
    let said = String::from_utf8_lossy(&run.stdout).into_owned() + &String::from_utf8_lossy(&run.stderr);
    assert!(run.status.success(), "rt {words:?} in {} failed:\n{said}", folder.display());
}

fn modified(path: &Path) -> Option<SystemTime> {
    fs::metadata(path).and_then(|m| m.modified()).ok()
}

/// When a file, or the newest one below a folder, was changed.
fn newest(path: &Path) -> Option<SystemTime> {
    match fs::read_dir(path) {
        Ok(entries) => entries.flatten().filter_map(|entry| newest(&entry.path())).max(),
        Err(_) => modified(path),
    }
}
