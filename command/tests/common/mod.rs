//! Runs the command, and the proved program beside it.

// Every file of tests has this module for itself, and uses a part of it.
#![allow(dead_code)]

use std::ffi::OsStr;
use std::fs;
use std::io::Write;
use std::path::{Path, PathBuf};
use std::process::{Child, Command, Output, Stdio};

use model::cases;
use model::program::run_with;
use model::room::outside;

/// How a call ended.
#[derive(Clone, Debug, PartialEq, Eq)]
pub struct Ended {
    pub status: i32,
    pub page: String,
    pub said: String,
}

impl Ended {
    pub fn new(status: i32, page: &str, said: &str) -> Ended {
        Ended { status, page: page.to_string(), said: said.to_string() }
    }
}

/// The command, with all that it writes caught, and nothing on standard input.
pub fn tugrokt() -> Command {
    let mut command = Command::new(env!("CARGO_BIN_EXE_tugrokt"));
    command.stdin(Stdio::null()).stdout(Stdio::piped()).stderr(Stdio::piped());
    command
}

/// A line of the shell, in which `$T` is the command. It runs in this folder.
pub fn shell(folder: &Path, line: &str) -> Ended {
    let mut command = Command::new("bash");
    command.args(["-c", line]).current_dir(folder).env("T", env!("CARGO_BIN_EXE_tugrokt"));
    command.stdin(Stdio::null()).stdout(Stdio::piped()).stderr(Stdio::piped());
    end(command.spawn().expect("bash starts"))
}

/// Waits for a call that was started. One that panics, or is ended by a signal, has failed whatever was expected of it.
pub fn end(child: Child) -> Ended {
    let Output { status, stdout, stderr } = child.wait_with_output().expect("the command ends");
    let said = String::from_utf8_lossy(&stderr).into_owned();
    assert!(!said.contains("panicked"), "{said}");
    let status = status.code().unwrap_or_else(|| panic!("{status}: {said}"));
    Ended { status, page: String::from_utf8(stdout).expect("pages are ASCII"), said }
}

/// Runs the command in a folder, with a text on standard input.
pub fn run_in<S: AsRef<OsStr>>(folder: &Path, words: &[S], text: &[u8]) -> Ended {
    let mut child = tugrokt().args(words).current_dir(folder).stdin(Stdio::piped()).spawn().expect("the command starts");
    // A text that nobody reads to its end is no fault.
    let _ = child.stdin.take().unwrap().write_all(text);
    end(child)
}

/// Runs the command with a text on standard input.
pub fn run<S: AsRef<OsStr>>(words: &[S], text: &[u8]) -> Ended {
    run_in(Path::new("."), words, text)
}

/// A folder of a test's own, with nothing in it. Some lay links down there.
pub fn folder(name: &str) -> PathBuf {
    outside(&format!("command/{name}"))
}

/// The same with these files.
pub fn folder_with(name: &str, files: &[(&str, &[u8])]) -> PathBuf {
    let folder = folder(name);
    for (name, text) in files {
        fs::write(folder.join(name), text).unwrap();
    }
    folder
}

/// The names of all that is in a folder, in their order.
pub fn listed(folder: &Path) -> Vec<String> {
    let mut names: Vec<String> = fs::read_dir(folder).unwrap().map(|entry| entry.unwrap().file_name().to_string_lossy().into_owned()).collect();
    names.sort();
    names
}

/// The text of the case of this name.
pub fn sheet(name: &str) -> Vec<u8> {
    cases::named(name).sheet.text()
}

/// A sheet that is refused, and its page.
pub const REFUSED: (&[u8], &str) = (b"(sheet 49)\n", "(refused 6 (line 1))\n");

/// A partner's sheet with its plan, the same sheet in our form, and one of theirs with none.
pub const THEIRS: &str = "(day 7)\n(note)\n(job 4017 (start 3) (hours 2))\n(limit (from 1) (hours 3) (most 2))\n";
pub const THEIRS_AS_OURS: &str = "(sheet 7)\n(unit 4017 (window 3 4))\n(rule (slots 1 3) (count 0 2))\n";
pub const THEIRS_NONE: &str = "(day 2)\n(job 1 (start 1) (hours 2))\n(limit (from 1) (hours 2) (most 0))\n";
pub const THEIRS_RING: &str = "(answer none)\n(at-most 0 (slots 1 2))\n(at-least 1 (slots 1 2))\n(shortfall 1)\n";

/// What the proved program writes, started with these words.
pub fn wave<S: AsRef<OsStr>>(words: &[S], text: &[u8]) -> String {
    String::from_utf8(run_with(words, text, &[], None).0).expect("pages are ASCII")
}

/// The status that a page asks for, by its first words.
pub fn status_of(page: &str) -> i32 {
    match page {
        _ if page.starts_with("(answer none)\n") => 1,
        _ if page.starts_with("(refused ") => 2,
        _ => 0,
    }
}

/// Numbers that were listed as `1, 2 and 4 to 6`.
pub fn numbers(list: &str) -> Vec<usize> {
    let number = |word: &str| word.parse::<usize>().unwrap_or_else(|_| panic!("{word:?} in {list:?}"));
    let run = |part: &str| match part.split_once(" to ") {
        Some((first, last)) => (number(first)..=number(last)).collect(),
        None => vec![number(part)],
    };
    list.split(", ").flat_map(|part| part.split(" and ")).flat_map(run).collect()
}
