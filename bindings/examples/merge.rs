//! Merges the sheets of two files and prints the merged sheet, or the line of one of its units as it stands in its file.
//!
//!     cargo run --release --example merge FIRST SECOND
//!     cargo run --release --example merge FIRST SECOND LOADER

use std::ffi::OsString;
use std::fs::File;
use std::io::{self, Read, Write};
use std::process::ExitCode;
use tugrokt::told;

// How it ends, as the command does; with 0 for a merged sheet or a line.
const REFUSED: u8 = 2;
const FAILED: u8 = 3;
const USAGE: u8 = 64;

/// Says it on standard error. Where nobody listens there, the status still tells.
fn say(words: impl std::fmt::Display) {
    let _ = writeln!(io::stderr(), "{words}");
}

/// Reads a file. One byte more than the longest text is enough to have a longer one refused.
fn read_file(name: &OsString) -> io::Result<Vec<u8>> {
    let mut text = Vec::new();
    let read = File::open(name).and_then(|file| file.take(tugrokt::MAX_BYTES as u64 + 1).read_to_end(&mut text));
    read.map_err(|error| io::Error::new(error.kind(), format!("{}: {error}", name.to_string_lossy())))?;
    Ok(text)
}

/// A loader number is digits. No sheet has a loader number of 0, which stands here for all that are too large.
fn loader(word: &OsString) -> Option<u16> {
    let digits = word.to_str().filter(|word| !word.is_empty() && word.bytes().all(|byte| byte.is_ascii_digit()))?;
    Some(digits.parse().unwrap_or(0))
}

/// Prints the merged sheet, or the line of the wanted loader's unit, and gives the status.
fn run(names: [&OsString; 2], wanted: Option<u16>) -> io::Result<u8> {
    let (one, two) = (read_file(names[0])?, read_file(names[1])?);
    let shown = match wanted {
        None => told::merge(&one, &two).and_then(|sheet| told::write(&sheet)),
        // The line is a part of one of the texts.
        Some(loader) => told::line_of(&one, &two, loader).map(|line| [line, b"\n"].concat()),
    };
    let (page, status) = match shown {
        Ok(page) => (page, 0),
        Err(refusal) => {
            match refusal.text(&one) {
                Some(text) => say(format_args!("{}: {refusal}", names[text - 1].to_string_lossy())),
                None => say(refusal),
            }
            (refusal.page().into_bytes(), REFUSED)
        }
    };
    io::stdout().write_all(&page)?;
    io::stdout().flush()?;
    Ok(status)
}

fn main() -> ExitCode {
    let words: Vec<OsString> = std::env::args_os().skip(1).collect();
    let (names, wanted) = match &words[..] {
        [one, two] => ([one, two], None),
        [one, two, word] if loader(word).is_some() => ([one, two], loader(word)),
        _ => {
            say("usage: merge FIRST SECOND [LOADER]");
            return ExitCode::from(USAGE);
        }
    };
    ExitCode::from(run(names, wanted).unwrap_or_else(|error| {
        say(format_args!("merge: {error}"));
        FAILED
    }))
}
