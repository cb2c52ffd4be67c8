//! Reads a sheet from standard input and prints its answer page.
//!
//!     cargo run --release --example sheet < SHEET

use std::io::{self, Read, Write};
use std::process::ExitCode;
use tugrokt::told;

// How it ends, as the command does; with 0 for a plan.
const NONE: u8 = 1;
const REFUSED: u8 = 2;
const FAILED: u8 = 3;
const USAGE: u8 = 64;

/// Says it on standard error. Where nobody listens there, the status still tells.
fn say(words: impl std::fmt::Display) {
    let _ = writeln!(io::stderr(), "{words}");
}

/// Prints the page, and gives the status.
fn run() -> io::Result<u8> {
    let mut text = Vec::new();
    // One byte more than the longest text is enough to have a longer one refused.
    io::stdin().lock().take(tugrokt::MAX_BYTES as u64 + 1).read_to_end(&mut text)?;
    let (page, status) = match told::read(&text).and_then(|sheet| told::page(&sheet)) {
        Ok(page) if page.starts_with(b"(answer none)") => (page, NONE),
        Ok(page) => (page, 0),
        Err(refusal) => {
            say(refusal);
            (refusal.page().into_bytes(), REFUSED)
        }
    };
    io::stdout().write_all(&page)?;
    io::stdout().flush()?;
    Ok(status)
}

fn main() -> ExitCode {
    if std::env::args_os().len() > 1 {
        say("usage: sheet < SHEET");
        return ExitCode::from(USAGE);
    }
    ExitCode::from(run().unwrap_or_else(|error| {
        say(format_args!("sheet: {error}"));
        FAILED
    }))
}
