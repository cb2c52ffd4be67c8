//! Reads a sheet from standard input, decides it, and prints how few and how many deliveries each slot can hold, or the limits of the ring.
//!
//!     cargo run --release --example told_decide < SHEET

use std::io::{self, Read, Write};
use std::process::ExitCode;
use tugrokt::told::{self, Decision, Ring};
use tugrokt::Counts;

// How it ends, as the command does; with 0 for a sheet that fits.
const NONE: u8 = 1;
const REFUSED: u8 = 2;
const FAILED: u8 = 3;
const USAGE: u8 = 64;

/// Says it on standard error. Where nobody listens there, the status still tells.
fn say(words: impl std::fmt::Display) {
    let _ = writeln!(io::stderr(), "{words}");
}

/// A line for each slot.
fn slots(counts: &Counts, span: usize) -> String {
    let line = |slot| {
        let (least, greatest) = counts.range(slot, slot);
        format!("slot {slot}: {least} to {greatest}\n")
    };
    (1..=span).map(line).collect()
}

/// A line for each limit, and one for the shortfall.
fn limits(ring: &Ring) -> String {
    let lines: String = ring.limits.iter().map(|limit| format!("{limit}\n")).collect();
    format!("{lines}(shortfall {})\n", ring.shortfall)
}

/// Prints what was decided, and gives the status.
fn run() -> io::Result<u8> {
    let mut text = Vec::new();
    // One byte more than the longest text is enough to have a longer one refused.
    io::stdin().lock().take(tugrokt::MAX_BYTES as u64 + 1).read_to_end(&mut text)?;
    let (lines, status) = match told::read(&text).and_then(|sheet| Ok((sheet.span, told::decide(&sheet)?))) {
        Ok((span, Decision::Fits(counts))) => (slots(&counts, span), 0),
        Ok((_, Decision::None(ring))) => (limits(&ring), NONE),
        Err(refusal) => {
            say(refusal);
            (refusal.page(), REFUSED)
        }
    };
    io::stdout().write_all(lines.as_bytes())?;
    io::stdout().flush()?;
    Ok(status)
}

fn main() -> ExitCode {
    if std::env::args_os().len() > 1 {
        say("usage: told_decide < SHEET");
        return ExitCode::from(USAGE);
    }
    ExitCode::from(run().unwrap_or_else(|error| {
        say(format_args!("told_decide: {error}"));
        FAILED
    }))
}
