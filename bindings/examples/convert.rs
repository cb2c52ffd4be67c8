//! Turns a sheet from standard input into the partner's form, or a partner's sheet into ours.
//!
//!     cargo run --release --example convert to-partner < SHEET
//!     cargo run --release --example convert from-partner < SHEET

use std::io::{self, Read, Write};
use std::process::ExitCode;
use tugrokt::told;

// How it ends, as the command does; with 0 for a sheet in the other form.
const REFUSED: u8 = 2;
const FAILED: u8 = 3;
const USAGE: u8 = 64;

/// Says it on standard error. Where nobody listens there, the status still tells.
fn say(words: impl std::fmt::Display) {
    let _ = writeln!(io::stderr(), "{words}");
}

/// Prints the sheet in the other form, and gives the status.
fn run(to_partner: bool) -> io::Result<u8> {
    let mut text = Vec::new();
    // One byte more than the longest text is enough to have a longer one refused.
    io::stdin().lock().take(tugrokt::MAX_BYTES as u64 + 1).read_to_end(&mut text)?;
    let converted = match to_partner {
        true => told::read(&text).and_then(|sheet| told::write_partner(&sheet)),
        false => told::read_partner(&text).and_then(|sheet| told::write(&sheet)),
    };
    let (page, status) = match converted {
        Ok(page) => (page, 0),
        // On the page 17 has a unit's place in the lists for its line, and 18 a rule's; the words say which.
        Err(refusal) => {
            say(refusal);
            (refusal.page().into_bytes(), REFUSED)
        }
    };
    io::stdout().write_all(&page)?;
    io::stdout().flush()?;
    Ok(status)
}

fn main() -> ExitCode {
    let words: Vec<_> = std::env::args_os().skip(1).collect();
    let to_partner = match &words[..] {
        [word] if word == "to-partner" => true,
        [word] if word == "from-partner" => false,
        _ => {
            say("usage: convert to-partner|from-partner < SHEET");
            return ExitCode::from(USAGE);
        }
    };
    ExitCode::from(run(to_partner).unwrap_or_else(|error| {
        say(format_args!("convert: {error}"));
        FAILED
    }))
}
