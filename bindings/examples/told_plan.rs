//! Reads a sheet from standard input, plans it, and prints each unit's slot and window and each slot's count, or the limits of the ring.
//!
//!     cargo run --release --example told_plan < SHEET

use std::io::{self, Read, Write};
use std::process::ExitCode;
use tugrokt::told::{self, Answer, Ring};
use tugrokt::{Plan, Sheet};

// How it ends, as the command does; with 0 for a plan.
const NONE: u8 = 1;
const REFUSED: u8 = 2;
const FAILED: u8 = 3;
const USAGE: u8 = 64;

/// Says it on standard error. Where nobody listens there, the status still tells.
fn say(words: impl std::fmt::Display) {
    let _ = writeln!(io::stderr(), "{words}");
}

/// A line for each unit, and one for each slot.
fn plan_lines(sheet: &Sheet, plan: &Plan) -> String {
    let unit = |i: usize| {
        let place = if plan.is_carried(i) { "carried".to_string() } else { format!("slot {}", plan.slot[i]) };
        format!("unit {}: {place}, from {} to {}\n", sheet.loader[i], plan.earliest[i], plan.latest[i])
    };
    let slot = |slot| {
        let (least, greatest) = plan.range(slot, slot);
        format!("slot {slot}: {}, from {least} to {greatest}\n", plan.count(slot, slot))
    };
    (0..plan.slot.len()).map(unit).chain((1..=sheet.span).map(slot)).collect()
}

/// A line for each limit, and one for the shortfall.
fn limit_lines(ring: &Ring) -> String {
    let lines: String = ring.limits.iter().map(|limit| format!("{limit}\n")).collect();
    format!("{lines}(shortfall {})\n", ring.shortfall)
}

/// Prints the answer, and gives the status.
fn run() -> io::Result<u8> {
    let mut text = Vec::new();
    // One byte more than the longest text is enough to have a longer one refused.
    io::stdin().lock().take(tugrokt::MAX_BYTES as u64 + 1).read_to_end(&mut text)?;
    let (lines, status) = match told::read(&text).and_then(|sheet| Ok((told::plan(&sheet)?, sheet))) {
        Ok((Answer::Plan(plan), sheet)) => (plan_lines(&sheet, &plan), 0),
        Ok((Answer::None(ring), _)) => (limit_lines(&ring), NONE),
        Err(refusal) => {
            say(refusal);
            (refusal.page(), REFUSED)
        }
    };
    io::stdout().write_all(lines.as_bytes())?;
    io::stdout().flush()?;
    Ok(status)
}

fn main() -> ExitCode {
    if std::env::args_os().len() > 1 {
        say("usage: told_plan < SHEET");
        return ExitCode::from(USAGE);
    }
    ExitCode::from(run().unwrap_or_else(|error| {
        say(format_args!("told_plan: {error}"));
        FAILED
    }))
}
