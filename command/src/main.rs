//! `tugrokt`, the wave planner for people.
//!
//! The page on standard output is the planner's, byte for byte. All that is said besides goes to standard error, or is asked for.

mod chart;
mod explain;
mod files;
mod hints;
mod lines;
mod many;
mod refused;
mod sheets;
mod status;
mod two;
mod words;

use std::ffi::OsString;
use std::process::ExitCode;

use crate::files::{say, write_out, Input, Unwritten};
use crate::status::Status;
use crate::words::{Given, Opt, Word, WrongUse};
use tugrokt::told::{self, Refusal};
use tugrokt::House;

fn main() -> ExitCode {
    let mut words = std::env::args_os().skip(1);
    let status = match words.next() {
        None => wrong_use(WrongUse("a word is missing".to_string()), None),
        Some(word) => run(word, words),
    };
    status.into()
}

fn run(first: OsString, rest: impl Iterator<Item = OsString>) -> Status {
    if first == "--help" || first == "-h" {
        return show(words::help().as_bytes());
    }
    if first == "--version" || first == "-V" {
        return show(words::version().as_bytes());
    }
    let Some(word) = Word::named(&first) else {
        return wrong_use(WrongUse(format!("there is no word {}", first.to_string_lossy())), None);
    };
    let done = word.read(rest).and_then(|given| if given.has(Opt::Help) { Ok(show(word.help().as_bytes())) } else { carry_out(given) });
    done.unwrap_or_else(|wrong| wrong_use(wrong, Some(word)))
}

fn carry_out(given: Given) -> Result<Status, WrongUse> {
    match given.word {
        Word::Plan | Word::Fits => sheets::answer(given),
        Word::FromPartner => Ok(convert(House::Partner, given)),
        Word::ToPartner => Ok(convert(House::Ours, given)),
        Word::Merge => two::merge(given),
        Word::Line => two::line(given),
    }
}

/// Says what is wrong with the words of the call, and where to find the right ones.
fn wrong_use(wrong: WrongUse, word: Option<Word>) -> Status {
    let word = word.map_or(String::new(), |word| format!("{} ", word.entry().name));
    say(&format!("tugrokt: {}\ntugrokt: see tugrokt {word}--help\n", wrong.0));
    Status::Usage
}

/// Writes what was asked for to standard output.
fn show(page: &[u8]) -> Status {
    write_out(page).map_or_else(unwritten, |()| Status::Done)
}

fn unwritten(why: Unwritten) -> Status {
    if let Unwritten::Failed(why) = why {
        fail(&why);
    }
    Status::Failed
}

/// Says that something failed.
fn fail(why: &str) -> Status {
    say(&format!("tugrokt: {why}\n"));
    Status::Failed
}

/// Writes the page of a refusal, and says it in words.
fn refuse(refusal: Refusal, words: String) -> Status {
    let shown = show(refusal.page().as_bytes());
    say(&words);
    shown.max(Status::Refused)
}

/// Writes a sheet of a house in the other's form.
fn convert(from: House, given: Given) -> Status {
    let input = given.operands.into_iter().next().map_or(Input::Stdin, Input::named);
    let text = match input.read() {
        Ok(text) => text,
        Err(why) => return fail(&why),
    };
    let converted = match from {
        House::Ours => told::read(&text).and_then(|sheet| told::write_partner(&sheet)),
        House::Partner => told::read_partner(&text).and_then(|sheet| told::write(&sheet)),
    };
    match converted {
        Ok(page) => show(&page),
        Err(refusal) => refuse(refusal, refused::words(&input.name(), from, &text, &refusal)),
    }
}
