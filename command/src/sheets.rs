//! The answers to one sheet or to many.

use std::collections::{BTreeMap, BTreeSet};
use std::ffi::OsString;
use std::fs;
use std::path::{Path, PathBuf};
use std::thread;

use crate::chart::chart;
use crate::explain::explain;
use crate::files::{put_file, reason, say, write_out, Input, Unwritten};
use crate::many::{in_order, End, Progress, Tally};
use crate::status::Status;
use crate::words::{Given, Opt, Word, WrongUse};
use crate::{fail, refused, unwritten};
use tugrokt::told::{self, Answer, Ring};
use tugrokt::{House, Query, Sheet};

/// What a call asks of every sheet.
struct Asked {
    house: House,
    query: Query,
    explain: bool,
    chart: Option<PathBuf>,
    /// Where the pages go, if not to standard output.
    to: Option<PathBuf>,
}

/// The most files at a time.
const MAX_JOBS: usize = 512;

/// A sheet's file, and where its page goes, if not to standard output.
struct Task {
    input: Input,
    page: Option<PathBuf>,
}

/// What became of a sheet: what is still to be written to standard output, and to be said.
struct Outcome {
    end: End,
    page: Vec<u8>,
    said: String,
    /// Something besides the answer could not be written.
    failed: bool,
}

/// Answers the sheets of the call.
pub fn answer(given: Given) -> Result<Status, WrongUse> {
    let jobs = jobs(&given)?;
    let asked = Asked {
        house: if given.has(Opt::Partner) { House::Partner } else { House::Ours },
        query: if given.word == Word::Plan { Query::Plan } else { Query::Fits },
        explain: given.has(Opt::Explain),
        chart: given.value(Opt::Chart).map(PathBuf::from),
        to: given.value(Opt::To).map(PathBuf::from),
    };
    let tasks = tasks(given.operands, &asked)?;
    spare_sheets(&tasks, &asked)?;
    if let Some(folder) = &asked.to {
        if let Err(error) = fs::create_dir_all(folder) {
            return Ok(fail(&format!("{}: {}", folder.display(), reason(&error))));
        }
    }
    Ok(answer_all(&tasks, jobs, &asked))
}

/// How many files at a time.
fn jobs(given: &Given) -> Result<usize, WrongUse> {
    let Some(value) = given.value(Opt::Jobs) else {
        return Ok(thread::available_parallelism().map_or(1, usize::from).min(MAX_JOBS));
    };
    let digits = value.to_str().filter(|value| value.bytes().all(|byte| byte.is_ascii_digit()));
    let number = digits.and_then(|value| value.parse().ok()).filter(|number| (1..=MAX_JOBS).contains(number));
    number.ok_or_else(|| WrongUse(format!("--jobs needs a number from 1 to {MAX_JOBS}, and not {}", value.to_string_lossy())))
}

/// The files of the call, each with the place of its page.
fn tasks(operands: Vec<OsString>, asked: &Asked) -> Result<Vec<Task>, WrongUse> {
    let mut inputs: Vec<Input> = operands.into_iter().map(Input::named).collect();
    if inputs.is_empty() {
        inputs.push(Input::Stdin);
    }
    if asked.chart.is_some() && inputs.len() > 1 {
        return Err(WrongUse("a chart is drawn of one sheet".to_string()));
    }
    if inputs.iter().filter(|&input| *input == Input::Stdin).count() > 1 {
        return Err(WrongUse("standard input can be read once".to_string()));
    }
    let Some(folder) = &asked.to else {
        return Ok(inputs.into_iter().map(|input| Task { input, page: None }).collect());
    };
    let mut names: BTreeMap<OsString, Input> = BTreeMap::new();
    inputs.into_iter().map(|input| named_task(folder, input, &mut names)).collect()
}

/// A file's page in the folder is named after the file, so that two files of one name cannot go there together.
fn named_task(folder: &Path, input: Input, names: &mut BTreeMap<OsString, Input>) -> Result<Task, WrongUse> {
    let Input::File(path) = &input else {
        return Err(WrongUse("with --to, sheets are read from files: a page is named after its file".to_string()));
    };
    let Some(name) = path.file_name() else {
        return Err(WrongUse(format!("{} is no file to name a page after", path.display())));
    };
    let mut page = name.to_os_string();
    page.push(".page");
    if let Some(other) = names.insert(page.clone(), input.clone()) {
        return Err(WrongUse(format!("{} and {} would have the same page in {}", other.name(), input.name(), folder.display())));
    }
    Ok(Task { page: Some(folder.join(page)), input })
}

/// No page and no chart takes the place of a sheet of the call.
fn spare_sheets(tasks: &[Task], asked: &Asked) -> Result<(), WrongUse> {
    let sheets: BTreeSet<PathBuf> = tasks.iter().filter_map(|task| fs::canonicalize(task.input.path()?).ok()).collect();
    let mut outputs = tasks.iter().filter_map(|task| task.page.as_ref()).chain(&asked.chart);
    match outputs.find(|output| fs::canonicalize(output).is_ok_and(|file| sheets.contains(&file))) {
        Some(sheet) => Err(WrongUse(format!("{} is a sheet of the call, and would be replaced", sheet.display()))),
        None => Ok(()),
    }
}

/// Answers every sheet, whatever the others are, and ends with the largest status.
fn answer_all(tasks: &[Task], jobs: usize, asked: &Asked) -> Status {
    let mut tally = Tally::new(tasks.len());
    let mut progress = Progress::new(asked.to.is_some());
    let mut status = Status::Done;
    in_order(tasks, jobs, |task| answer_task(task, asked), |outcome| {
        let written = write_out(&outcome.page);
        tally.count(outcome.end);
        if !outcome.said.is_empty() {
            progress.clear();
            say(&outcome.said);
        }
        progress.show(&tally);
        status = status.max(outcome.status());
        let gone = matches!(written, Err(Unwritten::Closed));
        status = status.max(written.map_or_else(unwritten, |()| Status::Done));
        // Without a reader there is nothing left to do.
        !gone
    });
    progress.clear();
    if asked.to.is_some() {
        say(&format!("tugrokt: {}\n", tally.summary()));
    }
    status
}

impl Outcome {
    /// Has it said where something besides the answer failed.
    fn note(&mut self, done: Result<(), String>) {
        if let Err(why) = done {
            self.said += &format!("tugrokt: {why}\n");
            self.failed = true;
        }
    }

    fn failed(why: &str) -> Outcome {
        Outcome { end: End::Failed, page: Vec::new(), said: format!("tugrokt: {why}\n"), failed: true }
    }

    fn status(&self) -> Status {
        let status = match self.end {
            End::Plan | End::Fits => Status::Done,
            End::None => Status::None,
            End::Refused => Status::Refused,
            End::Failed => Status::Failed,
        };
        if self.failed { Status::Failed } else { status }
    }
}

/// Answers one sheet, and puts the page into its file where it has one. A file that was not answered keeps no page of an earlier call.
fn answer_task(task: &Task, asked: &Asked) -> Outcome {
    let mut outcome = match task.input.read() {
        Ok(text) => answer_text(&task.input.name(), &text, asked),
        Err(why) => Outcome::failed(&why),
    };
    if let (Some(chart), End::Refused | End::Failed) = (&asked.chart, outcome.end) {
        // What has this name may be any file, so it stays.
        outcome.said += &format!("tugrokt: {}: no chart is drawn without an answer\n", chart.display());
    }
    let Some(path) = &task.page else { return outcome };
    let page = std::mem::take(&mut outcome.page);
    let placed = if outcome.end == End::Failed { Ok(()) } else { put_file(path, &page) };
    if outcome.end == End::Failed || placed.is_err() {
        outcome.end = End::Failed;
        outcome.note(placed.and(remove(path)));
    }
    outcome
}

/// Removes what an earlier call has put in place, if it has. What is no plain file, as a device, stays.
fn remove(path: &Path) -> Result<(), String> {
    if !fs::symlink_metadata(path).is_ok_and(|found| found.is_file()) {
        return Ok(());
    }
    fs::remove_file(path).map_err(|error| format!("{}: {}", path.display(), reason(&error)))
}

/// The planner's page for a text, and what is to be said of it.
fn answer_text(name: &str, text: &[u8], asked: &Asked) -> Outcome {
    let page = tugrokt::answer(asked.house, asked.query, text);
    let end = end_of(&page);
    let mut outcome = Outcome { end, page, said: String::new(), failed: false };
    let read = match asked.house {
        House::Ours => told::read,
        House::Partner => told::read_partner,
    };
    if end == End::Refused {
        // Only words for the very refusal that is on the page.
        let refusal = read(text).err().filter(|refusal| refusal.page().as_bytes() == outcome.page);
        outcome.said = refusal.map_or(String::new(), |refusal| refused::words(name, asked.house, text, &refusal));
    } else if asked.explain || asked.chart.is_some() {
        if let Ok(sheet) = read(text) {
            tell(name, text, &sheet, asked, &mut outcome);
        }
    }
    outcome
}

/// What was asked for besides the page.
fn tell(name: &str, text: &[u8], sheet: &Sheet, asked: &Asked, outcome: &mut Outcome) {
    if asked.explain {
        outcome.said = explain(name, asked.house, text, sheet, &outcome.page);
    }
    let Some(path) = &asked.chart else { return };
    // Another call may find another ring, so that of the page is drawn.
    let shown = Ring::on_page(sheet, &outcome.page).map(Answer::None);
    if let Some(answer) = shown.or_else(|| told::plan(sheet).ok()) {
        outcome.note(put_file(path, chart(name, sheet, &answer).as_bytes()));
    }
}

/// What a page says, by its first line.
fn end_of(page: &[u8]) -> End {
    let heads: [(&[u8], End); 4] =
        [(b"(answer plan ", End::Plan), (b"(answer fits ", End::Fits), (b"(answer none)", End::None), (b"(refused ", End::Refused)];
    heads.into_iter().find(|(head, _)| page.starts_with(head)).map_or(End::Failed, |(_, end)| end)
}
