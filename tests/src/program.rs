//! Runs the program through pipes.

use std::ffi::OsStr;
use std::io::{Read, Write};
use std::path::PathBuf;
use std::process::{Command, Stdio};
use std::time::Duration;

use crate::house::House;
use crate::merging::{line_of, merge};
use crate::questions::partner_refusal;
use crate::reading::{read, refusal_page, Refusal};
use crate::sheet::{Sheet, Solved};
use crate::{computed, enumerated, page};

/// The program that is tested.
pub fn path() -> PathBuf {
    PathBuf::from(env!("WAVE"))
}

/// What the program is asked for, by its word: with none and with `plan` a plan, with `fits` whether there is one, with `partner` the plan
/// of a partner's sheet, and with the last two a sheet in the other house's form.
#[derive(Clone, Copy, Debug, PartialEq, Eq)]
pub enum Asked {
    Plan,
    Fits,
    Partner,
    FromPartner,
    ToPartner,
}

impl Asked {
    pub const ALL: [Asked; 5] = [Asked::Plan, Asked::Fits, Asked::Partner, Asked::FromPartner, Asked::ToPartner];

    pub fn words(self) -> &'static [&'static str] {
        match self {
            Asked::Plan => &[],
            Asked::Fits => &["fits"],
            Asked::Partner => &["partner"],
            Asked::FromPartner => &["from-partner"],
            Asked::ToPartner => &["to-partner"],
        }
    }

    /// The house whose text the program reads.
    pub fn house(self) -> House {
        match self {
            Asked::Plan | Asked::Fits | Asked::ToPartner => House::Ours,
            Asked::Partner | Asked::FromPartner => House::Partner,
        }
    }
}

/// What the program writes for this text, sent in parts of these lengths (round and round). With a pause after each part the
/// program meets short reads. Panics if it does not end well, or says anything on standard error.
pub fn run(asked: Asked, text: &[u8], parts: &[usize], pause: Option<Duration>) -> Vec<u8> {
    let (written, said) = run_with(asked.words(), text, parts, pause);
    assert!(said.is_empty(), "the program complained: {said}");
    written
}

/// What it writes, and what it says on standard error, when it is started with these words.
pub fn run_with(words: &[impl AsRef<OsStr>], text: &[u8], parts: &[usize], pause: Option<Duration>) -> (Vec<u8>, String) {
    let mut child = Command::new(path())
        .args(words)
        .stdin(Stdio::piped())
        .stdout(Stdio::piped())
        .stderr(Stdio::piped())
        .spawn()
        .expect("the program starts");
    let mut input = child.stdin.take().unwrap();
    let mut rest = text;
    let mut sizes = parts.iter().cycle();
    while !rest.is_empty() {
        let size = sizes.next().copied().unwrap_or(rest.len()).clamp(1, rest.len());
        // A program that has seen enough may stop reading.
        if input.write_all(&rest[..size]).is_err() {
            break;
        }
        rest = &rest[size..];
        if let Some(pause) = pause {
            std::thread::sleep(pause);
        }
    }
    drop(input);
    let mut written = Vec::new();
    child.stdout.take().unwrap().read_to_end(&mut written).expect("the program's output is read");
    let ended = child.wait_with_output().expect("the program ends");
    assert!(ended.status.success(), "the program ended with {}", ended.status);
    (written, String::from_utf8_lossy(&ended.stderr).into_owned())
}

/// The model's answer to a text: its refusal, or its sheet and what a plan leaves, if there is one.
pub type Answer = Result<(Sheet, Option<Solved>), Refusal>;

pub fn answer(house: House, text: &[u8]) -> Answer {
    let sheet = read(house, text)?;
    let small = sheet.units.len() <= 5 && sheet.span <= 5;
    let solved = if small { enumerated::solve(&sheet) } else { computed::solve(&sheet) };
    Ok((sheet, solved))
}

/// The other house's text of the sheet in this house's text, or the refusal, and what is said on standard error: where 17 or 18 refuses,
/// which unit or rule is at fault.
pub fn converted(from: House, text: &[u8]) -> (Vec<u8>, String) {
    let sheet = match read(from, text) {
        Err(refusal) => return (refusal_page(refusal), String::new()),
        Ok(sheet) => sheet,
    };
    let refused = if from.other() == House::Partner { partner_refusal(&sheet) } else { None };
    match refused {
        None => (sheet.text_for(from.other()), String::new()),
        Some(refusal) => {
            let kind = if refusal.number == 17 { "unit" } else { "rule" };
            (refusal_page(refusal), format!("{kind} {}\n", refusal.line))
        }
    }
}

/// What the program writes for two texts with the word `merge`: the merged sheet as a text, or the refusal.
pub fn merged_page(one: &[u8], two: &[u8]) -> Vec<u8> {
    merge(one, two).map_or_else(refusal_page, |sheet| sheet.text())
}

/// The same with the word `line` and a loader number: the unit's line and a line feed, or the refusal.
pub fn line_page(loader: usize, one: &[u8], two: &[u8]) -> Vec<u8> {
    line_of(one, two, loader).map_or_else(refusal_page, |found| [&[one, two][found.text - 1][found.spot.bytes], b"\n"].concat())
}

fn differ(written: &[u8], expected: &[u8]) -> Option<String> {
    let shown = |bytes| String::from_utf8_lossy(bytes).into_owned();
    (written != expected).then(|| format!("got {:?}, expected {:?}", shown(written), shown(expected)))
}

fn page_fault(asked: Asked, answer: &Answer, written: &[u8]) -> Option<String> {
    match answer {
        Ok((sheet, solved)) => match asked {
            Asked::Fits => page::fits_fault(sheet, solved.as_ref(), written),
            _ => page::fault(sheet, solved.as_ref(), written),
        },
        Err(refusal) => differ(written, &refusal_page(*refusal)),
    }
}

/// Is this what the program is to write for the text, and to say on standard error? Says what is wrong.
pub fn output_fault(asked: Asked, text: &[u8], (written, said): (&[u8], &str)) -> Option<String> {
    let (fault, expected_said) = match asked {
        Asked::Plan | Asked::Fits | Asked::Partner => (page_fault(asked, &answer(asked.house(), text), written), String::new()),
        Asked::FromPartner | Asked::ToPartner => {
            let (page, said) = converted(asked.house(), text);
            (differ(written, &page), said)
        }
    };
    fault.or_else(|| (said != expected_said).then(|| format!("it said {said:?}, and not {expected_said:?}")))
}

/// Runs the program on a text sent in parts, and says what is wrong.
pub fn asked_fault(asked: Asked, text: &[u8], parts: &[usize], pause: Option<Duration>) -> Option<String> {
    let (written, said) = run_with(asked.words(), text, parts, pause);
    output_fault(asked, text, (&written, &said)).map(|fault| format!("{asked:?}: {fault}"))
}

/// Runs the program on a text sent whole, for its plan and for whether it fits, and says what is wrong. Where there is no plan, the two
/// pages are the same.
pub fn fault(text: &[u8]) -> Option<String> {
    answered_fault(text, &answer(House::Ours, text))
}

/// The same, with the model's answer at hand.
pub fn answered_fault(text: &[u8], answer: &Answer) -> Option<String> {
    let [plan, fits] = [Asked::Plan, Asked::Fits].map(|asked| run(asked, text, &[], None));
    let same_due = !matches!(answer, Ok((_, Some(_))));
    page_fault(Asked::Plan, answer, &plan)
        .or_else(|| page_fault(Asked::Fits, answer, &fits).map(|fault| format!("fits: {fault}")))
        .or_else(|| (same_due && plan != fits).then(|| format!("fits: another page:\n{}", String::from_utf8_lossy(&fits))))
}
