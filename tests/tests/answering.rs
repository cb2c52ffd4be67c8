//! Answering a text, through the border: reply, place and every byte of the page, of texts of both houses that read and that do not, against
//! the model, and byte for byte against what the program prints.

use std::path::{Path, PathBuf};
use std::process::{Command, Stdio};
use std::{fs, io::Write};

use model::calls::{differ, marked_u8};
use model::damage::{any_text, valid};
use model::house::House;
use model::program::{answer, run, Answer, Asked};
use model::random::{largest_sheet, Random, Reach};
use model::reading::{refusal_page, MAX_BYTES};
use model::sheet::Sheet;
use model::tally::{self, Tally, CARRIES, NONE, PLAN};
use model::{cases, effort, page, seed};
use tugrokt::entry::{self, Writing};
use tugrokt::MAX_PAGE;

/// One of the four entries: whose text it takes, whether it is asked only if that fits, and by which word the program is asked the same.
#[derive(Clone, Copy)]
struct Entry {
    name: &'static str,
    house: House,
    fits: bool,
    call: fn(&[u8], &mut [u8], usize) -> Writing,
    asked: Option<Asked>,
}

const PLANS: Entry = Entry { name: "answer", house: House::Ours, fits: false, call: entry::answer, asked: Some(Asked::Plan) };
const FITS: Entry = Entry { name: "answer_fits", house: House::Ours, fits: true, call: entry::answer_fits, asked: Some(Asked::Fits) };
const PARTNER: Entry = Entry { name: "answer_partner", house: House::Partner, fits: false, call: entry::answer_partner, asked: Some(Asked::Partner) };
/// The program has no word for it.
const FITS_PARTNER: Entry = Entry { name: "answer_fits_partner", house: House::Partner, fits: true, call: entry::answer_fits_partner, asked: None };
const ENTRIES: [Entry; 4] = [PLANS, FITS, PARTNER, FITS_PARTNER];

impl Entry {
    fn of(house: House) -> [Entry; 2] {
        match house {
            House::Ours => [PLANS, FITS],
            House::Partner => [PARTNER, FITS_PARTNER],
        }
    }

    /// The whole answer, from the first place of a page that holds every answer.
    fn whole(&self, text: &[u8]) -> Vec<u8> {
        let mut page = marked_u8(MAX_PAGE);
        let reply = (self.call)(text, &mut page, 0);
        assert_eq!((reply.number, reply.line), (0, 0), "{}", self.name);
        page.truncate(reply.place);
        page
    }

    /// Is this the page that answers the text, by the model? Says what is wrong.
    fn page_fault(&self, answer: &Answer, page: &[u8]) -> Option<String> {
        match answer {
            Err(refusal) => differ("page", &String::from_utf8_lossy(page), &String::from_utf8_lossy(&refusal_page(*refusal))),
            Ok((sheet, solved)) if self.fits => page::fits_fault(sheet, solved.as_ref(), page),
            Ok((sheet, solved)) => page::fault(sheet, solved.as_ref(), page),
        }
    }

    /// Answers onto a marked page of this length, and says what is wrong: where the page holds the answer it stands from the place on, else
    /// the call is refused by 15; and every other byte has its mark.
    fn left_fault(&self, text: &[u8], whole: &[u8], length: usize, place: usize) -> Option<String> {
        let (mut page, mut expected) = (marked_u8(length), marked_u8(length));
        let reply = match place.checked_add(whole.len()).filter(|&end| end <= length) {
            None => Writing { number: 15, line: 0, place },
            Some(end) => {
                expected[place..end].copy_from_slice(whole);
                Writing { number: 0, line: 0, place: end }
            }
        };
        differ("reply", &(self.call)(text, &mut page, place), &reply)
            .or_else(|| differ("page", &String::from_utf8_lossy(&page), &String::from_utf8_lossy(&expected)))
            .or_else(|| differ("page's bytes", &page, &expected))
            .map(|fault| format!("{length} bytes from {place} on: {fault}"))
    }

    /// Answers onto pages that hold every answer, that are somewhat longer than this one, just as long, and a byte too short, and from places
    /// past the end. Says what is wrong.
    fn fault(&self, text: &[u8], answer: &Answer, place: usize, more: usize) -> Option<String> {
        let whole = self.whole(text);
        let end = place + whole.len();
        let pages = [(MAX_PAGE, 0), (end + more, place), (end, place), (end - 1, place), (place, place), (place, place + 1 + more), (end, usize::MAX - more)];
        self.page_fault(answer, &whole)
            .or_else(|| pages.into_iter().find_map(|(length, place)| self.left_fault(text, &whole, length, place)))
            .map(|fault| format!("{}: {fault}", self.name))
    }
}

/// Has a house's text answered by both of its entries, counts the case, and fails where anything differs from the model.
fn hold(tally: &mut Tally, house: House, text: &[u8], place: usize, more: usize) {
    let case = tally.all();
    let answer = answer(house, text);
    match &answer {
        Ok((sheet, solved)) => tally.add(0, tally::answer(sheet, solved.as_ref())),
        Err(refusal) => tally.add(refusal.number, "refused"),
    }
    if let Some(fault) = Entry::of(house).iter().find_map(|entry| entry.fault(text, &answer, place, more)) {
        panic!("seed {} case {case}: {:?}\n{fault}", tally.seed(), String::from_utf8_lossy(text));
    }
}

#[test]
fn document_cases() {
    let mut tally = Tally::new("answering the cases of the document", 0);
    for case in cases::all() {
        for (house, place) in House::BOTH.into_iter().flat_map(|house| [0, 1, 100].map(|place| (house, place))) {
            hold(&mut tally, house, &case.sheet.kept_by(house).text_for(house), place, 3);
        }
    }
    for (entry, pages) in [(PLANS, &cases::PAGES[..]), (FITS, &cases::FITS_PAGES[..])] {
        for (name, page) in pages {
            assert_eq!(String::from_utf8_lossy(&entry.whole(&cases::named(name).sheet.text())), *page, "{} of {name}", entry.name);
        }
    }
    tally.report();
}

/// A text that is refused has the page of its refusal, and the call is not refused: no text, one of the other house, one that is a byte too
/// long, and the rules' own example.
#[test]
fn refused_texts() {
    let (ours, theirs) = ("(sheet 4)\n", "(day 4)\n");
    let long = vec![b'x'; MAX_BYTES + 1];
    for (house, text, page) in [
        (House::Ours, &b""[..], "(refused 5 (line 0))\n"),
        (House::Partner, b"", "(refused 5 (line 0))\n"),
        (House::Ours, theirs.as_bytes(), "(refused 3 (line 1))\n"),
        (House::Partner, ours.as_bytes(), "(refused 3 (line 1))\n"),
        (House::Ours, &long, "(refused 1 (line 0))\n"),
        (House::Partner, &long, "(refused 1 (line 0))\n"),
        (House::Ours, b"(sheet 4)\n(note)\n(unit 1 (window 4 3))\n", "(refused 7 (line 3))\n"),
        (House::Partner, b"(day 4)\n(note)\n(job 1 (start 4) (hours 2))\n", "(refused 7 (line 3))\n"),
    ] {
        for entry in Entry::of(house) {
            assert_eq!(String::from_utf8_lossy(&entry.whole(text)), page, "{}", entry.name);
            assert_eq!(entry.fault(text, &answer(house, text), 9, 4), None);
        }
    }
}

/// Texts that read, with notes, and texts that are damaged, of both houses.
#[test]
fn random_texts() {
    let mut tally = Tally::new("answering texts of both houses", seed(901));
    for i in 0..effort(8_000) {
        let (mut r, house) = (Random::of_case(seed(901), i), House::BOTH[i % 2]);
        let text = if i % 5 < 2 { any_text(&mut r, house) } else { valid(&mut r, house) };
        let (place, more) = (r.below(40), r.below(40));
        hold(&mut tally, house, &text, place, more);
    }
    tally.report();
    for answer in [PLAN, CARRIES, NONE] {
        assert!(50 * tally.count(answer) > tally.all(), "{answer}: too few");
    }
    let refused = tally.all() - tally.count(PLAN) - tally.count(CARRIES) - tally.count(NONE);
    assert!(8 * refused > tally.all(), "too few are refused");
}

#[test]
fn largest_sheets() {
    let mut tally = Tally::new("answering the largest sheets", seed(902));
    for i in 0..effort(60) {
        let (mut r, house) = (Random::of_case(seed(902), i), House::BOTH[i % 2]);
        let sheet = largest_sheet(&mut r, i % 3, 48, if i % 4 < 2 { Reach::PastWave } else { Reach::InsideWave });
        hold(&mut tally, house, &sheet.kept_by(house).text_for(house), r.below(40), r.below(40));
    }
    tally.report();
}

/// The longest answer there is (`printing.rs`): the page that is said to hold every answer does, and one that just holds this one.
#[test]
fn the_longest_page() {
    let rules: Vec<(u16, u16, u16, u16)> = (29..=48).map(|slot| (slot, slot, 10, 300)).collect();
    let numbers: Vec<u16> = (9_700..=9_999).rev().collect();
    let sheet = Sheet::new(48, &[(10, 48); 300], &rules).numbered(&numbers);
    let (text, answer) = (sheet.text(), answer(House::Ours, &sheet.text()));
    assert_eq!(PLANS.whole(&text).len(), 13_065);
    assert_eq!(PLANS.fault(&text, &answer, 7, 7), None);
    assert_eq!(FITS.fault(&text, &answer, 7, 7), None);
}

/// What the program prints for each of its words that ask for an answer, byte for byte.
#[test]
fn as_the_program_prints() {
    let mut tally = Tally::new("answering as the program prints", seed(903));
    for i in 0..effort(1_200) {
        let entry = ENTRIES[i % 3];
        let mut r = Random::of_case(seed(903), i);
        let text = if r.chance(40) { any_text(&mut r, entry.house) } else { valid(&mut r, entry.house) };
        let printed = run(entry.asked.expect("a word"), &text, &[], None);
        let answered = entry.whole(&text);
        tally.add(0, entry.name);
        assert_eq!(
            String::from_utf8_lossy(&answered),
            String::from_utf8_lossy(&printed),
            "seed {} case {i}: {} of {:?}",
            seed(903),
            entry.name,
            String::from_utf8_lossy(&text)
        );
    }
    tally.report();
}

/// A page of every length up to the answer's own and some more, and places up to the page's end and past it.
#[test]
fn pages_that_do_not_hold_the_answer() {
    for entry in ENTRIES {
        for text in [cases::named("P2"), cases::named("P4")].map(|case| case.sheet.kept_by(entry.house).text_for(entry.house)).into_iter().chain([vec![]]) {
            let whole = entry.whole(&text);
            for length in 0..whole.len() + 3 {
                for (length, place) in [(length, 0), (length, 1), (length + 17, 17), (1_000, 1_000 - length)] {
                    assert_eq!(entry.left_fault(&text, &whole, length, place), None, "{}", entry.name);
                }
            }
            let end = usize::MAX - whole.len();
            for place in [999, 1_000, 1_001, 1 << 32, end, end + 1, usize::MAX - 1, usize::MAX] {
                for length in [0, 1_000] {
                    assert_eq!(entry.left_fault(&text, &whole, length, place), None, "{}", entry.name);
                }
            }
        }
    }
}

/// Answers of all entries one after the other on one page, with a refused call between them.
#[test]
fn a_running_place() {
    let mut r = Random::new(seed(904));
    let (mut page, mut expected) = (vec![0; 60_000], Vec::new());
    for i in 0..40 {
        let entry = ENTRIES[i % 4];
        let text = if i % 8 < 5 { valid(&mut r, entry.house) } else { any_text(&mut r, entry.house) };
        let place = expected.len();
        let whole = entry.whole(&text);
        let short = (entry.call)(&text, &mut page[..place + whole.len() - 1], place);
        assert_eq!(short, Writing { number: 15, line: 0, place });
        expected.extend(&whole);
        assert_eq!((entry.call)(&text, &mut page, place), Writing { number: 0, line: 0, place: expected.len() });
        assert_eq!(page[..expected.len()], expected);
        assert!(page[expected.len()..].iter().all(|&b| b == 0));
    }
}

/// These tests can fail: an entry is told from each of the others, and an answer from one that is changed, short, or elsewhere.
#[test]
fn wrong_answers_are_told() {
    let sheet = cases::named("P1").sheet.kept_by(House::Partner);
    let texts = House::BOTH.map(|house| (house, sheet.text_for(house)));
    for (one, other) in ENTRIES.into_iter().flat_map(|one| ENTRIES.map(|other| (one, other))) {
        let text = &texts.iter().find(|(house, _)| *house == one.house).unwrap().1;
        let fault = Entry { call: other.call, ..one }.fault(text, &answer(one.house, text), 5, 5);
        assert_eq!(fault.is_some(), one.name != other.name, "{} by {}: {fault:?}", one.name, other.name);
    }
    let text = sheet.text();
    let whole = PLANS.whole(&text);
    let changes: [fn(&mut Vec<u8>); 3] = [|page| page[20] ^= 1, |page| page.truncate(page.len() - 1), |page| page.push(b'\n')];
    for change in changes {
        let mut wrong = whole.clone();
        change(&mut wrong);
        assert!(PLANS.page_fault(&answer(House::Ours, &text), &wrong).is_some());
        assert!(PLANS.left_fault(&text, &wrong, 1_000, 5).is_some());
    }
    let elsewhere = Entry { call: |text, page, _| entry::answer(text, page, 0), ..PLANS };
    assert!(elsewhere.left_fault(&text, &whole, 1_000, 0).is_none() && elsewhere.left_fault(&text, &whole, 1_000, 5).is_some());
    let beside: fn(&[u8], &mut [u8], usize) -> Writing = |text, page, place| {
        page[place - 1] = 0;
        entry::answer(text, page, place)
    };
    assert!(Entry { call: beside, ..PLANS }.left_fault(&text, &whole, 1_000, 5).is_some());
    assert!(Entry { call: beside, ..PLANS }.left_fault(&text, &whole, whole.len(), 5).is_some());
}

const FROM_C: &str = r#"
#include <stdio.h>
#include <string.h>
#include "tugrokt.h"

int main(int argc, char **argv)
{
    static uint8_t text[TUGROKT_MAX_BYTES + 1], page[TUGROKT_MAX_PAGE];
    size_t length = fread(text, 1, sizeof text, stdin);
    struct tugrokt_writing reply;
    if (argc == 2 && strcmp(argv[1], "answer") == 0)
        reply = tugrokt_answer(text, length, page, sizeof page, 0);
    else if (argc == 2 && strcmp(argv[1], "answer_fits") == 0)
        reply = tugrokt_answer_fits(text, length, page, sizeof page, 0);
    else if (argc == 2 && strcmp(argv[1], "answer_partner") == 0)
        reply = tugrokt_answer_partner(text, length, page, sizeof page, 0);
    else
        reply = tugrokt_answer_fits_partner(text, length, page, sizeof page, 0);
    if (reply.number != 0 || reply.line != 0)
        return 1;
    fwrite(page, 1, reply.place, stdout);
    return 0;
}
"#;

/// Each entry as C declares it.
#[test]
fn from_c() {
    let folder = PathBuf::from(env!("CARGO_TARGET_TMPDIR"));
    let (source, program) = (folder.join("answering.c"), folder.join("answering"));
    fs::write(&source, FROM_C).unwrap();
    let header = Path::new(env!("ROOT")).join("bindings");
    let compiled = Command::new("cc")
        .args(["-std=c99", "-pedantic", "-Wall", "-Wextra", "-Werror", "-O1", "-I"])
        .args([&header, &source])
        .args([env!("LIBRARY"), "-o"])
        .arg(&program)
        .output()
        .expect("cc runs");
    assert!(compiled.status.success(), "{}", String::from_utf8_lossy(&compiled.stderr));
    for (entry, case) in ENTRIES.into_iter().flat_map(|entry| cases::all().into_iter().map(move |case| (entry, case))) {
        let text = case.sheet.kept_by(entry.house).text_for(entry.house);
        let mut child = Command::new(&program).arg(entry.name).stdin(Stdio::piped()).stdout(Stdio::piped()).spawn().expect("it starts");
        child.stdin.take().unwrap().write_all(&text).unwrap();
        let output = child.wait_with_output().unwrap();
        assert!(output.status.success());
        assert_eq!(entry.page_fault(&answer(entry.house, &text), &output.stdout), None, "{} of {}", entry.name, case.name);
    }
}
