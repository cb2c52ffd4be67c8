//! The program, through pipes.

use std::ffi::OsString;
use std::io::Write;
use std::os::unix::ffi::OsStringExt;
use std::process::{Command, Stdio};
use std::time::Duration;

use model::damage::{any_text, note_of_depth, valid, with_notes};
use model::house::House;
use model::program::{answer, answered_fault, asked_fault, converted, fault, path, run, run_with, Asked};
use model::random::{any_sheet, largest_sheet, small_sheet, Random, Reach};
use model::sheet::Sheet;
use model::tally::{self, Tally, CARRIES, NONE, PLAN};
use model::{cases, effort, seed};

/// Runs the program on a text, for its plan and for whether it fits, counts the case, and fails where anything differs from the model.
fn hold(tally: &mut Tally, text: &[u8]) {
    let case = tally.all();
    let answer = answer(House::Ours, text);
    match &answer {
        Ok((sheet, solved)) => tally.add(0, tally::answer(sheet, solved.as_ref())),
        Err(refusal) => tally.add(refusal.number, "refused"),
    }
    if let Some(fault) = answered_fault(text, &answer) {
        panic!("seed {} case {case}: {:?}\n{fault}", tally.seed(), String::from_utf8_lossy(text));
    }
}

const CONVERTED: &str = "converted";

/// Runs the program for something else on a text, counts the case, and fails where the page, or what is said on standard error, differs from
/// the model.
fn hold_asked(tally: &mut Tally, asked: Asked, text: &[u8]) {
    let case = tally.all();
    match asked {
        Asked::FromPartner | Asked::ToPartner => match model::page::parse(&converted(asked.house(), text).0) {
            Some(model::page::Page::Refused { number, .. }) => tally.add(number, "refused"),
            _ => tally.add(0, CONVERTED),
        },
        _ => match answer(asked.house(), text) {
            Ok((sheet, solved)) => tally.add(0, tally::answer(&sheet, solved.as_ref())),
            Err(refusal) => tally.add(refusal.number, "refused"),
        },
    }
    if let Some(fault) = asked_fault(asked, text, &[], None) {
        panic!("seed {} case {case}: {:?}\n{fault}", tally.seed(), String::from_utf8_lossy(text));
    }
}

fn written(text: &str) -> String {
    String::from_utf8_lossy(&run(Asked::Plan, text.as_bytes(), &[], None)).into_owned()
}

#[test]
fn document_cases() {
    for case in cases::all() {
        assert_eq!(fault(&case.sheet.text()), None, "{}", case.name);
    }
    for (asked, pages) in [(Asked::Plan, &cases::PAGES[..]), (Asked::Fits, &cases::FITS_PAGES[..])] {
        for (name, page) in pages {
            let written = run(asked, &cases::named(name).sheet.text(), &[], None);
            assert_eq!(String::from_utf8_lossy(&written), *page, "{name} {asked:?}");
        }
    }
    for (case, asked) in cases::all().iter().flat_map(|case| Asked::ALL.map(|asked| (case, asked))) {
        let (own, kept) = (asked.house(), case.sheet.kept_by(House::Partner));
        for text in [case.sheet.text_for(own), kept.text_for(own), case.sheet.text_for(own.other())] {
            assert_eq!(asked_fault(asked, &text, &[], None), None, "{}", case.name);
        }
    }
}

/// Without a word and with `plan` the program prints a plan. Any word but those that it takes, and more than one, get no page, whatever the
/// text is; standard error then names the words there are.
#[test]
fn words() {
    let texts = [cases::named("P2").sheet.text(), cases::named("P4").sheet.text(), b"(sheet 49)\n".to_vec(), vec![b'x'; 16_001], vec![]];
    for text in &texts {
        let page = run(Asked::Plan, text, &[], None);
        assert_eq!(run_with(&["plan"], text, &[], None), (page, String::new()));
    }
    let long = "fits".repeat(10_000);
    let unknown = [
        "", "f", "fit", "fitss", "fits ", " fits", "Fits", "FITS", "fots", "fits\n", "fits=1", "p", "pla", "plann", "plan ", " plan", "Plan", "plam", "slan",
        "plan fits", "decide", "seat", "write", "partne", "partners", "partner ", " partner", "Partner", "PARTNER", "partnes", "pertner", "from", "to",
        "from-partne", "from-partners", "from-partner ", "from_partner", "from partner", "From-partner", "to-partne", "to-partners", "to-partner ",
        "to_partner",
        "merg", "merges", "merge ", "Merge", "mergf", "lin", "lines", "line ", "Line", "lime",
        "to partner", "to-Partner", "no-partner", "fro-partner", "-partner", "topartner", "from-partner\n", "-h", "--help", "--", "(sheet 4)", &long,
    ];
    let two: [&[&str]; 16] = [
        &["plan", "plan"], &["fits", "fits"], &["plan", "fits"], &["fits", "plan"], &["fits", ""], &["", "fits"], &["plan", ""], &["", ""],
        &["fits", "no"], &["plan", "fits", "plan"], &["partner", "fits"], &["fits", "partner"], &["partner", "partner"], &["to-partner", ""],
        &["from-partner", "to-partner"], &["to", "partner"],
    ];
    let mut all: Vec<Vec<OsString>> = unknown.iter().map(|word| vec![word.into()]).collect();
    all.extend(two.iter().map(|words| words.iter().map(OsString::from).collect()));
    all.extend([&b"fits\xff"[..], b"\xff", b"pl\xc3n", b"partner\xff", b"to\xadpartner"].map(|word| vec![OsString::from_vec(word.to_vec())]));
    for words in all {
        for text in &texts {
            let (page, said) = run_with(&words, text, &[], None);
            assert_eq!(page, b"", "{words:?}");
            assert!(said.ends_with('\n'), "{words:?}: {said}");
            for word in ["plan", "fits", "partner", "from-partner", "to-partner", "merge", "line"] {
                assert!(said.split(|c: char| !c.is_ascii_lowercase() && c != '-').any(|part| part == word), "{words:?}: no {word} in {said}");
            }
        }
    }
}

/// The sheets that docs/RULES.md, "Sheets to try", says are only run.
#[test]
fn cases_that_are_run() {
    // Loader numbers that fall, so that no line has its place for a number.
    let units = |n: usize| format!("(sheet 4)\n{}", (1..=n).rev().map(|k| format!("(unit {k} (window 1 4))\n")).collect::<String>());
    let rules = |n: usize| format!("(sheet 4)\n{}", "(rule (slots 1 4) (count 0 1))\n".repeat(n));
    let note = |depth| format!("(sheet 1)\n{}\n", String::from_utf8(note_of_depth(depth)).unwrap());
    let long = |length: usize| format!("(sheet 1)\n(note {})\n", "x".repeat(length - 18));
    let refused = [
        ("(sheet 49)\n".to_string(), "(refused 6 (line 1))\n"),
        (units(301), "(refused 9 (line 302))\n"),
        (rules(61), "(refused 10 (line 62))\n"),
        ("(sheet 4)\n(rule (slots 1 4) (count 0 301))\n".into(), "(refused 8 (line 2))\n"),
        (note(17), "(refused 11 (line 2))\n"),
        (long(16_001), "(refused 1 (line 0))\n"),
        ("(sheet 4)\n(unit 1 (window 4 3))\n".into(), "(refused 7 (line 2))\n"),
        ("(sheet 4)\n(unit 1 (window 5 5))\n".into(), "(refused 7 (line 2))\n"),
        ("(sheet 4)\n(unit 1 (window 4 6))\n".into(), "(refused 7 (line 2))\n"),
        ("(sheet 4)\n(rule (slots 4 5) (count 0 1))\n".into(), "(refused 7 (line 2))\n"),
        ("(sheet 4)\n(unit 0 (window 4 3))\n".into(), "(refused 7 (line 2))\n"),
        ("(sheet 4)\n(unit 0 (window 1 4))\n".into(), "(refused 16 (line 2))\n"),
        (format!("{}(note)\n(unit 299 (window 1 4))\n", units(299)), "(refused 16 (line 302))\n"),
        (format!("{}(unit 300 (window 1 4))\n", units(300)), "(refused 16 (line 302))\n"),
        (format!("{}(unit 1 (window 1 4))\n", units(300)), "(refused 16 (line 302))\n"),
        ("(sheet 4)\n(unit 10000 (window 1 4))\n".into(), "(refused 4 (line 2))\n"),
        ("(sheet 4)\n(unit 0017 (window 1 4))\n".into(), "(refused 4 (line 2))\n"),
        ("(sheet 4)\n(unit (window 1 2))\n".into(), "(refused 3 (line 2))\n"),
        (String::new(), "(refused 5 (line 0))\n"),
        ("(rule (slots 05 6) (count 0 1))\n".into(), "(refused 4 (line 1))\n"),
    ];
    for (text, page) in refused {
        assert_eq!(written(&text), page, "{:?}", &text[..text.len().min(100)]);
    }
    let taken = [
        "(sheet 48)\n".to_string(),
        "(sheet 48)\n(unit 1 (window 48 49))\n".into(),
        units(300),
        "(sheet 4)\n(unit 9999 (window 1 4))\n(unit 1 (window 1 4))\n".into(),
        rules(60),
        "(sheet 4)\n(rule (slots 1 4) (count 0 300))\n".into(),
        note(16),
        long(16_000),
    ];
    for text in taken {
        assert!(written(&text).starts_with("(answer plan "), "{:?}", &text[..text.len().min(100)]);
        assert_eq!(fault(text.as_bytes()), None);
    }
}

/// Unit lines carry the loader numbers, in the order of the lines, and equal closing slots go by line: here the larger number first.
#[test]
fn loader_numbers() {
    let text = "(sheet 2)\n(unit 4017 (window 1 2))\n(unit 12 (window 1 2))\n(rule (slots 1 1) (count 0 1))\n";
    let page = "(answer plan 2)
(unit 4017 (slot 1) (between 1 2))
(unit 12 (slot 2) (between 1 2))
(slot 1 (count 1) (range 0 1))
(slot 2 (count 1) (range 1 2))
";
    assert_eq!(written(text), page);
}

/// Texts that come in small parts, so that the program's reads are short.
#[test]
fn short_reads() {
    let pause = Some(Duration::from_micros(300));
    let documented = cases::all();
    for i in 0..effort(48) {
        let mut r = Random::of_case(seed(401), i);
        for house in House::BOTH {
            let text = match i % 4 {
                0 => documented[i / 4 % documented.len()].sheet.text_for(house),
                1 => any_text(&mut r, house),
                _ => valid(&mut r, house),
            };
            let small = text.len() < 400;
            let parts: Vec<usize> = (0..7).map(|_| if small { r.between(1, 9) } else { r.between(50, 900) }).collect();
            for asked in Asked::ALL.into_iter().filter(|asked| asked.house() == house) {
                let fault = asked_fault(asked, &text, &parts, pause);
                assert_eq!(fault, None, "seed {} case {i}: {:?}", seed(401), String::from_utf8_lossy(&text));
            }
        }
    }
    for asked in Asked::ALL {
        let p1 = cases::named("P1").sheet.text_for(asked.house());
        assert_eq!(asked_fault(asked, &p1, &[1], pause), None);
    }
}

/// Texts far longer than the program takes, also than a pipe holds.
#[test]
fn texts_that_are_too_long() {
    for length in [16_001, 16_002, 32_000, 32_001, 65_536, 65_537, 200_000, 1_000_000] {
        for byte in [b'\n', b'x', 0, 255] {
            for asked in Asked::ALL {
                assert_eq!(run(asked, &vec![byte; length], &[], None), b"(refused 1 (line 0))\n", "{length} {asked:?}");
            }
        }
        let text = vec![b'x'; length];
        for asked in Asked::ALL {
            assert_eq!(run(asked, &text, &[1_000], None), b"(refused 1 (line 0))\n", "{length} {asked:?} in parts");
        }
    }
}

/// The longest texts that are taken, and one byte more, with each word; the last byte may come late.
#[test]
fn texts_at_the_longest() {
    for asked in Asked::ALL {
        let head = Sheet::new(4, &[(1, 2)], &[(1, 4, 0, 3)]).text_for(asked.house());
        for length in [15_999, 16_000, 16_001] {
            let note = format!("(note {})\n", "x".repeat(length - head.len() - 8));
            for text in [[&head[..], note.as_bytes()].concat(), [note.as_bytes(), &head[..]].concat()] {
                assert_eq!(text.len(), length);
                let (page, _) = run_with(asked.words(), &text, &[], None);
                assert_eq!(page == b"(refused 1 (line 0))\n", length > 16_000, "{length} {asked:?}");
                assert_eq!(asked_fault(asked, &text, &[], None), None);
                assert_eq!(asked_fault(asked, &text, &[length - 1, 1], Some(Duration::from_millis(20))), None);
            }
        }
    }
}

/// Each small sheet against all its plans.
#[test]
fn small_sheets() {
    let mut tally = Tally::new("the program on small sheets, all plans tried", seed(405));
    for i in 0..effort(4_000) {
        hold(&mut tally, &small_sheet(&mut Random::of_case(seed(405), i)).text());
    }
    tally.report();
    for (answer, share) in [(PLAN, 4), (NONE, 4), (CARRIES, 10)] {
        assert!(share * tally.count(answer) > tally.all(), "too few {answer}");
    }
}

#[test]
fn sheets_at_random() {
    let mut tally = Tally::new("the program on sheets at random", seed(402));
    for i in 0..effort(600) {
        let mut r = Random::of_case(seed(402), i);
        let sheet = any_sheet(&mut r);
        hold(&mut tally, &with_notes(&mut r, House::Ours, &sheet));
    }
    tally.report();
    for (answer, share) in [(PLAN, 4), (NONE, 10), (CARRIES, 20)] {
        assert!(share * tally.count(answer) > tally.all(), "too few {answer}");
    }
}

#[test]
fn largest_sheets() {
    for i in 0..effort(12) {
        let reach = [Reach::InsideWave, Reach::PastWave][i % 2];
        let sheet = largest_sheet(&mut Random::of_case(seed(403), i), i % 3, [48, 12, 4][i % 3], reach);
        assert_eq!(fault(&sheet.text()), None, "seed {} case {i}", seed(403));
    }
}

#[test]
fn damaged_texts() {
    let mut tally = Tally::new("the program on texts at random", seed(404));
    for i in 0..effort(10_000) {
        hold(&mut tally, &any_text(&mut Random::of_case(seed(404), i), House::Ours));
    }
    tally.report();
    for number in [2, 3, 4, 5, 6, 7, 8, 11, 16] {
        assert!(2_000 * tally.refused_by(number) > tally.all(), "{number} refuses too seldom");
    }
    for answer in [PLAN, NONE] {
        assert!(50 * tally.count(answer) > tally.all(), "too few {answer}");
    }
}

/// The partner's sheets are planned as ours are.
#[test]
fn partner_sheets() {
    let text = "(note theirs)
(day 4)
(job 4017 (start 1) (hours 2))
(limit (from 1) (hours 1) (most 0))
(job 12 (start 1) (hours 4))
(limit (from 2) (hours 2) (most 1))
";
    let page = "(answer plan 2)
(unit 4017 (slot 2) (between 2 2))
(unit 12 (slot 4) (between 4 4))
(slot 1 (count 0) (range 0 0))
(slot 2 (count 1) (range 1 1))
(slot 3 (count 0) (range 0 0))
(slot 4 (count 1) (range 1 1))
";
    assert_eq!(run_with(&["partner"], text.as_bytes(), &[], None), (page.into(), String::new()));
    let mut tally = Tally::new("the program on a partner's sheets", seed(406));
    for i in 0..effort(2_500) {
        let mut r = Random::of_case(seed(406), i);
        let sheet = if i % 5 == 0 { any_sheet(&mut r) } else { small_sheet(&mut r) }.kept_by(House::Partner);
        hold_asked(&mut tally, Asked::Partner, &with_notes(&mut r, House::Partner, &sheet));
    }
    tally.report();
    for (answer, share) in [(PLAN, 4), (NONE, 10)] {
        assert!(share * tally.count(answer) > tally.all(), "too few {answer}");
    }
}

/// What the program writes, the page alone, with one of its words.
fn page_of(asked: Asked, text: &[u8]) -> Vec<u8> {
    run_with(asked.words(), text, &[], None).0
}

/// The request's own lines, to the partner and from it; notes go, and units come before rules.
#[test]
fn conversions() {
    let (ours, theirs) = (
        "(sheet 7)\n(unit 4017 (window 3 4))\n(rule (slots 1 3) (count 0 2))\n",
        "(day 7)\n(job 4017 (start 3) (hours 2))\n(limit (from 1) (hours 3) (most 2))\n",
    );
    let mixed = |lines: [&str; 3]| format!("(note)\n{}\n{}\n(note (a))\n{}\n", lines[0], lines[2], lines[1]);
    let lines = |text: &'static str| text.lines().collect::<Vec<_>>().try_into().unwrap();
    for text in [ours.to_string(), mixed(lines(ours))] {
        assert_eq!(run_with(&["to-partner"], text.as_bytes(), &[], None), (theirs.into(), String::new()));
        assert_eq!(page_of(Asked::FromPartner, text.as_bytes()), format!("(refused 3 (line {}))\n", 1 + (text != ours) as usize).as_bytes());
    }
    for text in [theirs.to_string(), mixed(lines(theirs))] {
        assert_eq!(run_with(&["from-partner"], text.as_bytes(), &[], None), (ours.into(), String::new()));
        assert_eq!(page_of(Asked::ToPartner, text.as_bytes()), format!("(refused 3 (line {}))\n", 1 + (text != theirs) as usize).as_bytes());
    }
    // The empty sheet, and texts that no house takes.
    assert_eq!(page_of(Asked::ToPartner, b"(sheet 1)\n"), b"(day 1)\n");
    assert_eq!(page_of(Asked::FromPartner, b"(day 48)\n"), b"(sheet 48)\n");
    for asked in [Asked::Partner, Asked::FromPartner, Asked::ToPartner] {
        assert_eq!(run(asked, b"", &[], None), b"(refused 5 (line 0))\n");
        assert_eq!(run(asked, b"\n", &[], None), b"(refused 3 (line 1))\n");
    }
}

/// A unit that may be carried has no line at the partner's, nor has a low above 0: the page names the question and the place in the list of
/// units or of rules, and standard error which list that is.
#[test]
fn sheets_that_the_partner_cannot_have() {
    let said = |text: &str| {
        let (page, said) = run_with(&["to-partner"], text.as_bytes(), &[], None);
        (String::from_utf8(page).unwrap(), said)
    };
    let refused = |number: usize, line: usize, name: &str| (format!("(refused {number} (line {line}))\n"), format!("{name} {line}\n"));
    let text = "(note)\n(sheet 4)\n(rule (slots 1 2) (count 0 1))\n(unit 7 (window 1 4))\n(note)\n(unit 9 (window 2 5))\n(rule (slots 1 2) (count 1 1))\n";
    // The second unit, on line 6; then the second rule, on line 7.
    assert_eq!(said(text), refused(17, 2, "unit"));
    assert_eq!(said(&text.replace("2 5", "2 4")), refused(18, 2, "rule"));
    assert_eq!(said(&text.replace("2 5", "2 4").replace("count 0 1", "count 1 2")), refused(18, 1, "rule"));
    assert_eq!(said(&text.replace("2 5", "2 6")), ("(refused 7 (line 6))\n".into(), String::new()));
    // Places of two and of three digits, the last of the longest lists among them.
    for at in [9, 10, 99, 100, 299, 300] {
        let mut windows = vec![(1, 48); 300];
        windows[at - 1] = (48, 49);
        let text = String::from_utf8(Sheet::new(48, &windows, &[(1, 1, 1, 1)]).text()).unwrap();
        assert_eq!(said(&text), refused(17, at, "unit"));
    }
    for at in [9, 10, 59, 60] {
        let mut rules = vec![(1, 4, 0, 1); 60];
        rules[at - 1] = (1, 4, 1, 1);
        assert_eq!(said(&String::from_utf8(Sheet::new(4, &[], &rules).text()).unwrap()), refused(18, at, "rule"));
    }
}

/// Sheets at random, and texts with faults, to the partner and from it.
#[test]
fn conversions_at_random() {
    for (asked, name, own) in [(Asked::ToPartner, "the program to the partner", 407), (Asked::FromPartner, "the program from the partner", 408)] {
        let mut tally = Tally::new(name, seed(own));
        for i in 0..effort(2_500) {
            let mut r = Random::of_case(seed(own), i);
            let text = if i % 4 == 0 {
                any_text(&mut r, asked.house())
            } else {
                let sheet = if i % 5 == 0 { any_sheet(&mut r) } else { small_sheet(&mut r) };
                let kept = if r.chance(60) { sheet.kept_by(House::Partner) } else { sheet.kept_by(asked.house()) };
                with_notes(&mut r, asked.house(), &kept)
            };
            hold_asked(&mut tally, asked, &text);
        }
        tally.report();
        assert!(3 * tally.count(CONVERTED) > tally.all(), "too few are converted");
        for number in if asked == Asked::ToPartner { &[3, 17, 18][..] } else { &[3, 7] } {
            assert!(100 * tally.refused_by(*number) > tally.all(), "{number} refuses too seldom");
        }
    }
}

/// `wave to-partner < SHEET | wave from-partner`, and the other way round, through one pipe: span, units and rules in the order of the
/// lists, and no notes.
#[test]
fn there_and_back_through_a_pipe() {
    let through = |first: Asked, second: Asked, text: &[u8]| {
        let command = format!("'{0}' {1} | '{0}' {2}", path().display(), first.words()[0], second.words()[0]);
        let mut shell = Command::new("sh").args(["-c", &command]).stdin(Stdio::piped()).stdout(Stdio::piped()).spawn().unwrap();
        shell.stdin.take().unwrap().write_all(text).unwrap();
        shell.wait_with_output().unwrap().stdout
    };
    for i in 0..effort(300) {
        let (mut r, house) = (Random::of_case(seed(409), i), House::BOTH[i % 2]);
        let sheet = match i % 10 {
            0 | 1 => largest_sheet(&mut r, 1, 48, Reach::InsideWave),
            2..=5 => any_sheet(&mut r),
            _ => small_sheet(&mut r),
        };
        let sheet = sheet.kept_by(House::Partner);
        let text = with_notes(&mut r, house, &sheet);
        let (there, back) = if house == House::Ours { (Asked::ToPartner, Asked::FromPartner) } else { (Asked::FromPartner, Asked::ToPartner) };
        let got = through(there, back, &text);
        assert_eq!(String::from_utf8_lossy(&got), String::from_utf8_lossy(&sheet.text_for(house)), "seed {} case {i}", seed(409));
    }
}

/// A partner's sheet has the page of the sheet that it is turned into, ring or plan.
#[test]
fn a_partner_sheet_is_planned_as_ours() {
    for i in 0..effort(300) {
        let mut r = Random::of_case(seed(410), i);
        let sheet = if i % 3 == 0 { any_sheet(&mut r) } else { small_sheet(&mut r) }.kept_by(House::Partner);
        let text = with_notes(&mut r, House::Partner, &sheet);
        let ours = page_of(Asked::FromPartner, &text);
        assert_eq!(page_of(Asked::Plan, &ours), page_of(Asked::Partner, &text), "seed {} case {i}", seed(410));
    }
}

/// A partner's text with faults of every kind.
#[test]
fn damaged_partner_texts() {
    let mut tally = Tally::new("the program on a partner's texts at random", seed(411));
    for i in 0..effort(6_000) {
        let text = any_text(&mut Random::of_case(seed(411), i), House::Partner);
        hold_asked(&mut tally, Asked::Partner, &text);
    }
    tally.report();
    for number in [2, 3, 4, 5, 6, 7, 8, 11, 16] {
        assert!(2_000 * tally.refused_by(number) > tally.all(), "{number} refuses too seldom");
    }
}
