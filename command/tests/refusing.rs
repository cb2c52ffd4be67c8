//! Refusals in words: the page on standard output is the program's, and standard error has the file, the line made visible, and what to do.

mod common;

use std::collections::BTreeSet;
use std::fs;
use std::path::{Path, PathBuf};

use common::{folder, run, run_in, Ended};
use model::damage::any_text;
use model::effort;
use model::house::House;
use model::merging::{pair, text_at_fault};
use model::pairs;
use model::questions::partner_refusal;
use model::random::Random;
use model::reading::{locate, refusal_page, Refusal};
use model::seed;

/// A refused text: what it is refused by, the line as it is shown, and a part of the hint.
struct Slip {
    text: String,
    question: usize,
    line: usize,
    shown: &'static str,
    hint: &'static str,
}

fn slip(text: impl Into<String>, question: usize, line: usize, shown: &'static str, hint: &'static str) -> Slip {
    Slip { text: text.into(), question, line, shown, hint }
}

/// So many lines, with 1, 2, .. in turn for `#`.
fn times(count: usize, line: &str) -> String {
    (1..=count).map(|n| line.replace('#', &n.to_string()) + "\n").collect()
}

/// The usual slips in sheets of ours, at least one for each question that reading asks.
fn ours() -> Vec<Slip> {
    // Loader 50 is the tenth unit, on line 12.
    let again = format!("(sheet 9)\n(note)\n{}(unit 50 (window 2 2))\n", times(12, "(unit # (window 1 9))").replace("(unit 10 ", "(unit 50 "));
    vec![
        slip(format!("(sheet 4)\n(note {})\n", "x".repeat(16_000)), 1, 0, "", "16,000 bytes"),
        slip("(sheet 4)\r\n(unit 1 (window 1 2))\r\n", 2, 1, "(sheet 4)<cr>", "carriage return"),
        slip("(sheet 4)\n(unit 1 (window 1\t2))\n", 2, 2, "(unit 1 (window 1<tab>2))", "tab"),
        slip("\u{feff}(sheet 4)\n", 2, 1, "<0xef><0xbb><0xbf>(sheet 4)", "byte order mark"),
        slip("(sheet 4)\n(unit 1 (window 1 2))", 3, 2, "(unit 1 (window 1 2))", "line feed"),
        slip("(sheet 4)\n(unit 1 (window 1 2)) \n", 3, 2, "(unit 1 (window 1 2))<space>", "space"),
        slip("(sheet 4)\n\n", 3, 2, "", "empty"),
        slip("(sheet 4)\n(Unit 1 (window 1 2))\n", 3, 2, "(Unit 1 (window 1 2))", "small letters"),
        slip("(sheet 4)\n(unit 1 (window 1 2)\n", 3, 2, "(unit 1 (window 1 2)", "bracket"),
        slip("(sheet 4)\n(unit (window 1 2))\n", 3, 2, "(unit (window 1 2))", "loader number"),
        slip("(day 4)\n", 3, 1, "(day 4)", "--partner"),
        slip("(sheet 04)\n", 4, 1, "(sheet 04)", "zero in front"),
        slip("(sheet 4)\n(unit 10000 (window 1 2))\n", 4, 2, "(unit 10000 (window 1 2))", "5 digits"),
        slip("", 5, 0, "", "empty"),
        slip("(note)\n", 5, 0, "", "span"),
        slip("(unit 1 (window 1 2))\n(sheet 4)\n", 5, 1, "(unit 1 (window 1 2))", "line 2"),
        slip("(sheet 4)\n(note)\n(sheet 4)\n", 5, 3, "(sheet 4)", "line 1"),
        slip("(note)\n(sheet 49)\n", 6, 2, "(sheet 49)", "48"),
        slip("(sheet 0)\n", 6, 1, "(sheet 0)", "at least one"),
        slip("(sheet 4)\n(unit 1 (window 4 3))\n", 7, 2, "(unit 1 (window 4 3))", "the first slot, 4, comes after the last, 3"),
        slip("(sheet 4)\n(unit 1 (window 1 6))\n", 7, 2, "(unit 1 (window 1 6))", "slots are 1 to 4"),
        slip("(sheet 4)\n(unit 1 (window 0 2))\n", 7, 2, "(unit 1 (window 0 2))", "1"),
        slip("(sheet 4)\n(rule (slots 1 5) (count 0 1))\n", 7, 2, "(rule (slots 1 5) (count 0 1))", "slot 4"),
        slip("(sheet 4)\n(rule (slots 1 2) (count 3 2))\n", 8, 2, "(rule (slots 1 2) (count 3 2))", "the low, 3, is above the high, 2"),
        slip("(sheet 4)\n(rule (slots 1 2) (count 2 301))\n", 8, 2, "(rule (slots 1 2) (count 2 301))", "300"),
        slip(format!("(sheet 4)\n{}", times(301, "(unit # (window 1 4))")), 9, 302, "(unit 301 (window 1 4))", "301 lines"),
        slip(format!("(sheet 4)\n{}", times(61, "(rule (slots 1 4) (count 0 9))")), 10, 62, "(rule (slots 1 4) (count 0 9))", "61 lines"),
        slip("(note one (two)\n(sheet 4)\n", 11, 1, "(note one (two)", "(note one (two))"),
        slip("(sheet 4)\n(unit 0 (window 1 2))\n", 16, 2, "(unit 0 (window 1 2))", "1"),
        slip(again, 16, 15, "(unit 50 (window 2 2))", "loader 50 has a unit already, on line 12"),
    ]
}

/// The same of the partner's.
fn theirs() -> Vec<Slip> {
    vec![
        slip(format!("(day 4)\n(note {})\n", "x".repeat(16_000)), 1, 0, "", "16,000 bytes"),
        slip("(day 4)\r\n", 2, 1, "(day 4)<cr>", "carriage return"),
        slip("(day 4)\n(job 1 (start 1) (hours 2))", 3, 2, "(job 1 (start 1) (hours 2))", "line feed"),
        slip("(sheet 4)\n", 3, 1, "(sheet 4)", "form of ours"),
        slip("(day 4)\n(job 01 (start 1) (hours 2))\n", 4, 2, "(job 01 (start 1) (hours 2))", "zero in front"),
        slip("(note)\n(note)\n", 5, 0, "", "(day 4)"),
        slip("(day 4)\n(day 4)\n", 5, 2, "(day 4)", "line 1"),
        slip("(day 49)\n", 6, 1, "(day 49)", "48"),
        slip("(day 4)\n(job 1 (start 4) (hours 2))\n", 7, 2, "(job 1 (start 4) (hours 2))", "only one hour"),
        slip("(day 4)\n(limit (from 1) (hours 0) (most 1))\n", 7, 2, "(limit (from 1) (hours 0) (most 1))", "at least one hour"),
        slip("(day 4)\n(limit (from 1) (hours 4) (most 301))\n", 8, 2, "(limit (from 1) (hours 4) (most 301))", "300"),
        slip(format!("(day 4)\n{}", times(301, "(job # (start 1) (hours 4))")), 9, 302, "(job 301 (start 1) (hours 4))", "301 lines"),
        slip(format!("(day 4)\n{}", times(61, "(limit (from 1) (hours 4) (most 9))")), 10, 62, "(limit (from 1) (hours 4) (most 9))", "61 lines"),
        slip("(day 4)\n(note))\n", 11, 2, "(note))", "bracket"),
        slip("(day 4)\n(job 7 (start 1) (hours 1))\n(job 7 (start 2) (hours 1))\n", 16, 3, "(job 7 (start 2) (hours 1))", "on line 2"),
    ]
}

/// The line of words that begins with a number and a bar.
fn shown(said: &str, line: usize) -> Option<&str> {
    said.lines().find_map(|row| row.strip_prefix(&format!("{line} |")).map(|rest| rest.strip_prefix(' ').unwrap_or(rest)))
}

/// The place that words name, behind an arrow.
fn place(said: &str) -> &str {
    said.lines().find_map(|row| row.trim_start().strip_prefix("--> ")).unwrap_or_else(|| panic!("{said}"))
}

/// A file, with a line unless that is 0.
fn placed(name: &str, line: usize) -> String {
    if line == 0 { name.to_string() } else { format!("{name}:{line}") }
}

/// Holds that nothing invisible is in words, that they begin as an error, and that they name the question in the end.
fn hold_form(said: &str, question: usize) {
    assert!(said.starts_with("error: ") && said.chars().all(|c| c == '\n' || !c.is_control()), "{said:?}");
    let last = said.lines().last().unwrap();
    assert!(last.trim_start().starts_with(&format!("= refused by question {question}")), "{said}");
}

/// Holds that words are those of a slip in this file.
fn hold_slip(name: &str, slip: &Slip, Ended { status, page, said }: &Ended) {
    assert_eq!((*status, page.as_str()), (2, &format!("(refused {} (line {}))\n", slip.question, slip.line)[..]), "{said}");
    hold_form(said, slip.question);
    assert_eq!(place(said), placed(name, slip.line), "{said}");
    assert_eq!(shown(said, slip.line).unwrap_or(""), slip.shown, "{said}");
    let hints: Vec<&str> = said.lines().filter(|row| row.trim_start().starts_with("= hint: ")).collect();
    assert!(hints.len() == 1 && hints[0].contains(slip.hint), "{}: {said}", slip.hint);
}

/// The usual slips through every word that reads one sheet of ours, from a file and from standard input.
#[test]
fn slips_of_ours() {
    let folder = folder("refusing ours");
    for slip in ours() {
        fs::write(folder.join("north.sheet"), &slip.text).unwrap();
        for words in [&["plan", "north.sheet"][..], &["fits", "north.sheet"], &["to-partner", "north.sheet"], &["plan", "--explain", "./north.sheet"]] {
            hold_slip(words.last().unwrap(), &slip, &run_in(&folder, words, b""));
        }
        hold_slip("standard input", &slip, &run(&["plan"], slip.text.as_bytes()));
    }
}

/// The same of the partner's.
#[test]
fn slips_of_theirs() {
    let folder = folder("refusing theirs");
    for slip in theirs() {
        fs::write(folder.join("theirs"), &slip.text).unwrap();
        for words in [&["plan", "--partner", "theirs"][..], &["fits", "--partner", "theirs"], &["from-partner", "theirs"]] {
            hold_slip("theirs", &slip, &run_in(&folder, words, b""));
        }
    }
}

/// Each question of reading has its slip in both lists, so that none goes without words.
#[test]
fn every_question() {
    let all: BTreeSet<usize> = (1..=11).chain([16]).collect();
    for slips in [ours(), theirs()] {
        assert_eq!(slips.iter().map(|slip| slip.question).collect::<BTreeSet<_>>(), all);
    }
}

/// 17 and 18 have the place among units or rules on the page, and in words the line of the text and both.
#[test]
fn on_the_way_to_the_partner() {
    for (text, page, at, line, hint, of) in [
        ("(sheet 4)\n(note)\n(unit 7 (window 1 4))\n(unit 9 (window 2 5))\n", "(refused 17 (line 2))\n", 4, "(unit 9 (window 2 5))", "end with 4", "of unit 2"),
        ("(note)\n(sheet 4)\n(rule (slots 1 4) (count 1 2))\n", "(refused 18 (line 1))\n", 3, "(rule (slots 1 4) (count 1 2))", "at least 1", "of rule 1"),
    ] {
        let Ended { status, page: got, said } = run(&["to-partner"], text.as_bytes());
        assert_eq!((status, got.as_str()), (2, page));
        assert_eq!((place(&said), shown(&said, at)), (&placed("standard input", at)[..], Some(line)), "{said}");
        assert!(said.contains("= hint: ") && said.contains(hint) && said.ends_with(&format!(", {of}\n")), "{said}");
    }
}

/// Two files of a folder.
fn two(name: &str, one: &[u8], two: &[u8]) -> PathBuf {
    let folder = folder(name);
    fs::write(folder.join("one"), one).unwrap();
    fs::write(folder.join("two"), two).unwrap();
    folder
}

/// Every question of two sheets: which file, which line of it, and what is said of the other, by `merge` and by `line`.
#[test]
fn two_sheets() {
    let (full, stretches) = (times(299, "(unit # (window 1 4))"), |from: usize, to: usize| -> String {
        let all = (1..=7).flat_map(|first| (first..=48).map(move |last| format!("(rule (slots {first} {last}) (count 0 9))\n")));
        all.skip(from).take(to - from).collect()
    });
    let cases = [
        ("(sheet 7)\n", "(note)\n(sheet 8)\n".to_string(), 19, "two", 2, "one:1 has the span 7, and two:2 has the span 8"),
        ("(sheet 7)\n(unit 12 (window 1 4))\n", "(sheet 7)\n(unit 40 (window 1 4))\n(unit 12 (window 1 4))\n".into(), 20, "two", 3, "loader 12 is at one:2"),
        (&format!("(sheet 7)\n{full}"), "(sheet 7)\n(unit 400 (window 1 4))\n(unit 401 (window 1 4))\n".into(), 9, "two", 3, "301 together"),
        ("(sheet 7)\n(rule (slots 1 3) (count 0 2))\n", "(sheet 7)\n(rule (slots 1 3) (count 3 4))\n".into(), 21, "two", 2, "one:2 has the low 0"),
        ("(sheet 7)\n(rule (slots 1 3) (count 0 2))\n(rule (slots 1 3) (count 3 4))\n", "(sheet 7)\n".into(), 21, "one", 0, "one:3 has the low 3"),
        (&format!("(sheet 48)\n{}", stretches(0, 40)), format!("(sheet 48)\n{}", stretches(30, 62)), 10, "two", 32, "62 stretches"),
        ("(sheet 49)\n", "(sheet 7)\n".into(), 6, "one", 1, "48 slots are the most"),
        ("(sheet 7)\n", "(sheet 7)\n(unit 1 (window 4 3))\n".into(), 7, "two", 2, "comes after the last"),
    ];
    for (one, other, question, file, line, remark) in cases {
        let folder = two("refusing two", one.as_bytes(), other.as_bytes());
        for words in [&["merge", "one", "two"][..], &["line", "1", "one", "two"]] {
            let Ended { status, page, said } = run_in(&folder, words, b"");
            assert_eq!((status, page), (2, format!("(refused {question} (line {line}))\n")), "{said}");
            hold_form(&said, question);
            assert_eq!(place(&said), placed(file, line), "{said}");
            assert!(said.contains(remark), "{remark}: {said}");
            let text = if file == "one" { one } else { &other };
            assert_eq!(shown(&said, line), if line == 0 { None } else { text.lines().nth(line - 1) }, "{said}");
        }
    }
    let folder = two("refusing two", b"(sheet 7)\n", b"(sheet 7)\n(unit 3 (window 1 1))\n");
    for loader in ["4", "0", "10000"] {
        let Ended { status, page, said } = run_in(&folder, &["line", loader, "one", "two"], b"");
        assert_eq!((status, page.as_str()), (2, "(refused 27 (line 0))\n"));
        hold_form(&said, 27);
        assert!(place(&said).contains("one") && place(&said).contains("two"), "{said}");
    }
}

/// Whether a line is shown as it is: short, and with nothing invisible.
fn is_plain(line: &[u8]) -> bool {
    line.len() <= 100 && line.iter().all(|byte| (32..=126).contains(byte)) && !line.starts_with(b" ") && !line.ends_with(b" ")
}

/// Holds that words name this file and this line of its text, and show it as it is where it can be.
fn hold_place(said: &str, name: &str, text: &[u8], line: usize, of: &str) {
    assert_eq!(place(said), placed(name, line), "{of}: {said}");
    let bytes = line.checked_sub(1).map(|i| text.split(|&byte| byte == b'\n').nth(i).unwrap());
    match bytes {
        Some(bytes) if is_plain(bytes) => assert_eq!(shown(said, line).map(str::as_bytes), Some(bytes), "{of}: {said}"),
        Some(_) => assert!(shown(said, line).is_some(), "{of}: {said}"),
        None => assert!(!said.contains(" | "), "{of}: {said}"),
    }
}

/// Where the words of a random text are: the refusal that the model has for it, and the line of the text that it is of.
fn refusal(house: House, to_partner: bool, text: &[u8]) -> Option<(Refusal, usize)> {
    match locate(house, text) {
        Err(refusal) => Some((refusal, refusal.line)),
        Ok(located) => partner_refusal(&located.sheet).filter(|_| to_partner).map(|refusal| {
            let spots = if refusal.number == 17 { &located.units } else { &located.rules };
            (refusal, spots[refusal.line - 1].number)
        }),
    }
}

/// What a text may be read by, and the house that it is of.
const CALLS: [(&[&str], House); 4] =
    [(&["plan"], House::Ours), (&["to-partner"], House::Ours), (&["fits", "--partner"], House::Partner), (&["from-partner"], House::Partner)];

/// Random damaged texts: the file and the line are those of the model, whatever the line is like.
#[test]
fn random_texts() {
    let (folder, seed) = (folder("refusing random"), seed(0xf1));
    let mut seen = BTreeSet::new();
    for i in 0..effort(500) {
        let mut r = Random::of_case(seed, i);
        let (words, house) = *r.pick(&CALLS);
        let text = any_text(&mut r, house);
        fs::write(folder.join("text"), &text).unwrap();
        let ended = run_in(&folder, &[words, &["text"]].concat(), b"");
        let Some((refusal, line)) = refusal(house, words == ["to-partner"], &text) else {
            assert!(ended.status < 2, "seed {seed}, case {i}: {}", ended.said);
            continue;
        };
        seen.insert(refusal.number);
        assert_eq!((ended.status, ended.page.as_bytes()), (2, &refusal_page(refusal)[..]));
        hold_form(&ended.said, refusal.number);
        hold_place(&ended.said, "text", &text, line, &format!("seed {seed}, case {i}"));
    }
    assert!(seen.len() > 8, "{seen:?}");
}

/// Random pairs: the file is the one that the model finds at fault, and the line is one of its text.
#[test]
fn random_pairs() {
    let seed = seed(0xf2);
    let folder = two("refusing pairs", b"", b"");
    let mut seen = BTreeSet::new();
    for i in 0..effort(400) {
        let (one, other) = pairs::texts(&mut Random::of_case(seed, i));
        let Err(refusal) = pair(&one, &other).map(drop) else { continue };
        seen.insert(refusal.number);
        write_both(&folder, &one, &other);
        let Ended { status, page, said } = run_in(&folder, &["merge", "one", "two"], b"");
        assert_eq!((status, page.as_bytes()), (2, &refusal_page(refusal)[..]));
        hold_form(&said, refusal.number);
        let (name, text) = if text_at_fault(&one, refusal) == 1 { ("one", &one) } else { ("two", &other) };
        hold_place(&said, name, text, refusal.line, &format!("seed {seed}, case {i}"));
    }
    assert!([9, 10, 19, 20, 21].iter().all(|number| seen.contains(number)), "{seen:?}");
}

fn write_both(folder: &Path, one: &[u8], two: &[u8]) {
    fs::write(folder.join("one"), one).unwrap();
    fs::write(folder.join("two"), two).unwrap();
}

/// A name with what is invisible in it is no trouble on a terminal, and of several refused files each has its words.
#[test]
fn names_in_words() {
    let folder = folder("refusing names");
    for name in ["\x1b[31mred", "a\nb", "c d"] {
        fs::write(folder.join(name), "(sheet 49)\n").unwrap();
    }
    let Ended { status, page, said } = run_in(&folder, &["plan", "\x1b[31mred", "a\nb", "c d"], b"");
    assert_eq!((status, page), (2, "(refused 6 (line 1))\n".repeat(3)));
    assert!(said.chars().all(|c| c == '\n' || !c.is_control()), "{said:?}");
    assert_eq!(said.matches("error: ").count(), 3);
    assert!(said.contains(" --> c d:1\n"), "{said}");
}
