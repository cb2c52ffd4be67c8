//! Every example of docs/FORMAT.md: the sheet goes in, exactly the answer comes out, or the sheet in the other house's form; or two sheets go in,
//! and one comes out, or the line of a unit.

use std::fs;
use std::path::Path;

use model::house::House;
use model::page;
use model::program::{line_page, merged_page, run, run_with, Asked};
use model::reading::{refusal_page, Refusal};
use model::sheet::{Sheet, Solved};
use tugrokt::{Answer, Decision};

struct Example {
    /// The line of the document that opens it.
    line: usize,
    /// A sheet of ours, or a partner's.
    house: House,
    text: Vec<u8>,
    /// The second sheet, for an example of two.
    second: Option<Vec<u8>>,
    /// What follows it: the name of each block, and its text.
    results: Vec<(String, String)>,
}

/// The blocks that may follow a sheet: the answer to it, and what the program writes with its other words, each under the word.
const OF_OURS: [&str; 4] = ["answer", "fits", "to-partner", "standard-error"];
/// The same of a partner's.
const OF_PARTNER: [&str; 2] = ["answer", "from-partner"];
/// And of two sheets of ours; a block `line 40` has the line of loader 40.
const OF_TWO: [&str; 1] = ["merge"];

/// The loader number of a block's name.
fn loader_of(kind: &str) -> Option<usize> {
    kind.strip_prefix("line ").map(|loader| loader.parse().expect("a loader number"))
}

impl Example {
    /// May this block follow?
    fn knows(&self, kind: &str) -> bool {
        match (self.house, &self.second) {
            (House::Ours, Some(_)) => OF_TWO.contains(&kind) || loader_of(kind).is_some(),
            (House::Ours, None) => OF_OURS.contains(&kind),
            (House::Partner, _) => OF_PARTNER.contains(&kind),
        }
    }

    fn result(&self, name: &str) -> Option<&str> {
        self.results.iter().find(|(kind, _)| kind == name).map(|(_, block)| block.as_str())
    }

    /// Is this result the one that the document shows, if it shows one?
    fn check(&self, name: &str, got: &[u8]) {
        if let Some(expected) = self.result(name) {
            assert_eq!(String::from_utf8_lossy(got), expected, "docs/FORMAT.md, line {}: {name}", self.line);
        }
    }
}

/// A line `301 × (..)` stands for that line 301 times, with 1, 2, .. in turn for `#`.
fn line_of_sheet(line: &str) -> String {
    match line.split_once('×') {
        Some((times, line)) => {
            let times = times.trim().parse().expect("a number of times");
            let line = line.strip_prefix(' ').unwrap_or(line);
            (1..=times).map(|i: usize| format!("{}\n", line.replace('#', &i.to_string()))).collect()
        }
        None => format!("{line}\n"),
    }
}

fn examples() -> Vec<Example> {
    let text = fs::read_to_string(Path::new(env!("ROOT")).join("docs/FORMAT.md")).expect("the document is read");
    let mut all: Vec<Example> = Vec::new();
    let mut open: Option<(&str, String)> = None;
    for (i, line) in text.lines().enumerate() {
        match (&mut open, line.strip_prefix("```")) {
            (None, Some(kind @ ("sheet" | "partner"))) => {
                assert!(all.iter().all(|e| !e.results.is_empty()), "line {i}: nothing follows the sheet before");
                let house = if kind == "sheet" { House::Ours } else { House::Partner };
                all.push(Example { line: i + 1, house, text: vec![], second: None, results: vec![] });
                open = Some((kind, String::new()));
            }
            (None, Some("second")) => {
                let example = all.last().unwrap_or_else(|| panic!("line {}: no first sheet", i + 1));
                assert!(example.house == House::Ours && example.second.is_none() && example.results.is_empty(), "line {}: a second sheet", i + 1);
                open = Some(("second", String::new()));
            }
            (None, Some(kind)) => {
                let example = all.last().unwrap_or_else(|| panic!("line {}: no sheet before {kind}", i + 1));
                assert!(example.knows(kind) && example.result(kind).is_none(), "line {}: a block {kind}", i + 1);
                open = Some((kind, String::new()));
            }
            (Some((kind, block)), Some("")) => {
                let example = all.last_mut().expect("a sheet before its answer");
                assert!(!block.is_empty(), "line {}: an empty block", i + 1);
                match *kind {
                    "sheet" | "partner" => example.text = std::mem::take(block).into_bytes(),
                    "second" => example.second = Some(std::mem::take(block).into_bytes()),
                    _ => example.results.push((kind.to_string(), std::mem::take(block))),
                }
                open = None;
            }
            (Some(("sheet" | "partner" | "second", block)), None) => block.push_str(&line_of_sheet(line)),
            (Some((_, block)), None) => *block += &format!("{line}\n"),
            (Some(_), Some(_)) => panic!("line {}: a block in a block", i + 1),
            (None, None) => (),
        }
    }
    assert!(open.is_none() && all.iter().all(|e| !e.results.is_empty()), "a block stays open");
    all
}

/// Reads a house's text.
fn read(house: House, text: &[u8]) -> Result<tugrokt::Sheet, tugrokt::Refusal> {
    match house {
        House::Ours => tugrokt::Sheet::read(text),
        House::Partner => tugrokt::Sheet::read_partner(text),
    }
}

fn page_of_refusal(refusal: tugrokt::Refusal) -> Vec<u8> {
    refusal_page(Refusal { number: refusal.question, line: refusal.line })
}

/// The page that reading and planning lead to, laid out here.
fn page_by_calls(house: House, text: &[u8]) -> Vec<u8> {
    let lists = match read(house, text) {
        Err(refusal) => return page_of_refusal(refusal),
        Ok(lists) => lists,
    };
    let windows: Vec<(u16, u16)> = lists.first.iter().copied().zip(lists.last.iter().copied()).collect();
    let rules: Vec<(u16, u16, u16, u16)> =
        (0..lists.from.len()).map(|i| (lists.from[i], lists.to[i], lists.low[i], lists.high[i])).collect();
    let sheet = Sheet::new(lists.span, &windows, &rules).numbered(&lists.loader);
    match lists.plan().expect("what is read is planned") {
        Answer::None { ring } => page::of_ring(&sheet, &ring),
        Answer::Plan(plan) => {
            let w = sheet.boundaries();
            let mut table = vec![0; w * w];
            for a in 0..w {
                for b in a + 1..w {
                    let (least, greatest) = plan.range(a + 1, b);
                    (table[a * w + b], table[b * w + a]) = (greatest as i16, -(least as i16));
                }
            }
            page::of_plan(&sheet, &Solved { plan: plan.slot, earliest: plan.earliest, latest: plan.latest, table })
        }
    }
}

fn check(answer: fn(House, &[u8]) -> Vec<u8>) {
    for example in examples() {
        example.check("answer", &answer(example.house, &example.text));
    }
}

/// The page of a sheet that fits, laid out here from what deciding gives; of other texts the page is the answer's.
fn fits_by_calls(text: &[u8]) -> Option<Vec<u8>> {
    let lists = tugrokt::Sheet::read(text).ok()?;
    let Decision::Fits(counts) = lists.decide().expect("what is read is decided") else { return None };
    let mut page = format!("(answer fits {})\n", lists.first.len());
    for slot in 1..=lists.span {
        let (least, greatest) = counts.range(slot, slot);
        page += &format!("(slot {slot} (range {least} {greatest}))\n");
    }
    Some(page.into_bytes())
}

/// The page of a text that the package answers whole.
fn answered(house: House, query: tugrokt::Query, text: &[u8]) -> Vec<u8> {
    let house = if house == House::Ours { tugrokt::House::Ours } else { tugrokt::House::Partner };
    tugrokt::answer(house, query, text)
}

/// A sheet with a plan fits, and where the document shows the page of that, it is this one. To all others the answer is the same as to a
/// question for a plan.
fn check_fits(answer: fn(&[u8]) -> Vec<u8>) {
    for example in examples().iter().filter(|e| e.house == House::Ours) {
        let got = answer(&example.text);
        example.check("fits", &got);
        let Some(plan) = example.result("answer") else { continue };
        assert_eq!(got.starts_with(b"(answer fits "), plan.starts_with("(answer plan "), "docs/FORMAT.md, line {}", example.line);
        if !got.starts_with(b"(answer fits ") {
            assert_eq!(String::from_utf8_lossy(&got), plan, "docs/FORMAT.md, line {}", example.line);
        }
    }
}

/// What each text becomes in the other house's form, with what is said on standard error beside it.
fn check_conversions(convert: fn(House, &[u8]) -> (Vec<u8>, String)) {
    for example in examples() {
        let (page, said) = convert(example.house, &example.text);
        example.check(if example.house == House::Ours { "to-partner" } else { "from-partner" }, &page);
        example.check("standard-error", said.as_bytes());
    }
}

/// What two sheets become, and the lines of their units.
fn check_merging(merge: fn(&[u8], &[u8]) -> Vec<u8>, line: fn(usize, &[u8], &[u8]) -> Vec<u8>) {
    for example in examples() {
        let (one, Some(two)) = (&example.text, &example.second) else { continue };
        example.check("merge", &merge(one, two));
        for (kind, _) in &example.results {
            if let Some(loader) = loader_of(kind) {
                example.check(kind, &line(loader, one, two));
            }
        }
    }
}

/// There is an example of each kind of answer, of each question that a sheet of ours can fail, and of what a partner's sheet can be.
#[test]
fn the_examples_cover_every_answer() {
    let all = examples();
    let shown = |house: House, name: &str| all.iter().filter(|e| e.house == house).filter_map(|e| e.result(name)).map(str::to_string).collect::<Vec<_>>();
    let has = |pages: &[String], start: &str| pages.iter().any(|page| page.starts_with(start));
    let pages = shown(House::Ours, "answer");
    assert!(has(&pages, "(answer plan ") && has(&pages, "(answer none)\n"));
    assert!(has(&shown(House::Ours, "fits"), "(answer fits "), "no example of a sheet that fits");
    assert!(pages.iter().any(|page| page.contains(" (carried) ")), "no example of a carried unit");
    for number in (1..=11).chain([16]) {
        assert!(has(&pages, &format!("(refused {number} (line ")), "no example of {number}");
    }
    let pages = shown(House::Partner, "answer");
    for start in ["(answer plan ", "(answer none)\n", "(refused 3 ", "(refused 7 ", "(refused 8 "] {
        assert!(has(&pages, start), "no example of a partner's sheet with {start}");
    }
    assert!(has(&shown(House::Partner, "from-partner"), "(sheet "));
    for start in ["(day ", "(refused 17 ", "(refused 18 "] {
        assert!(has(&shown(House::Ours, "to-partner"), start), "no example of a sheet to the partner with {start}");
    }
    for start in ["(sheet ", "(refused 19 ", "(refused 20 ", "(refused 21 "] {
        assert!(has(&shown(House::Ours, "merge"), start), "no example of two sheets with {start}");
    }
    let lines: Vec<String> = all.iter().flat_map(|e| &e.results).filter(|(kind, _)| loader_of(kind).is_some()).map(|(_, block)| block.clone()).collect();
    for start in ["(unit ", "(refused 27 "] {
        assert!(has(&lines, start), "no example of a unit's line with {start}");
    }
    assert!(has(&shown(House::Ours, "standard-error"), "unit ") && has(&shown(House::Ours, "standard-error"), "rule "));
}

#[test]
fn by_reading_and_planning() {
    check(page_by_calls);
    check_fits(|text| fits_by_calls(text).unwrap_or_else(|| page_by_calls(House::Ours, text)));
}

#[test]
fn by_printing() {
    check(|house, text| read(house, text).and_then(|sheet| sheet.page()).unwrap_or_else(page_of_refusal));
}

#[test]
fn by_answering() {
    check(|house, text| answered(house, tugrokt::Query::Plan, text));
    check_fits(|text| answered(House::Ours, tugrokt::Query::Fits, text));
}

#[test]
fn by_writing() {
    check_conversions(|house, text| {
        let converted = read(house, text).and_then(|sheet| match house {
            House::Ours => sheet.write_partner(),
            House::Partner => sheet.write(),
        });
        let said = match converted {
            Err(refusal) if refusal.question == 17 => format!("unit {}\n", refusal.line),
            Err(refusal) if refusal.question == 18 => format!("rule {}\n", refusal.line),
            _ => String::new(),
        };
        (converted.unwrap_or_else(page_of_refusal), said)
    });
}

#[test]
fn by_the_program() {
    check(|house, text| run(if house == House::Ours { Asked::Plan } else { Asked::Partner }, text, &[], None));
    check_fits(|text| run(Asked::Fits, text, &[], None));
    check_conversions(|house, text| {
        let asked = if house == House::Ours { Asked::ToPartner } else { Asked::FromPartner };
        run_with(asked.words(), text, &[], None)
    });
}

#[test]
fn by_merging() {
    check_merging(
        |one, two| tugrokt::merge(one, two).and_then(|sheet| sheet.write()).unwrap_or_else(page_of_refusal),
        |loader, one, two| match tugrokt::line_of(one, two, loader as u16) {
            Ok(line) => [line, b"\n"].concat(),
            Err(refusal) => page_of_refusal(refusal),
        },
    );
    check_merging(merged_page, line_page);
}

/// What the program writes with these words for two files.
fn by_files(words: &[&str], one: &[u8], two: &[u8]) -> Vec<u8> {
    let files = [("first.sheet", one), ("second.sheet", two)].map(|(name, text)| {
        let path = Path::new(env!("CARGO_TARGET_TMPDIR")).join(format!("format-{name}"));
        fs::write(&path, text).unwrap();
        path.to_str().unwrap().to_string()
    });
    run_with(&[words, &[&files[0], &files[1]]].concat(), b"", &[], None).0
}

#[test]
fn by_merging_files() {
    check_merging(|one, two| by_files(&["merge"], one, two), |loader, one, two| by_files(&["line", &loader.to_string()], one, two));
}
