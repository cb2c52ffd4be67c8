//! The border crate's own functions, and the examples.

use std::io::Write;
use std::path::{Path, PathBuf};
use std::process::{Command, Stdio};

use model::cases::{self, Says};
use model::house::House;
use model::merging::{line_of, merge_into, Found};
use model::questions::partner_refusal;
use model::reading::read;
use model::{enumerated, page, sheet};
use tugrokt::{Answer, Decision, Refusal, Sheet};

#[test]
fn document_cases() {
    for case in cases::all() {
        let sheet = Sheet::read(&case.sheet.text()).unwrap();
        assert_eq!(sheet.loader, case.sheet.loaders(), "{}", case.name);
        match (sheet.plan().unwrap(), case.says) {
            (Answer::Plan(plan), Says::Plan(slots, windows)) => {
                assert_eq!(plan.slot, slots);
                let between: Vec<(u16, u16)> = plan.earliest.into_iter().zip(plan.latest).collect();
                assert_eq!(between, windows);
            }
            (Answer::None { ring }, Says::None(..)) => assert_eq!(case.sheet.ring_fault(&ring), None),
            (answer, says) => panic!("{}: {answer:?}, but {says:?}", case.name),
        }
    }
}

/// Deciding and seating give what planning gives: the counts or the ring, the plan or nothing. With the plan comes the number of looks.
#[test]
fn decisions_and_seats() {
    for case in cases::all() {
        let sheet = Sheet::read(&case.sheet.text()).unwrap();
        match (sheet.plan().unwrap(), sheet.decide().unwrap(), sheet.seat().unwrap()) {
            (Answer::Plan(plan), Decision::Fits(counts), Some(seated)) => {
                assert_eq!((&counts, &seated.plan), (&plan.counts, &plan), "{}", case.name);
                let solved = enumerated::solve(&case.sheet).unwrap();
                assert_eq!(seated.looked, case.sheet.looked(&solved.plan), "{}", case.name);
                let w = case.sheet.boundaries();
                for (first, last) in (1..w).flat_map(|first| (first..w).map(move |last| (first, last))) {
                    let range = (-solved.table[last * w + first - 1] as u16, solved.table[(first - 1) * w + last] as u16);
                    assert_eq!((counts.range(first, last), plan.range(first, last)), (range, range), "{}", case.name);
                }
            }
            (Answer::None { ring }, Decision::None { ring: decided }, None) => assert_eq!(decided, ring, "{}", case.name),
            other => panic!("{}: {other:?}", case.name),
        }
    }
}

#[test]
fn pages() {
    for case in cases::all() {
        let page = Sheet::read(&case.sheet.text()).unwrap().page().unwrap();
        assert_eq!(page::fault(&case.sheet, enumerated::solve(&case.sheet).as_ref(), &page), None, "{}", case.name);
    }
    assert_eq!(Sheet::new(usize::MAX).page(), Err(Refusal { question: 6, line: 0 }));
}

/// Sheets are written and read back, in our form and in the partner's.
#[test]
fn texts() {
    for case in cases::all() {
        let text = case.sheet.text();
        let sheet = Sheet::read(&text).unwrap();
        assert_eq!(sheet.write(), Ok(text), "{}", case.name);
        let theirs = match partner_refusal(&case.sheet) {
            None => Ok(case.sheet.text_for(House::Partner)),
            Some(refusal) => Err(Refusal { question: refusal.number, line: refusal.line }),
        };
        assert_eq!(sheet.write_partner(), theirs, "{}", case.name);
        let kept = case.sheet.kept_by(House::Partner);
        let sheet = Sheet::read_partner(&kept.text_for(House::Partner)).unwrap();
        assert_eq!(sheet, Sheet::read(&kept.text()).unwrap(), "{}", case.name);
        assert_eq!(Sheet::read_partner(&sheet.write_partner().unwrap()), Ok(sheet), "{}", case.name);
    }
    // The longest text there is.
    let longest = sheet::Sheet::new(48, &[(10, 48); 300], &[(10, 48, 0, 300); 60]).numbered(&(9_700..=9_999).collect::<Vec<_>>());
    let text = Sheet::read(&longest.text()).unwrap().write_partner().unwrap();
    assert_eq!((text.len(), text), (tugrokt::MAX_TEXT, longest.text_for(House::Partner)));
}

/// Two sheets become one; a unit's line is a part of the text that holds it, with the lifetime of both.
#[test]
fn two_sheets() {
    let (one, two) = cases::PAIR;
    let (one, two) = (one.as_bytes().to_vec(), two.as_bytes().to_vec());
    let merged = tugrokt::merge(&one, &two).unwrap();
    assert_eq!(merged.write(), Ok(cases::MERGED.into()));
    assert_eq!(Sheet::read(cases::MERGED.as_bytes()), Ok(merged.clone()));
    assert!(matches!(merged.plan(), Ok(Answer::Plan(_))));
    let lines: Vec<&[u8]> = merged.loader.iter().map(|&loader| tugrokt::line_of(&one, &two, loader).unwrap()).collect();
    for (line, text) in lines.iter().zip([&one, &one, &two]) {
        let (part, whole) = (line.as_ptr_range(), text.as_ptr_range());
        assert!(whole.start <= part.start && part.end <= whole.end, "the line lies in its text");
    }
    assert_eq!(lines, [&b"(unit 4017 (window 1 4))"[..], b"(unit 12 (window 7 8))", b"(unit 40 (window 2 3))"]);
    assert_eq!(tugrokt::line_of(&one, &two, 401), Err(Refusal { question: 27, line: 0 }));
    assert_eq!(tugrokt::line_of(&one, b"(sheet 8)\n", 12), Err(Refusal { question: 19, line: 1 }));
    assert_eq!(tugrokt::merge(&one, &one), Err(Refusal { question: 20, line: 2 }));
    assert_eq!(tugrokt::merge(b"", &two), Err(Refusal { question: 5, line: 0 }));
}

#[test]
fn sheets_are_built_and_ranges_are_read() {
    let mut sheet = Sheet::new(4);
    sheet.add_unit(4_017, 1, 2);
    sheet.add_unit(12, 1, 4);
    for from in 1..=3 {
        sheet.add_rule(from, from + 1, 1, 1);
    }
    let Answer::Plan(plan) = sheet.plan().unwrap() else { panic!("P2 has a plan") };
    assert_eq!(plan.range(1, 1), (0, 1));
    assert_eq!(plan.range(1, 2), (1, 1));
    assert_eq!(plan.range(1, 4), (2, 2));
    let page = String::from_utf8(sheet.page().unwrap()).unwrap();
    let units: Vec<&str> = page.lines().filter(|l| l.starts_with("(unit ")).collect();
    assert_eq!(units, ["(unit 4017 (slot 1) (between 1 2))", "(unit 12 (slot 3) (between 3 4))"]);
}

/// A carried unit is told from one with a slot, and stretches may end with the carried place.
#[test]
fn carried_units() {
    let mut sheet = Sheet::new(3);
    for loader in [4_017, 12] {
        sheet.add_unit(loader, 1, 4);
    }
    sheet.add_rule(1, 3, 1, 1);
    let Answer::Plan(plan) = sheet.plan().unwrap() else { panic!("P12 has a plan") };
    assert_eq!(plan.slot.iter().map(|&slot| slot as usize).collect::<Vec<_>>(), [1, tugrokt::carried_place(3)]);
    assert_eq!([0, 1].map(|unit| plan.is_carried(unit)), [false, true]);
    assert_eq!([plan.range(1, 3), plan.range(4, 4), plan.range(3, 4), plan.range(1, 4)], [(1, 1), (1, 1), (1, 2), (2, 2)]);
    assert_eq!(sheet.page().unwrap(), cases::P12_PAGE.replace("unit 1 ", "unit 4017 ").replace("unit 2 ", "unit 12 ").as_bytes());
    let Decision::Fits(counts) = sheet.decide().unwrap() else { panic!("P12 fits") };
    assert_eq!([counts.range(1, 3), counts.range(4, 4), counts.range(3, 4), counts.range(1, 4)], [(1, 1), (1, 1), (1, 2), (2, 2)]);
    let seated = sheet.seat().unwrap().unwrap();
    // One look for slot 1, and both units for the carried place.
    assert_eq!((seated.plan.is_carried(1), seated.looked), (true, 1 + 2));
    sheet.add_unit(1, 4, 4);
    assert_eq!(sheet.plan(), Err(Refusal { question: 7, line: 0 }));
}

/// The longest span in rooms of the largest sizes, and one place less.
#[test]
fn the_largest_rooms() {
    let mut sheet = Sheet::new(tugrokt::MAX_SLOTS);
    sheet.add_unit(1, 48, 49);
    let plan = |table: usize, ring: usize| {
        let (mut table, mut ring, mut rooms) = (vec![0; table], vec![0; ring], [[0], [0], [0]]);
        let [plan, earliest, latest] = &mut rooms;
        tugrokt::entry::plan(sheet.lists(), tugrokt::entry::Rooms { table: &mut table, plan, earliest, latest, ring: &mut ring }).number
    };
    assert_eq!(tugrokt::boundaries(tugrokt::MAX_SLOTS), tugrokt::MAX_BOUNDARIES);
    assert_eq!(plan(tugrokt::MAX_CELLS, tugrokt::MAX_BOUNDARIES), 0);
    assert_eq!(plan(tugrokt::MAX_CELLS - 1, tugrokt::MAX_BOUNDARIES), 12);
    assert_eq!(plan(tugrokt::MAX_CELLS, tugrokt::MAX_BOUNDARIES - 1), 12);
    let decide = |table: usize, ring: usize| {
        let (mut table, mut ring) = (vec![0; table], vec![0; ring]);
        tugrokt::entry::decide(sheet.lists(), tugrokt::entry::DecideRooms { table: &mut table, ring: &mut ring }).number
    };
    assert_eq!(decide(tugrokt::MAX_CELLS, tugrokt::MAX_BOUNDARIES), 0);
    assert_eq!(decide(tugrokt::MAX_CELLS - 1, tugrokt::MAX_BOUNDARIES), 12);
    assert_eq!(decide(tugrokt::MAX_CELLS, tugrokt::MAX_BOUNDARIES - 1), 12);
    let seat = |table: usize, units: usize| {
        let (mut table, mut rooms) = (vec![0; table], [vec![0; units], vec![0; units], vec![0; units]]);
        let [plan, earliest, latest] = &mut rooms;
        tugrokt::entry::seat(sheet.lists(), tugrokt::entry::SeatRooms { table: &mut table, plan, earliest, latest }).number
    };
    assert_eq!(seat(tugrokt::MAX_CELLS, 1), 0);
    assert_eq!(seat(tugrokt::MAX_CELLS - 1, 1), 12);
    assert_eq!(seat(tugrokt::MAX_CELLS, 0), 12);
}

#[test]
fn refusals() {
    assert_eq!(Sheet::read(b""), Err(Refusal { question: 5, line: 0 }));
    assert_eq!(Sheet::read(b"(sheet 4)\n(unit 1 (window 4 3))\n"), Err(Refusal { question: 7, line: 2 }));
    let again = b"(sheet 4)\n(unit 12 (window 1 3))\n(note)\n(unit 12 (window 1 4))\n";
    assert_eq!(Sheet::read(again), Err(Refusal { question: 16, line: 4 }));
    assert_eq!(Sheet::new(0).plan(), Err(Refusal { question: 6, line: 0 }));
    assert_eq!(Sheet::new(usize::MAX).plan(), Err(Refusal { question: 6, line: 0 }));
    for span in [0, 49, usize::MAX] {
        assert_eq!(Sheet::new(span).decide(), Err(Refusal { question: 6, line: 0 }));
        assert_eq!(Sheet::new(span).seat(), Err(Refusal { question: 6, line: 0 }));
    }
    let mut lopsided = Sheet::new(4);
    lopsided.first.push(1);
    assert_eq!(lopsided.plan(), Err(Refusal { question: 13, line: 0 }));
    lopsided.last.push(1);
    assert_eq!(lopsided.plan(), Err(Refusal { question: 13, line: 0 }), "no loader number");
    lopsided.loader.push(tugrokt::MAX_LOADER);
    assert!(lopsided.plan().is_ok());
    lopsided.add_unit(tugrokt::MAX_LOADER, 1, 4);
    assert_eq!(lopsided.plan(), Err(Refusal { question: 16, line: 0 }));
    lopsided.loader[1] = tugrokt::MAX_LOADER + 1;
    assert_eq!(lopsided.page(), Err(Refusal { question: 16, line: 0 }));
    assert_eq!(lopsided.decide(), Err(Refusal { question: 16, line: 0 }));
    assert_eq!(lopsided.seat(), Err(Refusal { question: 16, line: 0 }));
    assert_eq!(lopsided.write(), Err(Refusal { question: 16, line: 0 }));
    assert_eq!(lopsided.write_partner(), Err(Refusal { question: 16, line: 0 }));
    assert_eq!(Refusal { question: 7, line: 3 }.to_string(), "(refused 7 (line 3))");
}

#[test]
fn refusals_of_the_partner() {
    assert_eq!(Sheet::read_partner(b""), Err(Refusal { question: 5, line: 0 }));
    assert_eq!(Sheet::read_partner(b"(sheet 4)\n"), Err(Refusal { question: 3, line: 1 }));
    assert_eq!(Sheet::read(b"(day 4)\n"), Err(Refusal { question: 3, line: 1 }));
    assert_eq!(Sheet::read_partner(b"(day 4)\n(job 1 (start 4) (hours 2))\n"), Err(Refusal { question: 7, line: 2 }));
    for span in [0, 49, usize::MAX] {
        assert_eq!(Sheet::new(span).write(), Err(Refusal { question: 6, line: 0 }));
        assert_eq!(Sheet::new(span).write_partner(), Err(Refusal { question: 6, line: 0 }));
    }
    let mut sheet = Sheet::new(4);
    sheet.add_unit(4_017, 1, 4);
    sheet.add_unit(12, 1, 5);
    sheet.add_rule(1, 4, 1, 1);
    assert_eq!(sheet.write_partner(), Err(Refusal { question: 17, line: 2 }));
    sheet.last[1] = 4;
    assert_eq!(sheet.write_partner(), Err(Refusal { question: 18, line: 1 }));
    sheet.low[0] = 0;
    assert!(sheet.write_partner().is_ok());
}

/// What a command writes when it is given this text, and whether it ends well.
fn run(command: &mut Command, text: &[u8]) -> (String, bool) {
    let mut child = command.stdin(Stdio::piped()).stdout(Stdio::piped()).spawn().expect("the command starts");
    // A program that reads nothing may have ended.
    let _ = child.stdin.take().unwrap().write_all(text);
    let output = child.wait_with_output().unwrap();
    (String::from_utf8(output.stdout).unwrap(), output.status.success())
}

fn written(command: &mut Command, text: &[u8]) -> String {
    run(command, text).0
}

fn bindings() -> PathBuf {
    Path::new(env!("ROOT")).join("bindings")
}

/// A C program, compiled with all warnings against the header and the library.
fn c_program(source: &Path) -> PathBuf {
    let program = PathBuf::from(env!("CARGO_TARGET_TMPDIR")).join(source.file_stem().unwrap());
    let compiled = Command::new("cc")
        .args(["-std=c99", "-pedantic", "-Wall", "-Wextra", "-Werror", "-O1", "-I"])
        .arg(bindings())
        .arg(source)
        .args([env!("LIBRARY"), "-o"])
        .arg(&program)
        .output()
        .expect("cc runs");
    assert!(compiled.status.success(), "{}", String::from_utf8_lossy(&compiled.stderr));
    program
}

fn c_example(name: &str) -> PathBuf {
    c_program(&bindings().join(format!("examples/{name}.c")))
}

/// What C shows of merging a text with a sheet of its span and one unit, loader 9999, in rooms for so many units, and of three lines.
fn merging_lines(text: &[u8], units: usize) -> Vec<String> {
    let (span, loader) = read(House::Ours, text).map_or((0, 1), |sheet| (sheet.span, sheet.units.first().map_or(1, |unit| unit.loader)));
    let other = format!("(sheet {span})\n(unit 9999 (window 1 1))\n");
    let mut lines = Vec::new();
    for (one, two) in [(text, other.as_bytes()), (other.as_bytes(), text)] {
        lines.push(match merge_into(one, two, [units; 3], [tugrokt::MAX_RULES; 4]) {
            Ok(sheet) => format!("merging 0 0 {span} {} {}", sheet.units.len(), sheet.rules.len()),
            Err(refusal) => format!("merging {} {} 0 0 0 unchanged", refusal.number, refusal.line),
        });
        for loader in [loader, 9_999, 0] {
            lines.push(match line_of(one, two, loader as usize) {
                Ok(Found { text, spot }) => format!("line of {loader}: 0 0 {text} {} {} unchanged", spot.bytes.start, spot.bytes.len()),
                Err(refusal) => format!("line of {loader}: {} {} 0 0 0 unchanged", refusal.number, refusal.line),
            });
        }
    }
    lines
}

/// Every field of every reply as C reads it, of plans, rings and refusals, and that a refused call leaves all that was lent.
#[test]
fn replies_from_c() {
    let program = c_program(&Path::new(env!("ROOT")).join("tests/tests/replies.c"));
    let replies = |text: &[u8], [units, place, page]: [usize; 3]| {
        let (said, good) = run(Command::new(&program).args([units, place, page].map(|n| n.to_string())), text);
        assert!(good, "{said}");
        let mut lines: Vec<String> = said.lines().map(str::to_string).collect();
        assert_eq!(lines.split_off(9), merging_lines(text, units));
        lines
    };
    for case in cases::all() {
        let text = case.sheet.text();
        let sheet = Sheet::read(&text).unwrap();
        let (span, units, rules) = (sheet.span, sheet.first.len(), sheet.from.len());
        let numbers = format!("0 0 {span} {units} {rules}");
        let read = format!("reading {numbers}");
        let ring = match sheet.plan().unwrap() {
            Answer::Plan(_) => 0,
            Answer::None { ring } => ring.len(),
        };
        let end = 7 + sheet.page().unwrap().len();
        let planned = format!("planning 0 0 {ring}");
        let decided = format!("deciding 0 0 {ring}");
        let looked = enumerated::solve(&case.sheet).map_or(0, |solved| case.sheet.looked(&solved.plan));
        let seated = format!("seating 0 0 {} {looked}", (ring == 0) as usize);
        // Writing onto a page of this length, and what is read then.
        let wrote = |page: usize| {
            let again = format!("the same lists {numbers}");
            let not_theirs = "reading for the partner 3 1 0 0 0 unchanged".to_string();
            let mut lines = Vec::new();
            for (house, name) in [(House::Ours, "writing"), (House::Partner, "writing for the partner")] {
                let text_end = 7 + case.sheet.text_for(house).len();
                let refused = if house == House::Partner { partner_refusal(&case.sheet) } else { None };
                let refused = refused.map(|r| (r.number, r.line)).or((text_end > page).then_some((15, 0)));
                lines.extend(match refused {
                    None => [format!("{name} 0 0 {text_end}"), again.clone()],
                    Some((number, line)) => [format!("{name} {number} {line} 7 unchanged"), not_theirs.clone()],
                });
            }
            lines
        };
        let all = |lines: [String; 5], page: usize| lines.into_iter().chain(wrote(page)).collect::<Vec<_>>();
        let full = [read.clone(), planned.clone(), decided.clone(), seated.clone(), format!("printing 0 0 {ring} {end}")];
        assert_eq!(replies(&text, [units, 7, end]), all(full.clone(), end), "{}", case.name);
        // One place more, for the unit that is merged in.
        assert_eq!(replies(&text, [units + 1, 7, end]), all(full, end), "{}", case.name);
        let short = [read.clone(), planned, decided.clone(), seated, "printing 15 0 0 7 unchanged".to_string()];
        assert_eq!(replies(&text, [units, 7, end - 1]), all(short.clone(), end - 1), "{}", case.name);
        for house in House::BOTH {
            // The page just holds the text, or not.
            for page in [7 + case.sheet.text_for(house).len(), 6 + case.sheet.text_for(house).len()] {
                assert_eq!(replies(&text, [units, 7, page])[5..], wrote(page), "{}", case.name);
            }
        }
        if units > 0 {
            // Deciding takes no room for units.
            let [planned, seated, printed] = ["planning 12 0 0 unchanged", "seating 12 0 0 0 unchanged", "printing 12 0 0 7 unchanged"].map(str::to_string);
            assert_eq!(replies(&text, [units - 1, 7, end]), all([read, planned, decided, seated, printed], end), "{}", case.name);
        }
    }
    // A partner's text, which is no sheet of ours, is read last.
    let refused = |(number, line): (usize, usize), partner: &str| {
        let read = format!("reading {number} {line} 0 0 0 unchanged");
        let [planned, decided, seated] = ["planning 6 0 0", "deciding 6 0 0", "seating 6 0 0 0"].map(|reply| format!("{reply} unchanged"));
        let theirs = format!("reading for the partner {partner}");
        let wrote = ["writing 6 0 3 unchanged".into(), theirs.clone(), "writing for the partner 6 0 3 unchanged".into(), theirs];
        [read, planned, decided, seated, "printing 6 0 0 3 unchanged".into()].into_iter().chain(wrote).collect::<Vec<String>>()
    };
    for (text, ours, theirs) in [
        (&b"(sheet 4)\n(note)\n(unit 1 (window 4 3))\n"[..], (7, 3), "3 1 0 0 0 unchanged"),
        (b"(sheet 4)\n(unit 5 (window 1 3))\n(unit 5 (window 1 3))\n", (16, 3), "3 1 0 0 0 unchanged"),
        (&[b'x'; 16_001], (1, 0), "1 0 0 0 0 unchanged"),
        (b"(note)\n(day 7)\n(job 1 (start 7) (hours 2))\n", (3, 2), "7 3 0 0 0 unchanged"),
        (b"(day 7)\n(job 1 (start 7) (hours 1))\n(job 2 (start 1) (hours 7))\n(limit (from 1) (hours 3) (most 2))\n", (3, 1), "0 0 7 2 1"),
    ] {
        assert_eq!(replies(text, [300, 3, 100]), refused(ours, theirs));
    }
}

#[test]
fn planning_from_c() {
    let program = c_example("plan");
    let run = |text: &[u8]| written(&mut Command::new(&program), text);
    let case = |name: &str| cases::named(name).sheet;
    assert_eq!(run(&case("P2").text()), "unit 1: slot 1, from 1 to 2\nunit 2: slot 3, from 3 to 4\n");
    assert_eq!(run(&case("P4").text()), "boundary 0\nboundary 3\n");
    assert_eq!(run(&case("P11").text()), "unit 1: slot 1, from 1 to 2\nunit 2: carried, from 3 to 3\n");
    let numbered = case("P2").numbered(&[4_017, 12]);
    assert_eq!(run(&numbered.text()), "unit 4017: slot 1, from 1 to 2\nunit 12: slot 3, from 3 to 4\n");
    assert_eq!(run(b"(sheet 49)\n"), "(refused 6 (line 1))\n");
}

/// The examples that decide: how full each slot can be, or the ring.
fn decides(run: impl Fn(&[u8]) -> String) {
    let case = |name: &str| run(&cases::named(name).sheet.text());
    assert_eq!(case("P2"), "slot 1: 0 to 1\nslot 2: 0 to 1\nslot 3: 0 to 1\nslot 4: 0 to 1\n");
    assert_eq!(case("P4"), "boundary 0\nboundary 3\n");
    assert_eq!(case("P6"), "slot 1: 1 to 1\nslot 2: 0 to 1\nslot 3: 0 to 1\n");
    assert_eq!(case("P11"), "slot 1: 0 to 1\nslot 2: 0 to 1\n");
    assert_eq!(run(b"(sheet 49)\n"), "(refused 6 (line 1))\n");
    assert_eq!(run(&[b'x'; 16_001]), "(refused 1 (line 0))\n");
}

/// The examples that turn a sheet into the other house's form, run with this word on this text.
fn converts(run: impl Fn(&str, &[u8]) -> String) {
    for case in cases::all() {
        let kept = case.sheet.kept_by(House::Partner);
        assert_eq!(run("to-partner", &kept.text()).as_bytes(), kept.text_for(House::Partner), "{}", case.name);
        assert_eq!(run("from-partner", &kept.text_for(House::Partner)).as_bytes(), kept.text(), "{}", case.name);
    }
    let case = |name: &str| cases::named(name).sheet.text();
    assert_eq!(run("to-partner", &case("P11")), "(refused 17 (line 2))\n");
    assert_eq!(run("to-partner", &case("P6")), "(refused 18 (line 1))\n");
    assert_eq!(run("from-partner", &case("P7")), "(refused 3 (line 1))\n");
    for word in ["to-partner", "from-partner"] {
        assert_eq!(run(word, &[b'x'; 16_001]), "(refused 1 (line 0))\n");
    }
    for word in ["", "partner"] {
        assert_eq!(run(word, &case("P7")), "");
    }
}

#[test]
fn converting_from_c() {
    let program = c_example("convert");
    converts(|word, text| written(Command::new(&program).arg(word).stderr(Stdio::null()), text));
}

#[test]
fn converting_from_rust() {
    let mut examples = rust_examples();
    examples.args(["build", "--offline", "--release", "--quiet", "--example", "convert"]);
    assert!(run(&mut examples, b"").1);
    let program = rust_folder().join("release/examples/convert");
    converts(|word, text| written(Command::new(&program).arg(word).stderr(Stdio::null()), text));
}

/// The examples that merge the sheets of two files, run with these names and, for a line, with a loader number.
fn merges(name: &str, run: impl Fn(&[&str]) -> String) {
    let folder = Path::new(env!("CARGO_TARGET_TMPDIR")).join(name);
    std::fs::create_dir_all(&folder).unwrap();
    let file = |name: &str, text: &str| {
        std::fs::write(folder.join(name), text).unwrap();
        folder.join(name).to_str().unwrap().to_string()
    };
    let (one, two, long) = (file("one", cases::PAIR.0), file("two", cases::PAIR.1), file("long", &"x".repeat(20_000)));
    assert_eq!(run(&[&one, &two]), cases::MERGED);
    for (loader, line) in [("4017", "(unit 4017 (window 1 4))\n"), ("40", "(unit 40 (window 2 3))\n"), ("4", "(refused 27 (line 0))\n")] {
        assert_eq!(run(&[&one, &two, loader]), line);
        assert_eq!(run(&[&two, &one, loader]), line);
    }
    assert_eq!(run(&[&one, &two, "69553"]), "(refused 27 (line 0))\n", "4017 in 16 bits");
    for pair in [[&one, &long], [&long, &one]] {
        assert_eq!(run(&pair.map(String::as_str)), "(refused 1 (line 0))\n");
        assert_eq!(run(&[pair[0], pair[1], "12"]), "(refused 1 (line 0))\n");
    }
    assert_eq!(run(&[&one, &one]), "(refused 20 (line 2))\n");
    assert_eq!(run(&[&one, "no such file"]), "");
}

#[test]
fn merging_from_c() {
    let program = c_example("merge");
    merges("merging_from_c", |words| written(Command::new(&program).args(words).stderr(Stdio::null()), b""));
}

#[test]
fn merging_from_rust() {
    let mut examples = rust_examples();
    examples.args(["build", "--offline", "--release", "--quiet", "--example", "merge"]);
    assert!(run(&mut examples, b"").1);
    let program = rust_folder().join("release/examples/merge");
    merges("merging_from_rust", |words| written(Command::new(&program).args(words).stderr(Stdio::null()), b""));
}

#[test]
fn deciding_from_c() {
    let program = c_example("decide");
    decides(|text| written(&mut Command::new(&program), text));
}

#[test]
fn deciding_from_rust() {
    decides(|text| rust_example("decide", text));
}

/// The examples that print a page, against the model.
fn prints_pages(run: impl Fn(&[u8]) -> String) {
    for case in cases::all() {
        // Other numbers than the places.
        let sheet = case.sheet.clone().numbered(&(0..case.sheet.units.len() as u16).map(|i| 4_017 - 5 * i).collect::<Vec<_>>());
        let page = run(&sheet.text());
        assert_eq!(page::fault(&sheet, enumerated::solve(&sheet).as_ref(), page.as_bytes()), None, "{}", case.name);
    }
    assert_eq!(run(b"(sheet 49)\n"), "(refused 6 (line 1))\n");
    assert_eq!(run(&[b'x'; 16_001]), "(refused 1 (line 0))\n");
}

#[test]
fn printing_from_c() {
    let program = c_example("sheet");
    prints_pages(|text| written(&mut Command::new(&program), text));
}

/// Where the Rust examples are built.
fn rust_folder() -> PathBuf {
    Path::new(env!("CARGO_TARGET_TMPDIR")).join("examples")
}

/// Cargo, for the Rust examples.
fn rust_examples() -> Command {
    let mut cargo = Command::new(env!("CARGO"));
    cargo.current_dir(bindings()).env("CARGO_TARGET_DIR", rust_folder());
    cargo
}

/// A Rust example, built as its own header says.
fn rust_example(name: &str, text: &[u8]) -> String {
    let mut cargo = rust_examples();
    cargo.args(["run", "--offline", "--release", "--quiet", "--example", name]);
    written(&mut cargo, text)
}

#[test]
fn planning_from_rust() {
    let said = rust_example("plan", b"");
    let units: Vec<&str> = said.lines().filter(|l| l.starts_with("unit ")).collect();
    assert_eq!(units, ["unit 1: slot 1, from 1 to 2", "unit 2: slot 3, from 3 to 4"]);
}

#[test]
fn printing_from_rust() {
    prints_pages(|text| rust_example("sheet", text));
}
