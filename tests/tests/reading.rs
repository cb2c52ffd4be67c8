//! Reading, our texts and the partner's, through the border: reply, line, counts and every place of every list against the model.

use model::calls::reading_fault;
use model::damage::{any_text, note_of_depth, valid, with_notes};
use model::house::House;
use model::random::{largest_sheet, loaders, Random, Reach};
use model::reading::read_into;
use model::sheet::{carried_place, Sheet, MAX_SLOTS};
use model::tally::Tally;
use model::{cases, effort, seed};

const UNITS: [usize; 3] = [300; 3];
const RULES: [usize; 4] = [60; 4];

/// Reads, counts the case, and fails where anything differs from the model.
fn hold(tally: &mut Tally, house: House, text: &[u8], units: [usize; 3], rules: [usize; 4]) {
    let case = tally.all();
    tally.add(read_into(house, text, units, rules).map_or_else(|r| r.number, |_| 0), "read");
    if let Some(fault) = reading_fault(house, text, units, rules) {
        panic!("seed {} case {case}: {house:?} {:?}\n{fault}", tally.seed(), String::from_utf8_lossy(text));
    }
}

/// The model's refusal, by number and line; 0 and 0 for a sheet.
fn reply(house: House, text: &[u8]) -> (usize, usize) {
    read_into(house, text, UNITS, RULES).map_or_else(|r| (r.number, r.line), |_| (0, 0))
}

#[test]
fn document_cases() {
    for (case, house) in cases::all().iter().flat_map(|case| House::BOTH.map(|house| (case, house))) {
        let (n, k) = (case.sheet.units.len(), case.sheet.rules.len());
        let text = case.sheet.text_for(house);
        assert_eq!(reading_fault(house, &text, [n; 3], [k; 4]), None, "{} {house:?}", case.name);
        assert_eq!(reading_fault(house, &text, UNITS, RULES), None, "{} {house:?}", case.name);
        assert_eq!(reading_fault(house.other(), &text, UNITS, RULES), None, "{} {house:?}", case.name);
    }
}

fn texts_at_random(house: House, name: &'static str, seed: u64) {
    let mut tally = Tally::new(name, seed);
    for i in 0..effort(60_000) {
        let mut r = Random::of_case(seed, i);
        let text = any_text(&mut r, house);
        let mut length = |usual: usize| if r.chance(90) { usual } else { r.below(8) };
        let (units, rules) = (UNITS.map(&mut length), RULES.map(&mut length));
        hold(&mut tally, house, &text, units, rules);
    }
    tally.report();
    for number in [2, 3, 4, 5, 6, 7, 8, 11, 12, 16] {
        assert!(2_000 * tally.refused_by(number) > tally.all(), "{number} refuses too seldom");
    }
    assert!(20 * tally.count("read") > tally.all(), "too few texts are read");
}

#[test]
fn our_texts_at_random() {
    texts_at_random(House::Ours, "reading texts at random", seed(201));
}

#[test]
fn partner_texts_at_random() {
    texts_at_random(House::Partner, "reading a partner's texts at random", seed(204));
}

/// Every byte in every place of a text that reads, and every byte dropped or doubled.
#[test]
fn every_single_byte() {
    let mut tally = Tally::new("reading every single byte", 0);
    let ours = b"(note a (b))\n(sheet 12)\n(unit 97 (window 1 10))\n(unit 9 (window 2 2))\n(rule (slots 3 12) (count 0 300))\n(note)\n";
    let theirs =
        b"(note a (b))\n(day 12)\n(job 97 (start 1) (hours 10))\n(job 9 (start 2) (hours 1))\n(limit (from 3) (hours 10) (most 300))\n(note)\n";
    for (house, text) in [(House::Ours, &ours[..]), (House::Partner, theirs)] {
        assert_eq!(reply(house, text), (0, 0));
        let mut hold = |text: &[u8]| hold(&mut tally, house, text, UNITS, RULES);
        hold(text);
        for at in 0..text.len() {
            for byte in 0..=255 {
                let mut changed = text.to_vec();
                changed[at] = byte;
                hold(&changed);
                changed.insert(at, text[at]);
                hold(&changed);
            }
            let mut dropped = text.to_vec();
            dropped.remove(at);
            hold(&dropped);
            hold(&text[..at]);
            hold(&text[at..]);
        }
    }
    tally.report();
}

/// A line for each question that it can fail, and lines that pass; with two faults in one line the question that comes first
/// decides.
const OUR_LINES: [&str; 42] = [
    "(sheet 4)",
    "(sheet 48)",
    "(sheet 49)",
    "(sheet 0)",
    "(sheet 04)",
    "(sheet 00049)",
    "(sheet  4)",
    "(sheet )",
    "(unit 7 (window 1 4))",
    "(unit 9999 (window 2 3))",
    "(unit 7 (window 4 3))",
    "(unit 1 (window 0 3))",
    "(unit 0 (window 1 6))",
    "(unit 8 (window 4 5))",
    "(unit 8 (window 5 5))",
    "(unit 0 (window 1 4))",
    "(unit 10000 (window 1 4))",
    "(unit 0017 (window 1 6))",
    "(unit 7 (window 01 6))",
    "(unit 7 (window 1 4)) ",
    "(unit 7 (window 1\t04))",
    "(unit 7  (window 1 4))",
    "(unit (window 1 4))",
    "(unit (window 01 9))",
    "(rule (slots 1 4) (count 0 300))",
    "(rule (slots 2 1) (count 0 301))",
    "(rule (slots 4 5) (count 0 1))",
    "(rule (slots 1 4) (count 0 301))",
    "(rule (slots 1 4) (count 2 1))",
    "(rule (slots 05 6) (count 0 1))",
    "(rule (slots 1 4) (count 0 10000))",
    "(rule (slots 1 4) (count 0 1)",
    "(note)",
    "(note (a) (sheet 49))",
    "(note (a)",
    "(note (a))) ",
    "(note \x7f",
    "(noted)",
    "(note",
    "",
    "(day 4)",
    "(job 7 (start 1) (hours 4))",
];

/// The same of the partner's.
const PARTNER_LINES: [&str; 45] = [
    "(day 4)",
    "(day 48)",
    "(day 49)",
    "(day 0)",
    "(day 04)",
    "(day 00049)",
    "(day  4)",
    "(day )",
    "(job 7 (start 1) (hours 4))",
    "(job 9999 (start 2) (hours 2))",
    "(job 7 (start 4) (hours 0))",
    "(job 1 (start 0) (hours 3))",
    "(job 1 (start 0) (hours 0))",
    "(job 1 (start 1) (hours 0))",
    "(job 0 (start 1) (hours 5))",
    "(job 8 (start 4) (hours 2))",
    "(job 8 (start 5) (hours 1))",
    "(job 8 (start 9999) (hours 9999))",
    "(job 0 (start 1) (hours 4))",
    "(job 10000 (start 1) (hours 4))",
    "(job 0017 (start 1) (hours 6))",
    "(job 7 (start 01) (hours 6))",
    "(job 7 (start 1) (hours 00))",
    "(job 7 (start 1) (hours 4)) ",
    "(job 7 (start 1)\t(hours 04))",
    "(job 7  (start 1) (hours 4))",
    "(job (start 1) (hours 4))",
    "(job 7 (hours 4) (start 1))",
    "(limit (from 1) (hours 4) (most 300))",
    "(limit (from 1) (hours 0) (most 301))",
    "(limit (from 4) (hours 2) (most 1))",
    "(limit (from 1) (hours 4) (most 301))",
    "(limit (from 0) (hours 0) (most 301))",
    "(limit (from 05) (hours 2) (most 1))",
    "(limit (from 1) (hours 4) (most 10000))",
    "(limit (from 1) (hours 4) (most 1)",
    "(note)",
    "(note (a) (day 49))",
    "(note (a)",
    "(note \x7f",
    "(noted)",
    "",
    "(sheet 4)",
    "(unit 7 (window 1 4))",
    "(rule (slots 1 4) (count 0 300))",
];

/// All texts of at most three such lines, the last with a line feed and without.
fn all_texts_of_three_lines(house: House, name: &'static str, lines: &[&str]) {
    let mut tally = Tally::new(name, 0);
    let mut texts = vec![String::new()];
    let mut from = 0;
    for _ in 0..3 {
        let to = texts.len();
        for i in from..to {
            for line in lines {
                hold(&mut tally, house, format!("{}{line}", texts[i]).as_bytes(), UNITS, RULES);
                texts.push(format!("{}{line}\n", texts[i]));
            }
        }
        from = to;
    }
    for text in &texts {
        hold(&mut tally, house, text.as_bytes(), UNITS, RULES);
    }
    tally.report();
    for number in [2, 3, 4, 5, 6, 7, 8, 11, 16] {
        assert!(tally.refused_by(number) > 0, "{number} refuses nothing");
    }
    assert!(tally.count("read") > 0);
}

#[test]
fn all_our_texts_of_three_lines() {
    all_texts_of_three_lines(House::Ours, "reading all texts of three lines", &OUR_LINES);
}

#[test]
fn all_partner_texts_of_three_lines() {
    all_texts_of_three_lines(House::Partner, "reading all texts of three lines of a partner's", &PARTNER_LINES);
}

#[test]
fn limits_of_the_text() {
    let mut tally = Tally::new("reading at the limits", 0);
    for house in House::BOTH {
        let mut fits = |text: &[u8], units, rules| hold(&mut tally, house, text, units, rules);
        let head = String::from_utf8(Sheet::new(4, &[], &[]).text_for(house)).unwrap();
        for length in [15_999, 16_000, 16_001, 16_002, 20_000, 70_000] {
            let note = format!("{head}(note {})\n", "x".repeat(length - head.len() - 8));
            assert_eq!((note.len(), reply(house, note.as_bytes())), (length, ((length > 16_000) as usize, 0)));
            fits(note.as_bytes(), UNITS, RULES);
            fits("\n".repeat(length).as_bytes(), UNITS, RULES);
            fits("x".repeat(length).as_bytes(), UNITS, RULES);
            fits("(note)\n".repeat(length / 7).as_bytes(), UNITS, RULES);
            fits(format!("(note {}", "(".repeat(length)).as_bytes(), UNITS, RULES);
            fits(head.replace('4', &"1".repeat(length - head.len() + 1)).as_bytes(), UNITS, RULES);
        }
        for depth in 1..20 {
            fits(&[&note_of_depth(depth)[..], b"\n", head.as_bytes()].concat(), UNITS, RULES);
        }
        for n in [299, 300, 301, 302] {
            let numbers: Vec<u16> = (1..=n as u16).rev().collect();
            let text = Sheet::new(4, &vec![(1, 4); n], &[]).numbered(&numbers).text_for(house);
            assert_eq!(reply(house, &text), if n > 300 { (9, 302) } else { (0, 0) });
            for room in [0, 299, 300, 301, 1_000] {
                fits(&text, [room; 3], RULES);
                for short in 0..3 {
                    let mut units = UNITS;
                    units[short] = room;
                    fits(&text, units, RULES);
                }
            }
        }
        for k in [59, 60, 61] {
            let text = Sheet::new(4, &[], &vec![(1, 4, 0, 1); k]).text_for(house);
            assert_eq!(reply(house, &text), if k > 60 { (10, 62) } else { (0, 0) });
            for short in 0..5 {
                let mut room = [60; 4];
                if short < 4 {
                    room[short] = 59;
                }
                fits(&text, UNITS, room);
            }
        }
    }
    tally.report();
}

/// Question 7 at its edges, on every span: only the last slot of a window may be the carried place.
#[test]
fn windows_and_stretches_at_the_end_of_the_wave() {
    let mut tally = Tally::new("reading windows and stretches at the end of the wave", 0);
    for span in 1..=MAX_SLOTS {
        let (end, carried, beyond) = (span, carried_place(span), carried_place(span) + 1);
        let window = |first, last| format!("(unit 2 (window {first} {last}))");
        let stretch = |from, to| format!("(rule (slots {from} {to}) (count 0 1))");
        for (line, expected) in [
            (window(end, end), 0),
            (window(1, carried), 0),
            (window(end, carried), 0),
            (window(carried, carried), 7),
            (window(1, beyond), 7),
            (window(end, beyond), 7),
            (window(carried, beyond), 7),
            (stretch(1, end), 0),
            (stretch(end, end), 0),
            (stretch(1, carried), 7),
            (stretch(end, carried), 7),
            (stretch(carried, carried), 7),
        ] {
            let text = format!("(sheet {span})\n(unit 1 (window 1 {end}))\n{line}\n");
            assert_eq!(reply(House::Ours, text.as_bytes()), if expected == 0 { (0, 0) } else { (expected, 3) }, "{text}");
            hold(&mut tally, House::Ours, text.as_bytes(), UNITS, RULES);
        }
    }
    tally.report();
}

/// Question 7 of a partner's hours, on every day: any start with any hours, zeros among them, and the largest numbers there are. Jobs and
/// limits are asked the same, and neither may reach the carried place.
#[test]
fn hours_of_the_day() {
    let mut tally = Tally::new("reading a partner's hours", 0);
    for day in 1..=MAX_SLOTS {
        let ends = [0, 1, 2, day - 1, day, day + 1, day + 2];
        let large = [255, 256, 257, 9_998, 9_999];
        for start in ends.into_iter().chain(large) {
            let up_to = |end: usize| (end + 1).checked_sub(start);
            for hours in ends.into_iter().chain(large).chain([day, day + 1, day + 2].into_iter().filter_map(up_to)) {
                let inside = start >= 1 && hours >= 1 && start + hours <= day + 1;
                for line in [format!("(job 2 (start {start}) (hours {hours}))"), format!("(limit (from {start}) (hours {hours}) (most 300))")] {
                    let text = format!("(day {day})\n(job 1 (start 1) (hours {day}))\n{line}\n");
                    assert_eq!(reply(House::Partner, text.as_bytes()), if inside { (0, 0) } else { (7, 3) }, "{text}");
                    hold(&mut tally, House::Partner, text.as_bytes(), UNITS, RULES);
                }
            }
        }
    }
    // Every sum of two numbers of four digits is past the day.
    for (start, hours) in [(9_999, 9_999), (9_999, 1), (1, 9_999), (5_000, 5_000), (1, 255), (1, 256), (255, 2), (256, 1), (65, 192)] {
        let text = format!("(day 48)\n(job 1 (start {start}) (hours {hours}))\n");
        assert_eq!(reply(House::Partner, text.as_bytes()), (7, 2), "{text}");
        hold(&mut tally, House::Partner, text.as_bytes(), UNITS, RULES);
    }
    tally.report();
}

/// A partner's lines that fail two questions: the one that comes first decides. What comes before 5 is asked of a text without a day, the
/// rest of one with it.
#[test]
fn the_order_of_a_partner_line() {
    let mut tally = Tally::new("reading a partner's lines with two faults", 0);
    let day = "(day 4)\n(job 7 (start 1) (hours 4))\n";
    let jobs: String = (1..=300).map(|k| format!("(job {k} (start 1) (hours 4))\n")).collect();
    let (jobs, limits) = (format!("(day 4)\n{jobs}"), format!("(day 4)\n{}", "(limit (from 1) (hours 4) (most 1))\n".repeat(60)));
    for (before, line, expected) in [
        ("", "(note \t\n", (2, 1)),
        ("", "(job 07\x7f)\n", (2, 1)),
        ("", "(note (a)", (11, 1)),
        ("", "(note a)", (3, 1)),
        ("", "(unit 07 (window 5 4))\n", (3, 1)),
        ("", "(job 07 (start 9) (hours 0))", (3, 1)),
        ("", "(job 07 (start 9) (hours 0))\n", (4, 1)),
        ("", "(limit (from 1) (hours 0) (most 00301))\n", (4, 1)),
        ("", "(job 0 (start 0) (hours 0))\n", (5, 1)),
        ("", "(limit (from 0) (hours 0) (most 301))\n", (5, 1)),
        (day, "(day 49)\n", (5, 3)),
        (day, "(day 049)\n", (4, 3)),
        ("", "(day 0)\n", (6, 1)),
        ("", "(day 49)\n(job 0 (start 0) (hours 0))\n", (6, 1)),
        (day, "(job 7 (start 1) (hours 0))\n", (7, 3)),
        (day, "(job 0 (start 4) (hours 2))\n", (7, 3)),
        (day, "(limit (from 1) (hours 0) (most 301))\n", (7, 3)),
        (day, "(limit (from 4) (hours 2) (most 301))\n", (7, 3)),
        (day, "(limit (from 1) (hours 4) (most 301))\n", (8, 3)),
        (day, "(limit (from 1) (hours 4) (most 9999))\n", (8, 3)),
        (day, "(job 7 (start 1) (hours 1))\n", (16, 3)),
        (day, "(job 0 (start 1) (hours 1))\n", (16, 3)),
        (&jobs, "(job 301 (start 5) (hours 1))\n", (7, 302)),
        (&jobs, "(job 300 (start 1) (hours 1))\n", (16, 302)),
        (&jobs, "(job 301 (start 1) (hours 1))\n", (9, 302)),
        (&limits, "(limit (from 1) (hours 5) (most 1))\n", (7, 62)),
        (&limits, "(limit (from 1) (hours 4) (most 301))\n", (8, 62)),
        (&limits, "(limit (from 1) (hours 4) (most 1))\n", (10, 62)),
        ("(note)\n", "", (5, 0)),
    ] {
        let text = format!("{before}{line}");
        assert_eq!(reply(House::Partner, text.as_bytes()), expected, "{line}");
        hold(&mut tally, House::Partner, text.as_bytes(), UNITS, RULES);
        // 12 comes last.
        hold(&mut tally, House::Partner, text.as_bytes(), [0; 3], [0; 4]);
    }
    tally.report();
}

/// The lines of one house are no forms of the other's, on any line.
#[test]
fn lines_of_the_other_house() {
    let mut tally = Tally::new("reading lines of the other house", 0);
    let sheet = Sheet::new(4, &[(1, 2), (3, 4)], &[(1, 3, 0, 2), (2, 2, 0, 300)]);
    for house in House::BOTH {
        let text = |house| String::from_utf8(sheet.text_for(house)).unwrap();
        let (own, other) = (text(house), text(house.other()));
        for line in 0..=own.lines().count() {
            for foreign in other.lines() {
                let mut lines: Vec<&str> = own.lines().collect();
                lines.insert(line, foreign);
                let text = lines.join("\n") + "\n";
                assert_eq!(reply(house, text.as_bytes()), (3, line + 1), "{text}");
                hold(&mut tally, house, text.as_bytes(), UNITS, RULES);
            }
        }
    }
    assert_eq!(tally.refused_by(3), tally.all());
    tally.report();
}

/// Loader numbers at their limits and equal ones, on any line of few or many units, with notes between: 16 names that line, and comes
/// before 9.
#[test]
fn loader_numbers_of_many_units() {
    let mut tally = Tally::new("reading loader numbers of many units", seed(203));
    for i in 0..effort(600) {
        let mut r = Random::of_case(seed(203), i);
        let house = House::BOTH[i / 6 % 2];
        let n = [2, 40, 256, 257, 299, 300, 301][i / 12 % 7];
        let mut numbers: Vec<String> = loaders(&mut r, n).iter().map(u16::to_string).collect();
        let at = if r.chance(50) { n - 1 } else { r.between(1, n - 1) };
        let before = r.below(at);
        let (number, expected) = match i % 6 {
            0 | 1 => (numbers[at].clone(), 0),
            2 => (numbers[before].clone(), 16),
            3 => ("0".to_string(), 16),
            4 => ("10000".to_string(), 4),
            _ => ("0017".to_string(), 4),
        };
        numbers[at] = number;
        let unit = |number: &String| match house {
            House::Ours => format!("(unit {number} (window 1 4))\n"),
            House::Partner => format!("(job {number} (start 1) (hours 4))\n"),
        };
        let (front, back) = (numbers[..at].iter().map(unit).collect::<String>(), numbers[at..].iter().map(unit).collect::<String>());
        let head = String::from_utf8(Sheet::new(4, &[], &[]).text_for(house)).unwrap();
        let text = format!("{head}{front}(note)\n{back}");
        let expected = match expected {
            0 if n > 300 => (9, 303),
            0 => (0, 0),
            _ => (expected, at + 3),
        };
        assert_eq!(reply(house, text.as_bytes()), expected, "seed {} case {i}", seed(203));
        hold(&mut tally, house, text.as_bytes(), UNITS, RULES);
    }
    tally.report();
    for number in [4, 9, 16] {
        assert!(50 * tally.refused_by(number) > tally.all(), "{number} refuses too seldom");
    }
    assert!(10 * tally.count("read") > tally.all());
}

/// Every pair of lines that can have the same number: of few units all, of 300 each line with three earlier ones. The line named is the
/// later one.
#[test]
fn a_number_comes_again_anywhere() {
    let mut tally = Tally::new("reading a number that comes again anywhere", 0);
    let numbers: Vec<u16> = (0..300).map(|i| i * 33 % 9_999 + 1).collect();
    for (n, house) in [2, 3, 10, 40, 300].into_iter().flat_map(|n| House::BOTH.map(|house| (n, house))) {
        let earlier = |at: usize| if n < 300 { (0..at).collect::<Vec<_>>() } else { vec![0, at / 2, at - 1] };
        for at in 1..n {
            for before in earlier(at) {
                let mut numbers = numbers[..n].to_vec();
                numbers[at] = numbers[before];
                let text = Sheet::new(1, &vec![(1, 1); n], &[]).numbered(&numbers).text_for(house);
                assert_eq!(reply(house, &text), (16, at + 2));
                hold(&mut tally, house, &text, UNITS, RULES);
            }
        }
    }
    assert_eq!(tally.refused_by(16), tally.all());
    tally.report();
}

#[test]
fn long_sheets_read() {
    for i in 0..effort(400) {
        let (mut r, house) = (Random::of_case(seed(202), i), House::BOTH[i % 2]);
        let sheet = largest_sheet(&mut r, 1, 48, Reach::PastWave).kept_by(house);
        for text in [with_notes(&mut r, house, &sheet), valid(&mut r, house)] {
            assert_eq!(reading_fault(house, &text, UNITS, RULES), None, "seed {} case {i}", seed(202));
        }
    }
}
