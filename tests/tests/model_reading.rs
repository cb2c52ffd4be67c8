//! The model's reader: the sentences of docs/RULES.md about sheets and questions, one by one. What the model writes is read back by it.

use model::damage::{any_text, note_of_depth, reach_the_end, valid};
use model::house::House;
use model::questions::{outgoing_refusal, partner_refusal, written, Lists};
use model::random::{any_sheet, Random};
use model::reading::{read, read_into, refusal_page, Refusal};
use model::sheet::Sheet;
use model::{cases, effort, seed};

/// The refusal's number and line; 0 and 0 for a sheet.
fn reply_of(house: House, text: &str) -> (usize, usize) {
    read(house, text.as_bytes()).map_or_else(|r| (r.number, r.line), |_| (0, 0))
}

fn reply(text: &str) -> (usize, usize) {
    reply_of(House::Ours, text)
}

fn partner_reply(text: &str) -> (usize, usize) {
    reply_of(House::Partner, text)
}

/// Every sheet that goes out to a house comes back; one that the partner cannot have is refused by 17 or 18, or by 7 where its hours are
/// written past the day.
#[test]
fn written_sheets_read_back() {
    let random = (0..effort(400)).map(|i| any_sheet(&mut Random::of_case(seed(23), i)));
    for sheet in cases::all().into_iter().map(|case| case.sheet).chain(random) {
        assert_eq!(read(House::Ours, &sheet.text()), Ok(sheet.clone()));
        let kept = sheet.kept_by(House::Partner);
        assert_eq!(read(House::Partner, &kept.text_for(House::Partner)), Ok(kept.clone()));
        assert_eq!((partner_refusal(&kept), partner_refusal(&sheet).is_none()), (None, kept == sheet));
        let past = sheet.units.iter().position(|u| u.last as usize > sheet.span).map(|i| (7, i + 2));
        let text = String::from_utf8(sheet.text_for(House::Partner)).unwrap();
        assert_eq!(partner_reply(&text), past.unwrap_or((0, 0)));
    }
}

#[test]
fn length_is_asked_first() {
    let line = format!("(sheet 4)\n(note {})\n", "x".repeat(15_982));
    assert_eq!(line.len(), 16_000);
    assert_eq!(reply(&line), (0, 0));
    assert_eq!(reply(&format!("\n{line}")), (1, 0));
}

#[test]
fn bytes_before_forms() {
    assert_eq!(reply("(sheet 4)\r\n"), (2, 1));
    assert_eq!(reply("(sheet 4)\n(note \t\n"), (2, 2));
    assert_eq!(reply("(sheet 4)\n(note \x7f)\n"), (2, 2));
    assert_eq!(reply("(sheet 4)\nx\x01"), (2, 2));
}

#[test]
fn notes() {
    for (line, number) in [
        ("(note)\n", 0),
        ("(note )\n", 0),
        ("(note a (b) (note c))\n", 0),
        ("(note\n", 3),
        ("(noted)\n", 3),
        ("(note(x))\n", 3),
        (" (note)\n", 3),
        ("(note a) \n", 11),
        ("(note a))\n", 11),
        ("(note a) (note b)\n", 11),
        ("(note (a)\n", 11),
        ("(note (a)", 11),
        ("(note a)", 3),
        ("(note))\n", 11),
    ] {
        let expected = if number == 0 { (0, 0) } else { (number, 2) };
        assert_eq!(reply(&format!("(sheet 4)\n{line}")), expected, "{line:?}");
        if number == 0 {
            assert_eq!(reply(&format!("{line}(sheet 4)\n")), (0, 0), "{line:?}");
            assert_eq!(reply(line), (5, 0), "{line:?}");
        }
    }
    let deep = |d| String::from_utf8(note_of_depth(d)).unwrap();
    assert_eq!(reply(&format!("{}\n(sheet 1)\n", deep(16))), (0, 0));
    assert_eq!(reply(&format!("{}\n(sheet 1)\n", deep(17))), (11, 1));
}

#[test]
fn forms_are_exact() {
    for line in [
        "", " ", "(sheet  4)", "(sheet 4 )", "(sheet 4) ", " (sheet 4)", "(sheet)", "(sheet )", "(sheet -4)", "(sheet +4)",
        "(Sheet 4)", "(sheet 4", "sheet 4", "(unit 1 (window 1))", "(unit 1 (window 1 2)", "(unit 1 (window 1 2)) ",
        "(unit 1 (window 1  2))", "(unit 1(window 1 2))", "(unit(window 1 2))", "(unit (window 1 2))", "(unit  (window 1 2))",
        "(unit 1  (window 1 2))", "(unit  1 (window 1 2))", "(unit 1 2 (window 1 2))", "(unit -1 (window 1 2))", "(unit x (window 1 2))",
        "(unit (loader 1) (window 1 2))", "(unit (window 1 2) 1)", "(unit 1)", "(rule (slots 1 2)(count 1 1))", "(rule (slots 1 2) (count 1 1)",
        "(rule (slots 1 2) (count 1))", "(rule (count 1 1) (slots 1 2))", "(unit 1 (slots 1 2))", "(rule (window 1 2) (count 1 1))",
        "(answer none)", "()", "(",
    ] {
        assert_eq!(reply(&format!("(sheet 4)\n{line}\n")), (3, 2), "{line:?}");
    }
    for line in ["(sheet 4)", "(unit 1 (window 1 2))", "(unit 0017 (window 1 2))", "x", "(rule (slots 05 6) (count 0 1))"] {
        assert_eq!(reply(line), (3, 1), "{line:?} has no line feed");
    }
}

#[test]
fn numbers() {
    for n in ["05", "00", "0017", "10000", "000000", "99999999999999999999"] {
        assert_eq!(reply(&format!("(sheet {n})\n")), (4, 1));
        assert_eq!(reply(&format!("(sheet 4)\n(unit {n} (window 1 2))\n")), (4, 2));
        assert_eq!(reply(&format!("(unit {n} (window 1 2))\n")), (4, 1), "4 before 5");
        assert_eq!(reply(&format!("(sheet 4)\n(unit 1 (window 1 {n}))\n")), (4, 2));
        assert_eq!(reply(&format!("(sheet 4)\n(rule (slots 1 1) (count {n} 1))\n")), (4, 2));
    }
    assert_eq!(reply("(sheet 0)\n"), (6, 1));
    assert_eq!(reply("(sheet 9999)\n"), (6, 1));
    assert_eq!(reply("(rule (slots 05 6) (count 0 1))\n"), (4, 1), "4, not 5");
}

#[test]
fn the_sheet_form_is_first_and_only() {
    assert_eq!(reply(""), (5, 0));
    assert_eq!(reply("\n"), (3, 1));
    assert_eq!(reply("(unit 1 (window 9 1))\n(sheet 4)\n"), (5, 1), "before 7");
    assert_eq!(reply("(unit 0 (window 1 1))\n(sheet 4)\n"), (5, 1), "before 16");
    assert_eq!(reply("(rule (slots 1 1) (count 1 0))\n"), (5, 1), "before 8");
    assert_eq!(reply("(sheet 4)\n(sheet 49)\n"), (5, 2), "before 6");
    assert_eq!(reply("(note)\n(note)\n"), (5, 0));
}

#[test]
fn limits() {
    assert_eq!(reply("(sheet 48)\n"), (0, 0));
    assert_eq!(reply("(sheet 49)\n"), (6, 1));
    for (places, of_window, of_stretch) in [
        ("1 4", 0, 0), ("4 4", 0, 0), ("1 5", 0, 7), ("4 5", 0, 7), ("0 1", 7, 7), ("4 3", 7, 7), ("5 5", 7, 7), ("1 6", 7, 7), ("5 6", 7, 7),
    ] {
        let refused = |number| (number, if number == 0 { 0 } else { 2 });
        assert_eq!(reply(&format!("(sheet 4)\n(unit 1 (window {places}))\n")), refused(of_window), "{places}");
        assert_eq!(reply(&format!("(sheet 4)\n(rule (slots {places}) (count 0 1))\n")), refused(of_stretch), "{places}");
    }
    assert_eq!(reply("(sheet 4)\n(rule (slots 1 4) (count 300 300))\n"), (0, 0));
    assert_eq!(reply("(sheet 4)\n(rule (slots 1 4) (count 0 301))\n"), (8, 2));
    assert_eq!(reply("(sheet 4)\n(rule (slots 1 4) (count 2 1))\n"), (8, 2));
    assert_eq!(reply("(sheet 4)\n(rule (slots 4 1) (count 2 1))\n"), (7, 2), "7 before 8");
    let units = |n: usize| (1..=n).map(|i| format!("(unit {i} (window 1 4))\n")).collect::<String>();
    let rules = |n: usize| "(rule (slots 1 4) (count 0 1))\n".repeat(n);
    assert_eq!(reply(&format!("(sheet 4)\n{}", units(300))), (0, 0));
    assert_eq!(reply(&format!("(sheet 4)\n{}", units(301))), (9, 302));
    assert_eq!(reply(&format!("(sheet 4)\n{}(unit 301 (window 4 3))\n", units(300))), (7, 302), "7 before 9");
    for number in [0, 1, 17, 299] {
        let again = |n| format!("(sheet 4)\n{}(unit {number} (window 1 4))\n", units(n));
        assert_eq!(reply(&again(299)), (16, 301), "on the last of 300 units");
        assert_eq!(reply(&again(300)), (16, 302), "16 before 9");
    }
    assert_eq!(reply(&format!("(sheet 4)\n{}", rules(60))), (0, 0));
    assert_eq!(reply(&format!("(sheet 4)\n{}", rules(61))), (10, 62));
    assert_eq!(reply(&format!("(sheet 4)\n{}(rule (slots 1 4) (count 2 1))\n", rules(60))), (8, 62), "8 before 10");
}

#[test]
fn loader_numbers() {
    let two = |one: &str, other: &str| reply(&format!("(sheet 4)\n(unit {one} (window 1 4))\n(note)\n(unit {other} (window 1 2))\n"));
    assert_eq!(two("1", "9999"), (0, 0));
    assert_eq!(two("9999", "1"), (0, 0));
    assert_eq!(two("12", "120"), (0, 0));
    assert_eq!(two("0", "1"), (16, 2));
    assert_eq!(two("1", "0"), (16, 4));
    assert_eq!(two("0", "0"), (16, 2));
    assert_eq!(two("4017", "4017"), (16, 4), "the line of the later unit");
    assert_eq!(two("4017", "10000"), (4, 4), "4 before 16");
    assert_eq!(two("17", "0017"), (4, 4), "4 before 16");
    assert_eq!(reply("(sheet 4)\n(unit 0 (window 4 3))\n"), (7, 2), "7 before 16");
    assert_eq!(reply("(sheet 4)\n(unit 5 (window 1 1))\n(unit 5 (window 5 5))\n"), (7, 3), "7 before 16");
    assert_eq!(reply("(sheet 4)\n(unit 5 (window 1 1))\n(rule (slots 1 1) (count 0 5))\n(unit 5 (window 1 1))\n"), (16, 4));
    let sheet = read(House::Ours, b"(sheet 4)\n(unit 4017 (window 1 4))\n(unit 12 (window 2 3))\n").unwrap();
    assert_eq!(sheet, Sheet::new(4, &[(1, 4), (2, 3)], &[]).numbered(&[4_017, 12]));
}

#[test]
fn lines_come_before_questions() {
    assert_eq!(reply("(sheet 49)\n\x01\n"), (6, 1));
    assert_eq!(reply("(sheet 4)\n(unit 1 (window 4 3))\nx"), (7, 2));
    assert_eq!(reply("(sheet 4)\n(unit 0 (window 1 3))\nx"), (16, 2));
}

#[test]
fn rooms_are_asked_last() {
    let text = Sheet::new(2, &[(1, 2)], &[(1, 1, 0, 1)]).text();
    assert!(read_into(House::Ours, &text, [1, 1, 1], [1, 1, 1, 1]).is_ok());
    for short in 0..7 {
        let mut l = [1; 7];
        l[short] = 0;
        let reply = read_into(House::Ours, &text, [l[0], l[1], l[2]], [l[3], l[4], l[5], l[6]]);
        assert_eq!(reply, Err(Refusal { number: 12, line: 0 }));
    }
    assert_eq!(read_into(House::Ours, b"x", [0; 3], [0; 4]), Err(Refusal { number: 3, line: 1 }));
    assert_eq!(refusal_page(Refusal { number: 7, line: 3 }), b"(refused 7 (line 3))\n");
}

#[test]
fn partner_lines() {
    let text = b"(note a)\n(day 7)\n(limit (from 1) (hours 3) (most 2))\n(job 4017 (start 3) (hours 2))\n(job 12 (start 7) (hours 1))\n";
    assert_eq!(read(House::Partner, text), Ok(Sheet::new(7, &[(3, 4), (7, 7)], &[(1, 3, 0, 2)]).numbered(&[4_017, 12])));
    for line in [
        "", "(day)", "(day  4)", "(Day 4)", "(day 4) ", "(sheet 4)", "(unit 1 (window 1 2))", "(rule (slots 1 2) (count 0 1))", "(job (start 1) (hours 1))",
        "(job 1 (hours 1) (start 1))", "(job 1 (start 1)(hours 1))", "(job 1 (start 1 1))", "(job 1 (start 1))", "(job 1 (start 1) (hours 1)",
        "(job 1 (start 1) (hours ))",
        "(job 1 (from 1) (hours 1))", "(job 1 (start 1) (hours -1))", "(limit (from 1) (hours 1))", "(limit (start 1) (hours 1) (most 1))",
        "(limit (from 1) (hours 1) (most 1)) ", "(limit 1 (from 1) (hours 1) (most 1))", "(limit (from 1) (hours 1) (count 0 1))", "(noted)",
    ] {
        assert_eq!(partner_reply(&format!("(day 4)\n{line}\n")), (3, 2), "{line:?}");
    }
    for line in ["(day 4)", "(job 1 (start 1) (hours 1))", "(limit (from 1) (hours 1) (most 1))"] {
        assert_eq!(reply(&format!("(sheet 4)\n{line}\n")), (3, 2), "{line:?} is no form of ours");
        assert_eq!(partner_reply(line), (3, 1), "{line:?} has no line feed");
    }
}

#[test]
fn partner_limits() {
    for (text, expected) in [
        ("", (5, 0)),
        ("(note)\n", (5, 0)),
        ("(job 1 (start 0) (hours 0))\n(day 4)\n", (5, 1)),
        ("(day 4)\n(day 49)\n", (5, 2)),
        ("(day 0)\n", (6, 1)),
        ("(day 49)\n", (6, 1)),
        ("(day 48)\n", (0, 0)),
        ("(day 4)\n(job 1 (start 1) (hours 4))\n", (0, 0)),
        ("(day 4)\n(job 1 (start 4) (hours 1))\n", (0, 0)),
        ("(day 4)\n(job 1 (start 1) (hours 5))\n", (7, 2)),
        ("(day 4)\n(job 1 (start 4) (hours 2))\n", (7, 2)),
        ("(day 4)\n(job 1 (start 5) (hours 1))\n", (7, 2)),
        ("(day 4)\n(job 1 (start 5) (hours 0))\n", (7, 2)),
        ("(day 4)\n(job 1 (start 1) (hours 0))\n", (7, 2)),
        ("(day 4)\n(job 1 (start 0) (hours 0))\n", (7, 2)),
        ("(day 4)\n(job 1 (start 0) (hours 1))\n", (7, 2)),
        ("(day 4)\n(job 1 (start 9999) (hours 9999))\n", (7, 2)),
        ("(day 4)\n(job 0 (start 1) (hours 0))\n", (7, 2)),
        ("(day 4)\n(job 0 (start 1) (hours 1))\n", (16, 2)),
        ("(day 4)\n(job 5 (start 1) (hours 1))\n(job 5 (start 2) (hours 1))\n", (16, 3)),
        ("(day 4)\n(job 10000 (start 1) (hours 1))\n", (4, 2)),
        ("(day 4)\n(job 1 (start 1) (hours 01))\n", (4, 2)),
        ("(day 4)\n(limit (from 1) (hours 4) (most 300))\n", (0, 0)),
        ("(day 4)\n(limit (from 1) (hours 4) (most 301))\n", (8, 2)),
        ("(day 4)\n(limit (from 1) (hours 0) (most 301))\n", (7, 2)),
        ("(day 4)\n(limit (from 4) (hours 2) (most 0))\n", (7, 2)),
        ("(day 4)\n(limit (from 0) (hours 0) (most 0))\n", (7, 2)),
    ] {
        assert_eq!(partner_reply(text), expected, "{text}");
    }
    let jobs = |n: usize| format!("(day 4)\n{}", (1..=n).map(|k| format!("(job {k} (start 1) (hours 4))\n")).collect::<String>());
    let limits = |n: usize| format!("(day 4)\n{}", "(limit (from 1) (hours 4) (most 1))\n".repeat(n));
    assert_eq!([jobs(300), jobs(301), limits(60), limits(61)].map(|text| partner_reply(&text)), [(0, 0), (9, 302), (0, 0), (10, 62)]);
    let long = |length: usize| format!("(day 4)\n(note {})\n", "x".repeat(length - 16));
    assert_eq!([long(16_000), long(16_001)].map(|text| partner_reply(&text)), [(0, 0), (1, 0)]);
}

/// What writing asks, in its order, and what it names.
#[test]
fn outgoing_questions() {
    let good = Lists::from(&Sheet::new(4, &[(1, 4), (2, 3)], &[(1, 4, 0, 1), (2, 2, 0, 300)]));
    let asked = |change: fn(&mut Lists), house: House| {
        let mut lists = good.clone();
        change(&mut lists);
        outgoing_refusal(house, &lists).map_or((0, 0), |r| (r.number, r.line))
    };
    let changes: [(fn(&mut Lists), (usize, usize), (usize, usize)); 8] = [
        (|_| (), (0, 0), (0, 0)),
        (|l| l.last[1] = 5, (0, 0), (17, 2)),
        (|l| l.last = vec![5, 5], (0, 0), (17, 1)),
        (|l| l.low[1] = 1, (0, 0), (18, 2)),
        (|l| l.low = vec![1, 300], (0, 0), (18, 1)),
        (|l| (l.last[1], l.low[0]) = (5, 1), (0, 0), (17, 2)),
        (|l| (l.last[1], l.low[0]) = (5, 2), (8, 0), (8, 0)),
        (|l| (l.last[0], l.last[1]) = (5, 6), (7, 0), (7, 0)),
    ];
    for (change, ours, theirs) in changes {
        assert_eq!((asked(change, House::Ours), asked(change, House::Partner)), (ours, theirs));
    }
    let text = good.sheet().text_for(House::Partner);
    let n = text.len();
    for (length, place, yes) in [(n, 0, true), (n - 1, 0, false), (n + 3, 3, true), (n + 2, 3, false), (500, 501, false), (500, usize::MAX, false)] {
        let expected = if yes { Ok(text.clone()) } else { Err(Refusal { number: 15, line: 0 }) };
        assert_eq!(written(House::Partner, &good, length, place), expected, "{length} from {place} on");
    }
}

/// A window or a stretch that is moved to the end of the wave is taken, or refused by 7 where it is one place too far. The partner's are
/// refused in the carried place too.
#[test]
fn windows_and_stretches_at_the_end_of_the_wave() {
    for house in House::BOTH {
        let (mut taken, mut refused, all) = (0, 0, effort(2_000));
        for i in 0..all {
            let mut r = Random::of_case(seed(22), i);
            let mut text = valid(&mut r, house);
            reach_the_end(&mut r, house, &mut text);
            match read(house, &text) {
                Ok(sheet) if house == House::Ours => taken += (sheet.cut_to_span() != sheet) as usize,
                Ok(_) => taken += 1,
                Err(refusal) => {
                    assert_eq!(refusal.number, 7, "seed {} case {i}: {}", seed(22), String::from_utf8_lossy(&text));
                    refused += 1;
                }
            }
        }
        assert!(5 * taken > all && 5 * refused > all, "{house:?}: {taken} taken, {refused} refused");
    }
}

/// The generators reach a sheet and every refusal of reading.
#[test]
fn generators_reach_every_reply() {
    for house in House::BOTH {
        let mut seen = [0usize; 17];
        for i in 0..effort(20_000) {
            let mut r = Random::of_case(seed(21), i);
            let text = any_text(&mut r, house);
            seen[read(house, &text).map_or_else(|r| r.number, |_| 0)] += 1;
            assert!(read(house, &valid(&mut r, house)).is_ok(), "seed {} case {i}", seed(21));
        }
        for number in [0, 2, 3, 4, 5, 6, 7, 8, 11, 16] {
            assert!(seen[number] > 20, "{house:?} {number}: {seen:?}");
        }
    }
}
