//! Merging two sheets, and the lines of its units, through the border: every reply, every place of every list and every line against the model;
//! the questions with their lines by hand; and that a plan is lawful for what merging gives exactly when it keeps to both sheets.

use model::calls::{line_fault, merging_fault, planning_fault};
use model::enumerated::{self, count, is_lawful};
use model::house::House;
use model::merging::{line_of, merge, merge_into, pair, Found, Pair};
use model::pairs::{sheets, texts};
use model::questions::{lists_refusal, Lengths, Lists};
use model::random::{loaders, sheet_up_to, Random};
use model::reading::{read, Refusal, Spot};
use model::sheet::{Rule, Sheet, Unit, MAX_LOADER, MAX_RULES, MAX_UNITS};
use model::tally::{self, Tally, CARRIES, NONE, PLAN};
use model::{cases, computed, effort, seed};
use tugrokt::entry;

const MERGED: &str = "merged";
const LINES: &str = "lines";
/// 21 where the second sheet has no rule on the stretch.
const CROSSED_BEFORE: &str = "refused by 21, line 0";
const CROSSED: &str = "refused by 21, a line";

const UNITS: [usize; 3] = [MAX_UNITS; 3];
const RULES: [usize; 4] = [MAX_RULES; 4];

/// What the random pairs of a test were: refusals of the first text by reading's questions, those of the second, and all that was asked of
/// two sheets.
struct Tallies {
    first: Tally,
    second: Tally,
    both: Tally,
}

impl Tallies {
    fn new(names: [&'static str; 3], seed: u64) -> Tallies {
        let [first, second, both] = names.map(|name| Tally::new(name, seed));
        Tallies { first, second, both }
    }

    fn add(&mut self, one: &[u8], two: &[u8], answer: &Result<Pair, Refusal>) {
        let number = answer.as_ref().map_or_else(|refusal| refusal.number, |_| 0);
        if read(House::Ours, one).is_err() {
            self.first.add(number, MERGED);
        } else if read(House::Ours, two).is_err() {
            self.second.add(number, MERGED);
        } else {
            match answer {
                Err(Refusal { number: 21, line: 0 }) => self.both.add(0, CROSSED_BEFORE),
                Err(Refusal { number: 21, .. }) => self.both.add(0, CROSSED),
                _ => self.both.add(number, MERGED),
            }
        }
    }

    fn report(&self) {
        for tally in [&self.first, &self.second, &self.both] {
            tally.report();
        }
    }
}

/// Merges into rooms of these lengths; says what differs from the model.
fn held(one: &[u8], two: &[u8], units: [usize; 3], rules: [usize; 4]) -> Option<String> {
    merging_fault(one, two, &pair(one, two), units, rules)
}

/// The number and line of merging two texts, in the largest rooms, held to the model first.
fn merging(one: &str, two: &str) -> (usize, usize) {
    let (one, two) = (one.as_bytes(), two.as_bytes());
    let answer = pair(one, two);
    assert_eq!(merging_fault(one, two, &answer, UNITS, RULES), None);
    // A line asks the same, and then whether the loader is there.
    let numbers = answer.as_ref().map_or(vec![], |pair| pair.merged.loaders());
    for loader in numbers.into_iter().chain([0, 1, 4_017, 10_000, u16::MAX]) {
        assert_eq!(line_fault(one, two, &answer, loader), None);
    }
    answer.map_or_else(|refusal| (refusal.number, refusal.line), |_| (0, 0))
}

/// The lists that merging leaves, as a sheet.
fn merged_by_planner(one: &[u8], two: &[u8]) -> Sheet {
    let tugrokt::Sheet { span, loader, first, last, from, to, low, high } = tugrokt::merge(one, two).unwrap();
    Lists { span, loader, first, last, from, to, low, high }.sheet()
}

fn text(lines: &[&str]) -> String {
    lines.iter().map(|line| format!("{line}\n")).collect()
}

/// A sheet's text with these units, by their numbers, and these rules.
fn sheet_of(span: usize, loaders: &[u16], rules: &[(u16, u16, u16, u16)]) -> String {
    String::from_utf8(Sheet::new(span, &vec![(1, 1); loaders.len()], rules).numbered(loaders).text()).unwrap()
}

/// Rules on different stretches of 47 slots, so many from one on.
fn many_rules(from: usize, many: usize) -> Vec<(u16, u16, u16, u16)> {
    let all = (1..=47).flat_map(|a| (a..=47).map(move |b| (a, b, 0, 300)));
    all.skip(from).take(many).collect()
}

/// All units and all rules of two sheets, none combined.
fn together(one: &Sheet, two: &Sheet) -> Sheet {
    Sheet {
        span: one.span,
        units: one.units.iter().chain(&two.units).copied().collect(),
        rules: one.rules.iter().chain(&two.rules).copied().collect(),
    }
}

/// Units of the first, then of the second; one rule for each stretch, in order of first appearance over both, with the largest low and the
/// smallest high of all rules on it.
#[test]
fn the_request() {
    let one = text(&["(sheet 7)", "(unit 4017 (window 1 4))", "(rule (slots 1 3) (count 0 5))", "(rule (slots 2 2) (count 1 3))", "(unit 12 (window 7 8))"]);
    let two = text(&[
        "(rule (slots 4 7) (count 0 9))",
        "(rule (slots 2 2) (count 2 4))",
        "(unit 5 (window 2 3))",
        "(rule (slots 1 3) (count 0 4))",
        "(rule (slots 4 7) (count 3 300))",
    ]);
    let two = format!("(note the other site)\n(sheet 7)\n{two}");
    let merged = "(sheet 7)
(unit 4017 (window 1 4))
(unit 12 (window 7 8))
(unit 5 (window 2 3))
(rule (slots 1 3) (count 0 4))
(rule (slots 2 2) (count 2 3))
(rule (slots 4 7) (count 3 9))
";
    assert_eq!(merging(&one, &two), (0, 0));
    assert_eq!(String::from_utf8(merged_by_planner(one.as_bytes(), two.as_bytes()).text()).unwrap(), merged);
    // The other way round stretches and units come in another order.
    let turned = "(sheet 7)
(unit 5 (window 2 3))
(unit 4017 (window 1 4))
(unit 12 (window 7 8))
(rule (slots 4 7) (count 3 9))
(rule (slots 2 2) (count 2 3))
(rule (slots 1 3) (count 0 4))
";
    assert_eq!(merging(&two, &one), (0, 0));
    assert_eq!(String::from_utf8(merged_by_planner(two.as_bytes(), one.as_bytes()).text()).unwrap(), turned);
}

/// Two sheets with nothing but a span, and one that has all.
#[test]
fn sheets_without_units_and_rules() {
    for span in [1, 2, 47, 48] {
        let (empty, full) = (format!("(sheet {span})\n"), sheet_of(span, &[1, 9_999], &[(1, 1, 0, 2)]));
        for (one, two) in [(&empty, &empty), (&empty, &full), (&full, &empty)] {
            assert_eq!(merging(one, two), (0, 0));
        }
        let expected = merge(full.as_bytes(), empty.as_bytes()).unwrap();
        assert_eq!(merged_by_planner(empty.as_bytes(), full.as_bytes()), expected);
        // Rooms of no places hold a sheet that needs none.
        assert_eq!(held(empty.as_bytes(), empty.as_bytes(), [0; 3], [0; 4]), None);
        assert_eq!(merge_into(full.as_bytes(), empty.as_bytes(), [2; 3], [1; 4]).map(|sheet| sheet.span), Ok(span));
    }
}

/// P9's two rules on one stretch are one after merging, whichever sheet has them, and the answer stays.
#[test]
fn rules_of_one_sheet_are_combined_too() {
    let p9 = cases::named("P9").sheet;
    assert_eq!(p9.rules.len(), 2);
    let (full, empty) = (String::from_utf8(p9.text()).unwrap(), "(sheet 2)\n".to_string());
    for (one, two) in [(&full, &empty), (&empty, &full)] {
        assert_eq!(merging(one, two), (0, 0));
        let merged = merged_by_planner(one.as_bytes(), two.as_bytes());
        assert_eq!(merged.rules, [Rule { from: 1, to: 1, low: 1, high: 1 }]);
        assert_eq!(merged.units, p9.units);
        assert_eq!(enumerated::solve(&merged), enumerated::solve(&p9));
    }
}

/// A refusal by one of reading's questions is of the first text or, where that is a sheet, of the second, whatever else is wrong.
#[test]
fn reading_comes_first() {
    let good = sheet_of(4, &[5], &[(1, 2, 0, 1)]);
    // Another span, the same loader and a crossed count would be refused by 19, 20 and 21.
    let other = sheet_of(5, &[5], &[(1, 2, 2, 3)]);
    let long = format!("(sheet 4)\n(note {})\n", "x".repeat(16_001 - 18));
    let all_units = |n: usize| sheet_of(4, &(1..=n as u16).collect::<Vec<_>>(), &[]);
    let bad: Vec<(String, (usize, usize))> = vec![
        (long, (1, 0)),
        ("(sheet 4)\n(unit 1 (window\t1 4))\n".into(), (2, 2)),
        ("(sheet 4)\n(note (a)\n".into(), (11, 2)),
        ("(sheet 4)\n(unit 1 (window 1 4)\n".into(), (3, 2)),
        ("(sheet 4)\n(unit 1 (window 1 4))".into(), (3, 2)),
        ("(sheet 4)\n(unit 1 (window 01 4))\n".into(), (4, 2)),
        ("(unit 1 (window 1 4))\n(sheet 4)\n".into(), (5, 1)),
        ("(note)\n".into(), (5, 0)),
        (String::new(), (5, 0)),
        ("(sheet 4)\n(sheet 4)\n".into(), (5, 2)),
        ("(note)\n(sheet 49)\n".into(), (6, 2)),
        ("(sheet 4)\n(unit 1 (window 5 5))\n".into(), (7, 2)),
        ("(sheet 4)\n(rule (slots 4 5) (count 0 1))\n".into(), (7, 2)),
        ("(sheet 4)\n(unit 7 (window 1 4))\n(note)\n(unit 7 (window 1 4))\n".into(), (16, 4)),
        ("(sheet 4)\n(rule (slots 1 4) (count 2 1))\n".into(), (8, 2)),
        (all_units(301), (9, 302)),
        (sheet_of(48, &[], &many_rules(0, 61)), (10, 62)),
        ("(day 4)\n".into(), (3, 1)),
    ];
    for (text, refusal) in &bad {
        for second in [&good, &other] {
            assert_eq!(merging(text, second), *refusal, "first: {:?}", &text[..text.len().min(60)]);
            assert_eq!(merging(second, text), *refusal, "second: {:?}", &text[..text.len().min(60)]);
        }
        // The first text's refusal, not the second's.
        for (second, other) in &bad {
            assert_eq!(merging(text, second), *refusal);
            assert_eq!(merging(second, text), *other);
        }
    }
}

/// 19 names the second sheet's span line, wherever it stands.
#[test]
fn different_spans() {
    let one = sheet_of(7, &[1], &[(1, 7, 0, 1)]);
    for notes in [0, 1, 3] {
        let two = format!("{}(sheet 6)\n(note)\n(unit 1 (window 1 6))\n(rule (slots 1 6) (count 2 2))\n", "(note ())\n".repeat(notes));
        // The loader is in both, too, but that is asked later.
        assert_eq!(merging(&one, &two), (19, notes + 1));
        assert_eq!(merging(&two, &one), (19, 1));
    }
    assert_eq!(merging("(sheet 47)\n", "(sheet 48)\n"), (19, 1));
    assert_eq!(merging("(sheet 48)\n", "(sheet 47)\n"), (19, 1));
    assert_eq!(merging("(sheet 1)\n", "(sheet 1)\n"), (0, 0));
}

/// 20 names the second sheet's first unit line whose number the first sheet has, not the first sheet's first.
#[test]
fn shared_loaders() {
    let one = text(&["(sheet 4)", "(unit 30 (window 1 1))", "(unit 40 (window 1 1))", "(unit 4017 (window 1 1))"]);
    let units = |loaders: [u16; 3]| {
        let [a, b, c] = loaders.map(|loader| format!("(unit {loader} (window 1 1))"));
        text(&["(note)", "(sheet 4)", &a, "(rule (slots 1 1) (count 0 300))", &b, "(note (unit 40 (window 1 1)))", &c])
    };
    assert_eq!(merging(&one, &units([1, 2, 3])), (0, 0));
    assert_eq!(merging(&one, &units([4017, 2, 30])), (20, 3));
    assert_eq!(merging(&one, &units([1, 4017, 30])), (20, 5));
    assert_eq!(merging(&one, &units([1, 2, 30])), (20, 7));
    // Numbers that only begin alike are different.
    assert_eq!(merging(&one, &units([4, 401, 3])), (0, 0));
    assert_eq!(merging(&one, &one), (20, 2));
    // 20 is asked before 9: the shared number stands behind the 301st unit of both.
    let (first, mut second): (Vec<u16>, Vec<u16>) = ((1..=200).collect(), (201..=400).collect());
    let (first, without) = (sheet_of(4, &first, &[]), sheet_of(4, &second, &[]));
    second[150] = 200;
    assert_eq!(merging(&first, &sheet_of(4, &second, &[])), (20, 152));
    assert_eq!(merging(&first, &without), (9, 102));
}

/// 9 names the second sheet's unit line that is the 301st of both.
#[test]
fn too_many_units_together() {
    for n in [0, 1, 150, 299, 300] {
        let one: Vec<u16> = (1..=n as u16).collect();
        for all in [299usize, 300, 301, 302] {
            let Some(m) = all.checked_sub(n).filter(|&m| m <= 300) else { continue };
            let two: Vec<u16> = (1_001..1_001 + m as u16).collect();
            // With a crossed count, which is asked later.
            for rules in [&[][..], &[(1, 1, 2, 3), (1, 1, 0, 1)]] {
                let plain = sheet_of(4, &two, rules);
                let expected = if all > 300 { (9, 302 - n) } else if rules.is_empty() { (0, 0) } else { (21, m + 3) };
                assert_eq!(merging(&sheet_of(4, &one, &[]), &plain), expected, "{n} and {m}");
                // A note and the rules before the units move the line.
                let mut lines: Vec<&str> = plain.lines().collect();
                lines[1..].rotate_left(m);
                let moved = format!("(note)\n{}", text(&lines));
                let expected = match expected {
                    (9, line) => (9, line + 1 + rules.len()),
                    (21, _) => (21, 2 + rules.len()),
                    other => other,
                };
                assert_eq!(merging(&sheet_of(4, &one, &[]), &moved), expected, "{n} and {m}");
            }
        }
    }
}

/// 21 names the second sheet's last rule on the first crossed stretch, in order of first appearance over both, and 0 where it has none there.
#[test]
fn crossed_counts() {
    let sheet = |rules: &[(u16, u16, u16, u16)]| sheet_of(9, &[], rules);
    // Across the two, and a count that just fits.
    assert_eq!(merging(&sheet(&[(1, 3, 0, 2)]), &sheet(&[(1, 3, 3, 4)])), (21, 2));
    assert_eq!(merging(&sheet(&[(1, 3, 0, 2)]), &sheet(&[(1, 3, 2, 4)])), (0, 0));
    assert_eq!(merging(&sheet(&[(1, 3, 3, 4)]), &sheet(&[(1, 3, 0, 2)])), (21, 2));
    // In the first alone: the second has no rule there, or one that is not at fault itself and is named all the same.
    let alone = sheet(&[(1, 3, 0, 2), (1, 3, 3, 4)]);
    assert_eq!(merging(&alone, &sheet(&[])), (21, 0));
    assert_eq!(merging(&alone, &sheet(&[(1, 2, 0, 1), (2, 3, 0, 1)])), (21, 0));
    assert_eq!(merging(&alone, &sheet(&[(1, 2, 0, 1), (1, 3, 0, 300)])), (21, 3));
    // In the second alone: its last rule on the stretch.
    assert_eq!(merging(&sheet(&[]), &alone), (21, 3));
    assert_eq!(merging(&sheet(&[(1, 2, 0, 1)]), &sheet(&[(1, 3, 0, 2), (1, 3, 3, 4), (1, 3, 0, 9), (2, 3, 0, 1)])), (21, 4));
    // Alone each of these sheets only has no plan.
    assert!(enumerated::solve(&read(House::Ours, alone.as_bytes()).unwrap()).is_none());
    // Of two crossed stretches the first in the order of both sheets, whichever stands first in the second.
    let one = sheet(&[(1, 1, 0, 1), (2, 2, 0, 1), (3, 3, 0, 1)]);
    assert_eq!(merging(&one, &sheet(&[(3, 3, 2, 2), (2, 2, 2, 2), (1, 1, 0, 1)])), (21, 3));
    assert_eq!(merging(&one, &sheet(&[(4, 4, 0, 0), (4, 4, 1, 1), (3, 3, 2, 2)])), (21, 4));
    assert_eq!(merging(&one, &sheet(&[(5, 5, 0, 0), (4, 4, 0, 0), (4, 4, 1, 1), (5, 5, 1, 1)])), (21, 5));
    // A crossed stretch of the first that the second lacks comes before one that it has.
    let one = sheet(&[(9, 9, 0, 1), (1, 1, 0, 1), (1, 1, 2, 2)]);
    assert_eq!(merging(&one, &sheet(&[(9, 9, 1, 1)])), (21, 0));
    assert_eq!(merging(&one, &sheet(&[(9, 9, 2, 2)])), (21, 2));
    // Notes and units move the line.
    let two = text(&["(note)", "(sheet 9)", "(unit 1 (window 1 1))", "(rule (slots 1 3) (count 3 4))", "(note)", "(unit 2 (window 1 1))"]);
    assert_eq!(merging(&sheet(&[(1, 3, 0, 2)]), &two), (21, 4));
    // Stretches that share an end are not one.
    assert_eq!(merging(&sheet(&[(1, 3, 0, 2)]), &sheet(&[(1, 4, 3, 4), (2, 3, 3, 4), (3, 3, 3, 3)])), (0, 0));
}

/// 10 counts stretches and not rules, and names the second sheet's rule line that makes the 61st; 21 is asked before it.
#[test]
fn too_many_stretches() {
    let sheet = |rules: Vec<(u16, u16, u16, u16)>| sheet_of(48, &[], &rules);
    for n in [0, 1, 30, 59, 60] {
        for all in [59usize, 60, 61, 62] {
            let Some(m) = all.checked_sub(n).filter(|&m| m <= 60) else { continue };
            let expected = if all > 60 { (10, 62 - n) } else { (0, 0) };
            assert_eq!(merging(&sheet(many_rules(0, n)), &sheet(many_rules(n, m))), expected, "{n} and {m}");
        }
    }
    // 120 rules on 60 stretches, and on 61: the last rule of the second has a stretch of its own.
    let mut rules = many_rules(0, 60);
    assert_eq!(merging(&sheet(rules.clone()), &sheet(rules.clone())), (0, 0));
    rules[59] = (48, 48, 0, 300);
    assert_eq!(merging(&sheet(many_rules(0, 60)), &sheet(rules.clone())), (10, 61));
    // The stretch that makes the 61st, not one that comes again after it, and not a later one.
    rules[20] = (47, 47, 0, 300);
    assert_eq!(merging(&sheet(many_rules(0, 60)), &sheet(rules.clone())), (10, 22));
    // A rule of one sheet on one stretch twice is one stretch.
    let mut twice = many_rules(30, 30);
    twice.extend(many_rules(30, 30));
    assert_eq!(merging(&sheet(many_rules(0, 30)), &sheet(twice.clone())), (0, 0));
    twice[59] = (48, 48, 0, 300);
    assert_eq!(merging(&sheet(many_rules(0, 30)), &sheet(twice)), (10, 61));
    // Crossed counts on the last stretch of all, which is the 62nd, are asked first.
    let mut crossed = many_rules(60, 2);
    assert_eq!(merging(&sheet(many_rules(0, 60)), &sheet(crossed.clone())), (10, 2));
    crossed[1].3 = 1;
    crossed.push((crossed[1].0, crossed[1].1, 2, 2));
    assert_eq!(merging(&sheet(many_rules(0, 60)), &sheet(crossed)), (21, 4));
}

/// Each question before all later ones, in pairs, each with faults of both.
#[test]
fn questions_in_pairs() {
    let order = [19, 20, 9, 21, 10];
    for (i, &early) in order.iter().enumerate() {
        for &late in &order[i..] {
            let has = |number: usize| [early, late].contains(&number);
            let span = if has(19) { 47 } else { 48 };
            let one: Vec<u16> = (1..=if has(9) { 160 } else { 150 }).collect();
            let mut two: Vec<u16> = (1_001..=1_150).collect();
            if has(20) {
                two[149] = 1;
            }
            let (mut rules, mut more) = (many_rules(0, 40), many_rules(40, 20));
            if has(10) {
                more.extend(many_rules(60, 1));
            }
            if has(21) {
                (rules[39].3, more[0]) = (1, (rules[39].0, rules[39].1, 2, 2));
                more.extend(many_rules(40, 1));
            }
            let (first, second) = (sheet_of(48, &one, &rules), sheet_of(span, &two, &more));
            let (number, line) = merging(&first, &second);
            assert_eq!(number, early, "{early} and {late}");
            let expected = match number {
                19 => 1,
                20 => 151,
                9 => 142,
                21 => 152,
                _ => 172,
            };
            assert_eq!(line, expected, "{early} and {late}");
        }
    }
}

/// 12 is asked last, of each of the seven lists; places past the fronts stay.
#[test]
fn rooms() {
    let one = sheet_of(9, &[1, 2, 3], &[(1, 2, 0, 3), (3, 4, 0, 3)]);
    let two = sheet_of(9, &[4, 5], &[(3, 4, 1, 2), (5, 6, 0, 3), (1, 2, 0, 2)]);
    let crossed = sheet_of(9, &[4, 5], &[(3, 4, 4, 5)]);
    let (one, two, crossed) = (one.as_bytes(), two.as_bytes(), crossed.as_bytes());
    // 5 units; 3 stretches of 5 rules.
    assert!(merge_into(one, two, [5; 3], [3; 4]).is_ok());
    let mut lengths = vec![[5, 5, 5, 3, 3, 3, 3], [300, 300, 300, 60, 60, 60, 60], [7, 6, 5, 3, 4, 5, 6], [0; 7], [1_000; 7]];
    for list in 0..7 {
        for length in [0, 2, 4] {
            let mut one_short = [5, 5, 5, 3, 3, 3, 3];
            one_short[list] = if list < 3 { length } else { length / 2 };
            lengths.push(one_short);
            let mut long = one_short.map(|length| length + 9);
            long[list] = one_short[list];
            lengths.push(long);
        }
    }
    for l in lengths {
        let (units, rules) = ([l[0], l[1], l[2]], [l[3], l[4], l[5], l[6]]);
        let enough = units.iter().all(|&n| n >= 5) && rules.iter().all(|&n| n >= 3);
        assert_eq!(merge_into(one, two, units, rules).is_ok(), enough);
        assert_eq!(held(one, two, units, rules), None, "{l:?}");
        // What is refused before is refused in any rooms.
        for (first, second) in [(one, one), (one, crossed), (one, &b"(sheet 8)\n"[..]), (b"", two), (two, b"x")] {
            assert_eq!(held(first, second, units, rules), None, "{l:?}");
        }
    }
}

/// The line as it stands, less the line feed; the number decides, and not how the line begins.
#[test]
fn lines() {
    let one = text(&["(note)", "(sheet 9)", "(unit 4017 (window 1 4))", "(note (unit 40 (window 1 2)))", "(unit 401 (window 2 10))"]);
    let two = text(&["(rule (slots 1 2) (count 0 4))", "(unit 40 (window 3 3))", "(note )", "(unit 9999 (window 9 10))", "(unit 1 (window 1 1))"]);
    let two = format!("(sheet 9)\n{two}");
    assert_eq!(merging(&one, &two), (0, 0));
    let shown = [
        (4_017, 1, 17, "(unit 4017 (window 1 4))"),
        (401, 1, 72, "(unit 401 (window 2 10))"),
        (40, 2, 41, "(unit 40 (window 3 3))"),
        (9_999, 2, 72, "(unit 9999 (window 9 10))"),
        (1, 2, 98, "(unit 1 (window 1 1))"),
    ];
    for (loader, sheet, start, line) in shown {
        let reply = entry::line_of(one.as_bytes(), two.as_bytes(), loader);
        assert_eq!(reply, entry::Line { number: 0, line: 0, sheet, start, length: line.len() });
        let part = tugrokt::line_of(one.as_bytes(), two.as_bytes(), loader).unwrap();
        assert_eq!(std::str::from_utf8(part), Ok(line));
        // No copy: the part lies in the text.
        let text = if sheet == 1 { one.as_bytes() } else { two.as_bytes() };
        assert_eq!(part.as_ptr() as usize, text.as_ptr() as usize + start);
        let found = line_of(one.as_bytes(), two.as_bytes(), loader as usize).unwrap();
        assert_eq!((found.text, found.spot.bytes.start), (sheet, start));
    }
    for loader in [0, 2, 4, 17, 99, 999, 4_016, 4_018, 9_998, 10_000, 40_170, 65_535] {
        let reply = entry::line_of(one.as_bytes(), two.as_bytes(), loader);
        assert_eq!(reply, entry::Line { number: 27, line: 0, sheet: 0, start: 0, length: 0 });
        assert_eq!(tugrokt::line_of(one.as_bytes(), two.as_bytes(), loader), Err(tugrokt::Refusal { question: 27, line: 0 }));
    }
    // The first line of a text cannot be a unit's, but the second can, and the last.
    let two = "(sheet 9)\n(unit 7 (window 1 1))\n";
    assert_eq!(entry::line_of(b"(sheet 9)\n", two.as_bytes(), 7), entry::Line { number: 0, line: 0, sheet: 2, start: 10, length: 21 });
    assert_eq!(entry::line_of(two.as_bytes(), b"(sheet 9)\n", 7), entry::Line { number: 0, line: 0, sheet: 1, start: 10, length: 21 });
}

/// What refuses a merge refuses every line, also that of a unit which is there, and 27 is asked last.
#[test]
fn lines_of_what_cannot_be_merged() {
    let one = sheet_of(9, &[1, 2], &[(1, 2, 0, 1)]);
    let pairs = [
        (String::new(), one.clone(), (5, 0)),
        (one.clone(), "(sheet 9)\n(unit 0 (window 1 1))\n".into(), (16, 2)),
        (one.clone(), sheet_of(8, &[3], &[]), (19, 1)),
        (one.clone(), sheet_of(9, &[3, 2], &[]), (20, 3)),
        (one.clone(), sheet_of(9, &(11..=309).collect::<Vec<_>>(), &[]), (9, 300)),
        (one.clone(), sheet_of(9, &[3], &[(1, 2, 2, 2)]), (21, 3)),
        (sheet_of(48, &[1], &many_rules(0, 60)), sheet_of(48, &[3], &many_rules(60, 1)), (10, 3)),
    ];
    for (one, two, (number, line)) in &pairs {
        assert_eq!(merging(one, two), (*number, *line));
        for loader in [1, 2, 3, 11, 4_017, 0, 10_000, 65_535] {
            let reply = entry::line_of(one.as_bytes(), two.as_bytes(), loader);
            assert_eq!(reply, entry::Line { number: *number, line: *line, sheet: 0, start: 0, length: 0 });
        }
    }
}

/// One text lent for both: nothing is written to it.
#[test]
fn a_text_with_itself() {
    for (name, expected) in [("P1", (20, 2)), ("P7", (0, 0)), ("P8", (0, 0))] {
        let text = String::from_utf8(cases::named(name).sheet.text()).unwrap();
        assert_eq!(merging(&text, &text), expected, "{name}");
    }
}

/// All pairs of texts with at most two lines beside the span's, which may stand behind a note or be another: every reply, every place, and the
/// lines of three loaders.
#[test]
fn all_small_pairs() {
    const FORMS: [&str; 10] = [
        "(note)\n",
        "(unit 1 (window 1 2))\n",
        "(unit 2 (window 2 3))\n",
        "(unit 12 (window 1 1))\n",
        "(unit 1 (window 2 1))\n",
        "(rule (slots 1 1) (count 0 1))\n",
        "(rule (slots 1 1) (count 1 2))\n",
        "(rule (slots 1 1) (count 2 2))\n",
        "(rule (slots 1 2) (count 0 0))\n",
        "(rule (slots 1 2) (count 1 1))\n",
    ];
    let mut all = Vec::new();
    for head in ["(sheet 2)\n", "(note)\n(sheet 2)\n", "(sheet 3)\n"] {
        let one = FORMS.map(|line| format!("{head}{line}"));
        all.extend(one.iter().flat_map(|text| FORMS.map(|line| format!("{text}{line}"))));
        all.extend(one);
        all.push(head.to_string());
    }
    let names = ["merging all small pairs, the first refused", "merging all small pairs, the second refused", "merging all small pairs"];
    let mut tallies = Tallies::new(names, 0);
    for (one, two) in all.iter().flat_map(|one| all.iter().map(move |two| (one.as_bytes(), two.as_bytes()))) {
        let answer = pair(one, two);
        tallies.add(one, two, &answer);
        let fault = merging_fault(one, two, &answer, [4; 3], [4; 4]);
        let fault = [1, 2, 12].into_iter().fold(fault, |fault, loader| fault.or_else(|| line_fault(one, two, &answer, loader)));
        assert_eq!(fault, None, "{:?} and {:?}", String::from_utf8_lossy(one), String::from_utf8_lossy(two));
    }
    tallies.report();
    for number in [19, 20] {
        assert!(tallies.both.refused_by(number) > 0, "{number} refuses nothing");
    }
    for answer in [CROSSED, CROSSED_BEFORE, MERGED] {
        assert!(tallies.both.count(answer) > 0, "none {answer}");
    }
}

/// Loaders to ask for: all that there are, their neighbours, numbers that begin alike, and such as no sheet has. Of many units only some.
fn asked_loaders(r: &mut Random, answer: &Result<Pair, Refusal>) -> Vec<u16> {
    let Ok(pair) = answer else { return vec![0, r.between(1, 9_999) as u16, u16::MAX] };
    let mut all = pair.merged.loaders();
    if all.len() > 16 && !r.chance(10) {
        r.shuffle(&mut all);
        all.truncate(16);
    }
    let near: Vec<u16> = all.iter().take(8).flat_map(|&k| [k - 1, k + 1, k / 10, k.saturating_mul(10)]).collect();
    all.extend(near);
    all.extend([0, MAX_LOADER + 1, u16::MAX, r.between(1, 9_999) as u16]);
    all
}

/// Pairs at random, in rooms that just fit, that are longer, and that are one place too short; and every line of each.
#[test]
fn pairs_at_random() {
    let names = ["merging, the first text refused", "merging, the second text refused", "merging two sheets"];
    let mut tallies = Tallies::new(names, seed(701));
    let mut asked = Tally::new("lines of merged sheets", seed(701));
    for i in 0..effort(8_000) {
        let mut r = Random::of_case(seed(701), i);
        let (one, two) = texts(&mut r);
        let answer = pair(&one, &two);
        tallies.add(&one, &two, &answer);
        let fail = |fault: String| {
            let [one, two] = [&one, &two].map(|text| String::from_utf8_lossy(text));
            panic!("seed {} case {i}:\n{one}\n--- and ---\n{two}\n{fault}", seed(701));
        };
        let (n, k) = answer.as_ref().map_or((5, 5), |pair| (pair.merged.units.len(), pair.merged.rules.len()));
        let exact = [n, n, n, k, k, k, k];
        let mut lengths = vec![exact, exact.map(|length| length + r.below(4))];
        for list in (0..7).filter(|_| r.chance(30)) {
            let mut short = exact;
            short[list] = short[list].saturating_sub(1);
            lengths.push(short);
        }
        for l in lengths {
            if let Some(fault) = merging_fault(&one, &two, &answer, [l[0], l[1], l[2]], [l[3], l[4], l[5], l[6]]) {
                fail(fault);
            }
            if answer.is_ok() && l.iter().zip(exact).any(|(length, needed)| *length < needed) {
                tallies.both.add(12, MERGED);
            }
        }
        for loader in asked_loaders(&mut r, &answer) {
            if let Ok(pair) = &answer {
                asked.add(pair.line_of(loader as usize).map_or_else(|refusal| refusal.number, |_| 0), LINES);
            }
            if let Some(fault) = line_fault(&one, &two, &answer, loader) {
                fail(fault);
            }
        }
    }
    tallies.report();
    asked.report();
    for number in [1, 2, 3, 4, 5, 7, 8, 11, 16] {
        assert!(tallies.first.refused_by(number) > 0 && tallies.second.refused_by(number) > 0, "{number} refuses too seldom");
    }
    for number in [19, 20, 9, 10, 12] {
        assert!(200 * tallies.both.refused_by(number) > tallies.both.all(), "{number} refuses too seldom");
    }
    for (answer, share) in [(CROSSED, 50), (CROSSED_BEFORE, 200), (MERGED, 4)] {
        assert!(share * tallies.both.count(answer) > tallies.both.all(), "too few {answer}");
    }
    assert!(4 * asked.count(LINES) > asked.all() && 4 * asked.refused_by(27) > asked.all());
}

/// The units of a merged sheet as their own lines say them: each line is a whole line of its text, and read alone it gives that unit.
#[test]
fn lines_say_their_units() {
    for i in 0..effort(400) {
        let mut r = Random::of_case(seed(702), i);
        let (one, two) = texts(&mut r);
        let Ok(sheet) = tugrokt::merge(&one, &two) else { continue };
        for unit in 0..sheet.loader.len() {
            let line = tugrokt::line_of(&one, &two, sheet.loader[unit]).unwrap();
            let alone = [format!("(sheet {})\n", sheet.span).as_bytes(), line, b"\n"].concat();
            let read = tugrokt::Sheet::read(&alone).unwrap_or_else(|refusal| panic!("seed {} case {i}: {refusal}", seed(702)));
            let said = (read.loader[0], read.first[0], read.last[0]);
            assert_eq!(said, (sheet.loader[unit], sheet.first[unit], sheet.last[unit]), "seed {} case {i}", seed(702));
            let text = if one.as_ptr_range().contains(&line.as_ptr()) { &one } else { &two };
            let start = line.as_ptr() as usize - text.as_ptr() as usize;
            assert_eq!((text[start - 1], text[start + line.len()]), (b'\n', b'\n'), "seed {} case {i}", seed(702));
        }
    }
}

/// Two small sheets of one span, their counts around one plan or crossed by little.
fn small_pair(r: &mut Random) -> (Sheet, Sheet) {
    let whole = sheet_up_to(r, 4, 5);
    let (cut, at) = (r.between(0, whole.units.len()), r.between(0, whole.rules.len()));
    let numbers = loaders(r, whole.units.len());
    let whole = whole.numbered(&numbers);
    let one = Sheet { span: whole.span, units: whole.units[..cut].to_vec(), rules: whole.rules[..at].to_vec() };
    let two = Sheet { span: whole.span, units: whole.units[cut..].to_vec(), rules: whole.rules[at..].to_vec() };
    (one, two)
}

/// Does a plan for all units keep to all windows and all rules of both?
fn keeps_to_both(one: &Sheet, two: &Sheet, plan: &[u16]) -> bool {
    let units: Vec<&Unit> = one.units.iter().chain(&two.units).collect();
    units.iter().zip(plan).all(|(unit, &slot)| unit.first <= slot && slot <= unit.last)
        && one.rules.iter().chain(&two.rules).all(|rule| {
            let c = count(plan, rule.from as usize - 1, rule.to as usize) as u16;
            rule.low <= c && c <= rule.high
        })
}

/// The next assignment of the places 1 to `most`, in the order of numbers.
fn advance(plan: &mut [u16], most: u16) -> bool {
    for slot in plan.iter_mut().rev() {
        if *slot < most {
            *slot += 1;
            return true;
        }
        *slot = 1;
    }
    false
}

/// Every plan of small sheets: it is lawful for what the planner merges exactly when it keeps to all windows and rules of both. The planner
/// takes what it merged, and answers as the definition answers to all units and all rules together. Where 21 refuses, no plan is lawful.
#[test]
fn lawful_for_both() {
    let mut tally = Tally::new("merging small sheets, all plans tried", seed(703));
    for i in 0..effort(3_000) {
        let (one, two) = small_pair(&mut Random::of_case(seed(703), i));
        let all = together(&one, &two);
        let merged = tugrokt::merge(&one.text(), &two.text());
        let mut plan = vec![1; all.units.len()];
        let mut lawful = 0;
        let merged_sheet = merged.is_ok().then(|| merged_by_planner(&one.text(), &two.text()));
        loop {
            let keeps = keeps_to_both(&one, &two, &plan);
            lawful += keeps as usize;
            if let Some(sheet) = &merged_sheet {
                assert_eq!(is_lawful(sheet, &plan), keeps, "seed {} case {i}: {plan:?} for {one:?} and {two:?}", seed(703));
            }
            if !advance(&mut plan, all.carried_place() as u16) {
                break;
            }
        }
        let Some(sheet) = merged_sheet else {
            tally.add(merged.unwrap_err().question, NONE);
            assert_eq!(lawful, 0, "seed {} case {i}", seed(703));
            continue;
        };
        let solved = enumerated::solve(&all);
        assert_eq!(solved.is_some(), lawful > 0);
        tally.add(0, tally::answer(&all, solved.as_ref()));
        let lists = Lists::from(&sheet);
        assert_eq!(lists_refusal(&lists), 0, "seed {} case {i}: planning takes what is merged", seed(703));
        assert_eq!(planning_fault(&lists, &Lengths::exact(&sheet), solved.as_ref()), None, "seed {} case {i}: {one:?} and {two:?}", seed(703));
    }
    tally.report();
    for (answer, share) in [(PLAN, 4), (NONE, 20), (CARRIES, 10)] {
        assert!(share * tally.count(answer) > tally.all(), "too few {answer}");
    }
    assert!(200 * tally.refused_by(21) > tally.all(), "21 refuses too seldom");
}

/// Larger sheets: planning takes what is merged, and answers as to all units and all rules of both.
#[test]
fn merged_sheets_are_planned() {
    let mut tally = Tally::new("planning merged sheets", seed(704));
    for i in 0..effort(400) {
        let mut r = Random::of_case(seed(704), i);
        let (mut one, mut two) = sheets(&mut r);
        let (loose, more) = (r.chance(60), r.below(15) as u16);
        for rule in one.rules.iter_mut().chain(&mut two.rules).filter(|_| loose) {
            (rule.low, rule.high) = (0, rule.high + more);
        }
        if tugrokt::merge(&one.text(), &two.text()).is_err() {
            continue;
        }
        let merged = merged_by_planner(&one.text(), &two.text());
        let solved = computed::solve(&together(&one, &two));
        tally.add(0, tally::answer(&merged, solved.as_ref()));
        let fault = planning_fault(&Lists::from(&merged), &Lengths::exact(&merged), solved.as_ref());
        assert_eq!(fault, None, "seed {} case {i}", seed(704));
    }
    tally.report();
    for (answer, share) in [(PLAN, 10), (NONE, 10)] {
        assert!(share * tally.count(answer) > tally.all(), "too few {answer}");
    }
}

/// The longest texts that are read, and one byte more, as the first and as the second: the line of the last unit is found behind long notes.
#[test]
fn the_longest_texts() {
    let unit = |loader: u16| format!("(unit {loader} (window 1 1))\n");
    let long = |loader: u16, length: usize| {
        let (head, end) = ("(sheet 4)\n", unit(loader));
        format!("{head}(note {})\n{end}", "x".repeat(length - head.len() - end.len() - 8))
    };
    for length in [15_999, 16_000, 16_001] {
        let (one, two) = (long(4_017, length), long(12, 16_000));
        assert_eq!((one.len(), two.len()), (length, 16_000));
        let expected = if length > 16_000 { (1, 0) } else { (0, 0) };
        assert_eq!(merging(&one, &two), expected);
        assert_eq!(merging(&two, &one), expected);
        let found = line_of(one.as_bytes(), two.as_bytes(), 12);
        if length <= 16_000 {
            let end = unit(12).len();
            assert_eq!(found, Ok(Found { text: 2, spot: Spot { number: 3, bytes: 16_000 - end..15_999 } }));
        }
    }
}

/// The two largest sheets that can be merged: 150 units and 30 rules each.
#[test]
fn the_largest_pair() {
    let sheet = |numbers: std::ops::RangeInclusive<u16>, from: usize| {
        let windows: Vec<(u16, u16)> = (0..150).map(|i| (10 + i % 30, 40 + i % 10)).collect();
        Sheet::new(48, &windows, &many_rules(from, 30)).numbered(&numbers.collect::<Vec<_>>())
    };
    let (one, two) = (sheet(9_700..=9_849, 100), sheet(9_850..=9_999, 130));
    let (first, second) = (one.text(), two.text());
    let answer = pair(&first, &second);
    assert_eq!(answer.as_ref().map(|pair| (pair.merged.units.len(), pair.merged.rules.len())), Ok((300, 60)));
    assert_eq!(merging_fault(&first, &second, &answer, UNITS, RULES), None);
    for loader in 9_690..=10_000 {
        assert_eq!(line_fault(&first, &second, &answer, loader), None);
    }
}
