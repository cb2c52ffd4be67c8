//! Rings as the package hands them out: their limits are the lines of the page, and each limit has all that sets it.
//!
//! What sets a limit is held to the model's limits (docs/RULES.md, "Boundaries and limits") without being worked out again. A sheet with one
//! source alone has the limit; with all but one of its sources taken away the limit stays, and with all of them it does not, so that none is
//! missing and none is too many.

use model::calls::owned;
use model::page;
use model::questions::Lists;
use model::random::{any_sheet, small_sheet, tied_sheet, Random};
use model::sheet::{Rule, Sheet, Unit};
use model::tally::Tally;
use model::{effort, seed};
use tugrokt::told::{self, Answer, Bound, Decision, Limit, Ring, Source};
use tugrokt::{answer, House, Query};

/// The package's ring of a sheet without a plan, which deciding gives too.
fn ring_of(sheet: &Sheet) -> Option<Ring> {
    let sheet = owned(&Lists::from(sheet));
    match (told::plan(&sheet).unwrap(), told::decide(&sheet).unwrap()) {
        (Answer::None(planned), Decision::None(decided)) => {
            assert_eq!(planned, decided);
            Some(planned)
        }
        (Answer::Plan(_), Decision::Fits(_)) => None,
        (planned, decided) => panic!("{planned:?}, but {decided:?}"),
    }
}

/// The sheets of a test without a plan, this many, with their rings.
fn without_plan(tally: &mut Tally, wanted: usize, drawn: fn(&mut Random) -> Sheet, mut tried: impl FnMut(&str, &Sheet, Ring)) {
    let mut cases = 0..;
    for _ in 0..wanted {
        let (i, sheet, ring) = cases
            .find_map(|i| {
                let sheet = drawn(&mut Random::of_case(tally.seed(), i));
                ring_of(&sheet).map(|ring| (i, sheet, ring))
            })
            .unwrap();
        let kind = if sheet.span > 12 { "large" } else { "small" };
        let past = ring.boundaries.contains(&(sheet.carried_place() as u16));
        tally.add(0, if past { "past the wave" } else { kind });
        tried(&format!("seed {} case {i}: {sheet:?}", tally.seed()), &sheet, ring);
    }
}

/// Small sheets, many of them with rules that leave just the room that there is.
fn small(r: &mut Random) -> Sheet {
    if r.chance(70) { small_sheet(r) } else { tied_sheet(r) }
}

/// The page of a sheet, in words.
fn page_of(sheet: &Sheet) -> String {
    String::from_utf8(owned(&Lists::from(sheet)).page().unwrap()).unwrap()
}

/// The lines of the page are those of the limits, and of the shortfall.
fn has_the_lines_of_the_page(what: &str, sheet: &Sheet, ring: &Ring) {
    let page = page_of(sheet);
    let lines: Vec<&str> = page.lines().collect();
    let mut expected = vec!["(answer none)".to_string()];
    expected.extend(ring.limits.iter().map(Limit::to_string));
    expected.push(format!("(shortfall {})", ring.shortfall));
    assert_eq!(lines, expected, "{what}");
    assert_eq!(Ring::on_page(&owned(&Lists::from(sheet)), page.as_bytes()).as_ref(), Some(ring), "{what}");
    let fits = answer(House::Ours, Query::Fits, &sheet.text());
    assert_eq!(Ring::on_page(&owned(&Lists::from(sheet)), &fits).as_ref(), Some(ring), "{what}");
}

/// A limit as the model has it, of a step between boundaries: how many, with its sign.
fn signed(limit: &Limit) -> i64 {
    match limit.bound {
        Bound::AtMost => limit.count as i64,
        Bound::AtLeast => -(limit.count as i64),
    }
}

/// The step that a limit is of.
fn step(limit: &Limit) -> (usize, usize) {
    let (before, last) = (limit.first as usize - 1, limit.last as usize);
    if limit.bound == Bound::AtMost { (before, last) } else { (last, before) }
}

/// The boundaries are a ring of the model, and the limits those of its steps.
fn is_a_ring(what: &str, sheet: &Sheet, ring: &Ring) {
    assert_eq!(sheet.ring_fault(&ring.boundaries), None, "{what}");
    assert_eq!(ring.limits.iter().map(step).collect::<Vec<_>>(), Sheet::steps(&ring.boundaries), "{what}");
    for limit in &ring.limits {
        let (a, b) = step(limit);
        assert_eq!(signed(limit), sheet.limit(a, b), "{what}: {limit}");
    }
    assert_eq!(ring.shortfall as i64, -sheet.ring_sum(&ring.boundaries), "{what}");
}

/// A unit more; where it sits does not matter.
fn unit() -> Unit {
    Unit { loader: 1, first: 1, last: 1 }
}

/// A sheet in which nothing but this source could set the limit.
fn alone(sheet: &Sheet, limit: &Limit, source: &Source) -> Sheet {
    let (units, rules) = match (limit.bound, source) {
        (Bound::AtMost, &Source::Rule(i)) => (vec![unit(); sheet.rules[i].high as usize + 1], vec![sheet.rules[i]]),
        (Bound::AtMost, Source::Units) => (sheet.units.clone(), vec![]),
        (Bound::AtLeast, &Source::Rule(i)) => (vec![], vec![sheet.rules[i]]),
        (Bound::AtLeast, Source::Windows(units)) => (units.iter().map(|&i| sheet.units[i]).collect(), vec![]),
        _ => panic!("{source:?} cannot set {limit}"),
    };
    Sheet { span: sheet.span, units, rules }
}

/// The sheet with a unit's window opened past the stretch of a limit or, where the stretch is all there is, without the unit.
fn opened(sheet: &Sheet, limit: &Limit, i: usize) -> Sheet {
    let (mut opened, all) = (sheet.clone(), (1, sheet.carried_place() as u16));
    if (limit.first, limit.last) == all {
        opened.units.remove(i);
    } else {
        (opened.units[i].first, opened.units[i].last) = all;
    }
    opened
}

/// The sheets with a source of a limit taken away. Of the windows any one is enough.
fn without(sheet: &Sheet, limit: &Limit, source: &Source) -> Vec<Sheet> {
    let mut changed = sheet.clone();
    match (limit.bound, source) {
        (Bound::AtMost, &Source::Rule(i)) => changed.rules[i].high = u16::MAX,
        (Bound::AtMost, Source::Units) => changed.units.push(unit()),
        (Bound::AtLeast, &Source::Rule(i)) => changed.rules[i].low = 0,
        (Bound::AtLeast, Source::Windows(units)) => {
            assert!(!units.is_empty(), "no windows set {limit}");
            return units.iter().map(|&i| opened(sheet, limit, i)).collect();
        }
        _ => panic!("{source:?} cannot set {limit}"),
    }
    vec![changed]
}

/// The same with all but one of its sources, or all of them, taken away.
fn without_all(sheet: &Sheet, limit: &Limit, kept: Option<&Source>) -> Vec<Sheet> {
    let taken = limit.sources.iter().filter(|&source| Some(source) != kept);
    taken.fold(vec![sheet.clone()], |sheets, source| sheets.iter().flat_map(|sheet| without(sheet, limit, source)).collect())
}

/// Each source sets the limit, and no other does.
fn has_its_sources(what: &str, sheet: &Sheet, limit: &Limit) {
    let (a, b) = step(limit);
    for source in &limit.sources {
        assert_eq!(alone(sheet, limit, source).limit(a, b), signed(limit), "{what}: {source:?} alone does not set {limit}");
        for left in without_all(sheet, limit, Some(source)) {
            assert_eq!(left.limit(a, b), signed(limit), "{what}: {source:?} is left and does not set {limit}");
        }
    }
    let set = limit.bound == Bound::AtMost || limit.count > 0;
    assert_eq!(!limit.sources.is_empty(), set, "{what}: {limit}");
    for left in without_all(sheet, limit, None).iter().filter(|_| set) {
        assert!(left.limit(a, b) > signed(limit), "{what}: without {:?} something sets {limit}", limit.sources);
    }
    let again = (1..limit.sources.len()).find(|&i| limit.sources[..i].contains(&limit.sources[i]));
    assert_eq!(again, None, "{what}: {:?}", limit.sources);
}

/// What sets a limit, for the tally.
fn kind(limit: &Limit) -> &'static str {
    match (&limit.sources[..], limit.bound) {
        ([], _) => "set by nothing",
        ([Source::Rule(_)], Bound::AtMost) => "at most by a rule",
        ([Source::Rule(_)], Bound::AtLeast) => "at least by a rule",
        ([Source::Units], _) => "by the number of units",
        ([Source::Windows(_)], _) => "by windows",
        ([.., Source::Units], _) => "by rules and the number of units",
        ([.., Source::Windows(_)], _) => "by rules and windows",
        (_, Bound::AtMost) => "at most by several rules",
        (_, Bound::AtLeast) => "at least by several rules",
    }
}

const KINDS: [&str; 8] = [
    "at most by a rule",
    "at least by a rule",
    "by the number of units",
    "by windows",
    "by rules and the number of units",
    "by rules and windows",
    "at most by several rules",
    "at least by several rules",
];

/// A ring is held to the page and to the model, and each of its limits to what sets it.
fn hold(limits: &mut Tally, what: &str, sheet: &Sheet, ring: &Ring) {
    has_the_lines_of_the_page(what, sheet, ring);
    is_a_ring(what, sheet, ring);
    for limit in &ring.limits {
        has_its_sources(what, sheet, limit);
        limits.add(0, kind(limit));
    }
}

#[test]
fn rings_of_small_sheets() {
    let (mut tally, mut limits) = (Tally::new("rings of small sheets", seed(1_101)), Tally::new("their limits", seed(1_101)));
    without_plan(&mut tally, effort(6_000), small, |what, sheet, ring| hold(&mut limits, what, sheet, &ring));
    for kind in KINDS {
        assert!(limits.count(kind) > 0, "no limit is set {kind}");
    }
    assert!(tally.count("past the wave") > 0);
    tally.report();
    limits.report();
}

#[test]
fn rings_of_sheets_of_any_size() {
    let (mut tally, mut limits) = (Tally::new("rings of sheets of any size", seed(1_102)), Tally::new("their limits", seed(1_102)));
    without_plan(&mut tally, effort(2_000), any_sheet, |what, sheet, ring| hold(&mut limits, what, sheet, &ring));
    assert!(tally.count("large") > 0 && tally.count("past the wave") > 0);
    tally.report();
    limits.report();
}

/// Four rules and two windows on one stretch: two of the rules set what is allowed there, two and the windows what is asked for.
#[test]
fn several_sources_on_one_stretch() {
    let window = |first, last| Unit { loader: 1, first, last };
    let rule = |low, high| Rule { from: 1, to: 2, low, high };
    let sheet = Sheet { span: 3, units: vec![window(1, 2), window(2, 2), window(1, 3)], rules: vec![rule(2, 3), rule(0, 1), rule(2, 2), rule(1, 1)] };
    let sheet = sheet.numbered(&[4_017, 212, 9]);
    let ring = ring_of(&sheet).expect("two windows, and rules for one");
    let [most, least] = &ring.limits[..] else { panic!("{ring:?}") };
    assert_eq!((most.to_string(), &most.sources[..]), ("(at-most 1 (slots 1 2))".into(), &[Source::Rule(1), Source::Rule(3)][..]));
    let sources = [Source::Rule(0), Source::Rule(2), Source::Windows(vec![0, 1])];
    assert_eq!((least.to_string(), &least.sources[..]), ("(at-least 2 (slots 1 2))".into(), &sources[..]));
    hold(&mut Tally::new("one sheet", 0), "one sheet", &sheet, &ring);
}

/// Pages that a page of none is easily taken for: a digit changed, a line left out or said twice, the lines from another one on, the ring twice.
fn other_pages(page: &str, ring: &Ring) -> Vec<String> {
    let mut others = Vec::new();
    for (at, byte) in page.bytes().enumerate().filter(|(_, byte)| byte.is_ascii_digit()) {
        for digit in [b'0', b'1', b'9', (byte - b'0' + 1) % 10 + b'0'] {
            others.push([&page[..at], &(digit as char).to_string(), &page[at + 1..]].concat());
        }
    }
    let lines: Vec<String> = page.lines().map(|line| format!("{line}\n")).collect();
    for i in 0..lines.len() {
        others.push([&lines[..i], &lines[i + 1..]].concat().concat());
        others.push([&lines[..i], &lines[i..=i], &lines[i..]].concat().concat());
    }
    let (steps, end) = (&lines[1..lines.len() - 1], &lines[lines.len() - 1..]);
    for i in 1..steps.len() {
        others.push([&lines[..1], &steps[i..], &steps[..i], end].concat().concat());
    }
    others.push([&lines[..1], steps, steps, &[format!("(shortfall {})\n", 2 * ring.shortfall)]].concat().concat());
    others.extend([page.trim_end().to_string(), format!("{page}\n"), page.replace(' ', "  "), format!(" {page}"), page.replace('\n', "\r\n")]);
    others
}

/// A ring is found on a page just where the model takes it for a page of none of the sheet.
#[test]
fn rings_on_pages() {
    let mut tally = Tally::new("pages of none and others", seed(1_103));
    let mut found = [0, 0];
    without_plan(&mut tally, effort(400), small, |what, sheet, ring| {
        let package = owned(&Lists::from(sheet));
        for other in other_pages(&page_of(sheet), &ring) {
            let one_of_it = page::fault(sheet, None, other.as_bytes()).is_none();
            let read = Ring::on_page(&package, other.as_bytes());
            assert_eq!(read.is_some(), one_of_it, "{what}: {other}");
            found[one_of_it as usize] += 1;
            if let Some(read) = read {
                is_a_ring(what, sheet, &read);
            }
        }
    });
    assert!(found[0] > 0 && found[1] > 0, "{found:?}");
    tally.report();
}

/// Pages that show no ring: of plans and refusals, empty ones, such as are no text, and such as lead past the sheet's boundaries.
#[test]
fn pages_without_a_ring() {
    let mut sheet = tugrokt::Sheet::new(3);
    sheet.add_unit(4_017, 3, 4);
    sheet.add_unit(212, 3, 4);
    let none = |page: &[u8]| assert_eq!(Ring::on_page(&sheet, page), None, "{}", String::from_utf8_lossy(page));
    none(&sheet.page().unwrap());
    for page in [&b""[..], b"\n", b"(answer none)\n", b"(answer none)\n(shortfall 0)\n", b"(refused 7 (line 3))\n", b"\xff(answer none)\n", b"(slots "] {
        none(page);
    }
    // Limits of the sheet, and no ring: what is allowed is what is asked for, or more.
    none(b"(answer none)\n(at-most 2 (slots 1 4))\n(at-least 2 (slots 1 4))\n(shortfall 0)\n");
    none(b"(answer none)\n(at-most 2 (slots 1 3))\n(at-least 0 (slots 1 3))\n(shortfall 0)\n");
    sheet.add_rule(1, 2, 1, 2);
    let page = sheet.page().unwrap();
    let page = String::from_utf8(page).unwrap();
    assert!(Ring::on_page(&sheet, page.as_bytes()).is_some() && page.contains(" 4))"), "{page}");
    assert_eq!(Ring::on_page(&sheet, page.replace(" 4))", " 5))").as_bytes()), None);
    assert_eq!(Ring::on_page(&sheet, page.replace(" 4))", " 65535))").as_bytes()), None);
}
