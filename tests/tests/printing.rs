//! Printing, through the border: page, place and rooms against the model, and refusals by every question.

use model::calls::{print, printing_fault, refused_print_fault, Printed};
use model::questions::{planning_refusal, Lengths, Lists};
use model::page::Page;
use model::random::{any_sheet, largest_sheet, small_sheet, Random, Reach};
use model::sheet::{Sheet, Solved};
use model::tally::{self, Tally, CARRIES};
use model::{cases, computed, effort, enumerated, page, seed};
use tugrokt::entry::{self, Printing};

/// Prints from some place on, counts the case, and fails where anything differs from the model.
fn hold(tally: &mut Tally, r: &mut Random, sheet: &Sheet, solved: Option<&Solved>) {
    let case = tally.all();
    tally.add(0, tally::answer(sheet, solved));
    let (before, extra) = (r.below(20), r.below(20));
    if let Some(fault) = printing_fault(&Lists::from(sheet), &Lengths::exact(sheet), solved, before, extra) {
        panic!("seed {} case {case}: {sheet:?}\n{fault}", tally.seed());
    }
}

#[test]
fn document_cases() {
    for case in cases::all() {
        let solved = enumerated::solve(&case.sheet);
        let lists = Lists::from(&case.sheet);
        for before in [0, 1, 100] {
            let fault = printing_fault(&lists, &Lengths::exact(&case.sheet), solved.as_ref(), before, 3);
            assert_eq!(fault, None, "{}", case.name);
        }
    }
    for (name, expected) in cases::PAGES {
        assert_eq!(printed_page(&cases::named(name).sheet), expected, "{name}");
    }
}

/// The page of a sheet, in rooms that are as long as is asked for.
fn printed_page(sheet: &Sheet) -> String {
    let Printed { page, reply, .. } = print(&Lists::from(sheet), &Lengths::exact(sheet), tugrokt::MAX_PAGE, 0);
    assert_eq!(reply.number, 0);
    String::from_utf8_lossy(&page[..reply.place]).into_owned()
}

/// Carried units have their line in the order of the sheet and count in no slot; narrowed windows may end, and begin, with the carried
/// place.
#[test]
fn carried_units() {
    let sheet = Sheet::new(4, &[(3, 5), (4, 4), (1, 5), (4, 5)], &[(4, 4, 0, 1), (3, 3, 0, 0)]).numbered(&[4_017, 12, 9_999, 1]);
    let expected = "(answer plan 4)
(unit 4017 (carried) (between 5 5))
(unit 12 (slot 4) (between 4 4))
(unit 9999 (slot 1) (between 1 5))
(unit 1 (carried) (between 5 5))
(slot 1 (count 1) (range 0 1))
(slot 2 (count 0) (range 0 1))
(slot 3 (count 0) (range 0 0))
(slot 4 (count 1) (range 1 1))
";
    assert_eq!(printed_page(&sheet), expected);
    // The longest span: the carried place is 49, and no line says so.
    let sheet = Sheet::new(48, &[(48, 49), (48, 49)], &[(48, 48, 0, 1)]);
    let Some(Page::Plan { units, slots }) = page::parse(printed_page(&sheet).as_bytes()) else { panic!("a plan") };
    assert_eq!(units.iter().map(|u| (u.slot, u.first, u.last)).collect::<Vec<_>>(), [(Some(48), 48, 49), (None, 48, 49)]);
    assert_eq!((slots.len(), slots[47].count), (48, 1));
}

/// A ring's lines may end with the carried place. This sheet has one ring.
#[test]
fn rings_reach_the_carried_place() {
    let sheet = Sheet::new(2, &[(2, 3), (2, 3)], &[(1, 1, 1, 1)]);
    let expected = "(answer none)
(at-most 2 (slots 1 3))
(at-least 2 (slots 2 3))
(at-least 1 (slots 1 1))
(shortfall 1)
";
    assert_eq!(printed_page(&sheet), expected);
}

#[test]
fn small_sheets() {
    let mut tally = Tally::new("printing small sheets, all plans tried", seed(301));
    for i in 0..effort(6_000) {
        let mut r = Random::of_case(seed(301), i);
        let sheet = small_sheet(&mut r);
        hold(&mut tally, &mut r, &sheet, enumerated::solve(&sheet).as_ref());
    }
    tally.report();
    assert!(10 * tally.count(CARRIES) > tally.all(), "too few carry");
}

#[test]
fn sheets_of_all_sizes() {
    let mut tally = Tally::new("printing sheets of all sizes", seed(302));
    for i in 0..effort(600) {
        let mut r = Random::of_case(seed(302), i);
        let sheet = if i % 20 == 0 { largest_sheet(&mut r, 1, 48, Reach::PastWave) } else { any_sheet(&mut r) };
        hold(&mut tally, &mut r, &sheet, computed::solve(&sheet).as_ref());
    }
    tally.report();
}

/// A page of every length up to the answer's own, and places past the page's end.
#[test]
fn pages_that_do_not_hold_the_answer() {
    for case in cases::all() {
        let (lists, lengths) = (Lists::from(&case.sheet), Lengths::exact(&case.sheet));
        let whole = print(&lists, &lengths, 1_000, 0).reply.place;
        for length in 0..whole {
            assert_eq!(refused_print_fault(&print(&lists, &lengths, length, 0), 15, &lengths, 0), None, "{}", case.name);
            assert_eq!(
                refused_print_fault(&print(&lists, &lengths, 1_000, 1_000 - length), 15, &lengths, 1_000 - length),
                None,
                "{}",
                case.name
            );
        }
        for place in [1_001, 2_000, 1 << 32, usize::MAX - 1, usize::MAX] {
            assert_eq!(refused_print_fault(&print(&lists, &lengths, 1_000, place), 15, &lengths, place), None);
        }
    }
}

/// Printing asks what planning asks, and only then 15.
#[test]
fn refusals() {
    let sheet = Sheet::new(5, &[(1, 3), (2, 5)], &[(1, 2, 0, 2), (2, 4, 1, 2)]).numbered(&[4_017, 12]);
    let changes: [(usize, fn(&mut Lists, &mut Lengths)); 22] = [
        (13, |l, _| l.last.push(1)),
        (13, |l, _| l.low.push(1)),
        (13, |l, _| l.loader.push(7)),
        (13, |l, _| l.loader.truncate(1)),
        (6, |l, _| l.span = 49),
        (9, |l, _| l.add_units(301)),
        (9, |l, _| {
            l.add_units(301);
            l.loader[300] = l.loader[0]
        }),
        (10, |l, _| l.add_rules(61)),
        (7, |l, _| l.to[0] = 6),
        (7, |l, _| l.last[0] = 7),
        (7, |l, _| (l.first[1], l.last[1]) = (6, 6)),
        (7, |l, _| (l.to[0], l.loader[0]) = (6, 0)),
        (16, |l, _| l.loader[0] = 0),
        (16, |l, _| l.loader[1] = 10_000),
        (16, |l, _| l.loader[1] = 65_535),
        (16, |l, _| l.loader[1] = l.loader[0]),
        (16, |l, rooms| {
            l.add_units(300);
            l.loader[299] = l.loader[0];
            *rooms = Lengths { plan: 300, earliest: 300, latest: 300, ..*rooms }
        }),
        (16, |l, _| (l.loader[1], l.high[0]) = (0, 301)),
        (16, |l, rooms| (l.loader[1], rooms.ring) = (4_017, 0)),
        (8, |l, _| l.high[0] = 301),
        (12, |_, rooms| rooms.ring -= 1),
        (12, |_, rooms| rooms.table -= 1),
    ];
    for (number, change) in changes {
        let (mut lists, mut lengths) = (Lists::from(&sheet), Lengths::exact(&sheet));
        change(&mut lists, &mut lengths);
        assert_eq!(planning_refusal(&lists, &lengths), number);
        for (page_length, place) in [(0, 0), (1_000, 0), (1_000, 1_000), (10, 11)] {
            let printed = print(&lists, &lengths, page_length, place);
            assert_eq!(refused_print_fault(&printed, number, &lengths, place), None);
        }
    }
}

/// Unit lines carry the loader numbers, in the order of the lines, and equal closing slots go by line: here the larger number first.
#[test]
fn loader_numbers() {
    let sheet = Sheet::new(2, &[(1, 2), (1, 2), (1, 1)], &[(1, 1, 0, 2)]).numbered(&[9_999, 12, 4_017]);
    let expected = "(answer plan 3)
(unit 9999 (slot 1) (between 1 2))
(unit 12 (slot 2) (between 1 2))
(unit 4017 (slot 1) (between 1 1))
(slot 1 (count 2) (range 1 2))
(slot 2 (count 1) (range 1 2))
";
    assert_eq!(printed_page(&sheet), expected);
    // Numbers of one to four digits, and of each length on both sides of it.
    let numbers = [1, 9, 10, 99, 100, 999, 1_000, 9_999];
    let sheet = Sheet::new(1, &[(1, 1); 8], &[]).numbered(&numbers);
    let lines: String = numbers.iter().map(|k| format!("(unit {k} (slot 1) (between 1 1))\n")).collect();
    let expected = format!("(answer plan 8)\n{lines}(slot 1 (count 8) (range 8 8))\n");
    assert_eq!(printed_page(&sheet), expected);
}

/// Answers one after the other on one page.
#[test]
fn a_running_place() {
    let mut r = Random::new(seed(303));
    let sheets: Vec<Sheet> = (0..20).map(|_| small_sheet(&mut r)).collect();
    let mut whole = vec![0; 20_000];
    let mut place = 0;
    for sheet in &sheets {
        let (lists, mut rooms) = (Lists::from(sheet), model::calls::Rooms::marked(&Lengths::exact(sheet)));
        let reply = entry::print(model::calls::lent(&lists), rooms.lend(), &mut whole, place);
        assert_eq!(reply.number, 0);
        assert_eq!(page::fault(sheet, enumerated::solve(sheet).as_ref(), &whole[place..reply.place]), None);
        place = reply.place;
    }
    assert!(whole[place..].iter().all(|&b| b == 0));
}

/// The longest answer there is: every loader number of four digits, every unit in slots of two, twenty slots with counts and leasts of
/// two, slot 10 with a count of three, and as many greatests of three as there can be.
#[test]
fn the_longest_page() {
    let rules: Vec<(u16, u16, u16, u16)> = (29..=48).map(|slot| (slot, slot, 10, 300)).collect();
    let numbers: Vec<u16> = (9_700..=9_999).rev().collect();
    let sheet = Sheet::new(48, &[(10, 48); 300], &rules).numbered(&numbers);
    let printed = print(&Lists::from(&sheet), &Lengths::exact(&sheet), 13_065, 0);
    assert_eq!(printed.reply, Printing { number: 0, line: 0, length: 0, place: printed.page.len() });
    assert!(printed.page.len() <= tugrokt::MAX_PAGE);
    assert_eq!(page::fault(&sheet, computed::solve(&sheet).as_ref(), &printed.page), None);
}
