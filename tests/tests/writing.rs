//! Writing, our form and the partner's, through the border: reply, place and every byte of the page against the model, refusals by every
//! question, and what is written is read back by the planner as the same lists, place by place.

use model::calls::{marked_u16, write_onto, writing_fault, Written};
use model::house::House;
use model::questions::{outgoing_refusal, written, Lists};
use model::random::{any_sheet, largest_sheet, small_sheet, Random, Reach};
use model::reading::{read, Refusal};
use model::sheet::{carried_place, Sheet, MAX_COUNT, MAX_RULES, MAX_SLOTS, MAX_UNITS};
use model::tally::Tally;
use model::{cases, effort, faults, seed};
use tugrokt::entry::{self, ListRooms, Reading, Writing};

const TEXT: &str = "text";

/// Writes onto a page and counts the case; fails where anything differs from the model.
fn hold(tally: &mut Tally, house: House, lists: &Lists, page_length: usize, place: usize) {
    let case = tally.all();
    tally.add(written(house, lists, page_length, place).map_or_else(|r| r.number, |_| 0), TEXT);
    if let Some(fault) = writing_fault(house, lists, page_length, place) {
        panic!("seed {} case {case}: {house:?}, {page_length} bytes from {place} on: {lists:?}\n{fault}", tally.seed());
    }
}

/// The text that the planner writes for lists that it does not refuse.
fn text_of(house: House, lists: &Lists) -> Vec<u8> {
    let Written { reply, mut page } = write_onto(house, lists, vec![0; tugrokt::MAX_TEXT], 0);
    assert_eq!((reply.number, reply.line), (0, 0), "{house:?} {lists:?}");
    page.truncate(reply.place);
    page
}

/// Reads a text, by the planner, into marked lists that are somewhat longer than these.
fn read_back(house: House, text: &[u8], lists: &Lists) -> (Reading, [Vec<u16>; 7]) {
    let (n, k) = (lists.first.len() + 2, lists.from.len() + 2);
    let mut rooms = [n, n, n, k, k, k, k].map(marked_u16);
    let [loader, first, last, from, to, low, high] = &mut rooms;
    let rooms_lent = ListRooms { loader, first, last, from, to, low, high };
    let reply = match house {
        House::Ours => entry::read(text, rooms_lent),
        House::Partner => entry::read_partner(text, rooms_lent),
    };
    (reply, rooms)
}

/// Lists that are written come back the same, place by place, and no place past them has changed. Says what is wrong.
fn round_trip_fault(house: House, lists: &Lists) -> Option<String> {
    let (reply, rooms) = read_back(house, &text_of(house, lists), lists);
    let (units, rules) = (lists.first.len(), lists.from.len());
    if reply != (Reading { number: 0, line: 0, span: lists.span, units, rules }) {
        return Some(format!("{reply:?}"));
    }
    let Lists { loader, first, last, from, to, low, high, .. } = lists;
    for ((room, list), name) in rooms.iter().zip([loader, first, last, from, to, low, high]).zip(["loader", "first", "last", "from", "to", "low", "high"]) {
        let mut expected = marked_u16(room.len());
        expected[..list.len()].copy_from_slice(list);
        if *room != expected {
            return Some(format!("{name}:\n     got {room:?}\nexpected {expected:?}"));
        }
    }
    None
}

#[test]
fn document_cases() {
    let mut tally = Tally::new("writing the cases of the document", 0);
    for case in cases::all() {
        let lists = Lists::from(&case.sheet);
        for (house, place) in House::BOTH.into_iter().flat_map(|house| [0, 1, 100].map(|place| (house, place))) {
            hold(&mut tally, house, &lists, 1_000, place);
            hold(&mut tally, house, &Lists::from(&case.sheet.kept_by(house)), 1_000, place);
        }
        assert_eq!(text_of(House::Ours, &lists), case.sheet.text(), "{}", case.name);
    }
    tally.report();
    assert!(tally.refused_by(17) > 0 && tally.refused_by(18) > 0);
}

/// The request's own lines, in both forms and both ways.
#[test]
fn a_known_sheet() {
    let (ours, theirs) = (
        "(sheet 7)\n(unit 4017 (window 3 4))\n(unit 1 (window 7 7))\n(rule (slots 1 3) (count 0 2))\n(rule (slots 7 7) (count 0 300))\n",
        "(day 7)\n(job 4017 (start 3) (hours 2))\n(job 1 (start 7) (hours 1))\n(limit (from 1) (hours 3) (most 2))\n(limit (from 7) (hours 1) (most 300))\n",
    );
    for (house, text) in [(House::Ours, ours), (House::Partner, theirs)] {
        let lists = Lists::from(&read(house, text.as_bytes()).unwrap());
        assert_eq!(String::from_utf8(text_of(House::Ours, &lists)).unwrap(), ours);
        assert_eq!(String::from_utf8(text_of(House::Partner, &lists)).unwrap(), theirs);
    }
    // Units come before rules, each in the order of its lists, however the text mixed them; notes go.
    let lines: Vec<&str> = theirs.lines().collect();
    let mixed = ["(note)", lines[0], lines[3], lines[1], lines[4], "(note (a))", lines[2], ""].join("\n");
    let lists = Lists::from(&read(House::Partner, mixed.as_bytes()).unwrap());
    assert_eq!(String::from_utf8(text_of(House::Partner, &lists)).unwrap(), theirs);
}

/// Every window and every stretch of every span, written and read back.
#[test]
fn every_window_and_stretch() {
    for (span, house) in (1..=MAX_SLOTS).flat_map(|span| House::BOTH.map(|house| (span, house))) {
        let end = if house == House::Ours { carried_place(span) } else { span } as u16;
        let windows: Vec<(u16, u16)> = (1..=span as u16).flat_map(|first| (first..=end).map(move |last| (first, last))).collect();
        for part in windows.chunks(MAX_UNITS) {
            assert_eq!(round_trip_fault(house, &Lists::from(&Sheet::new(span, part, &[]))), None, "{house:?}");
        }
        let stretches: Vec<(u16, u16, u16, u16)> =
            windows.iter().filter(|w| w.1 as usize <= span).enumerate().map(|(i, w)| (w.0, w.1, 0, i as u16 % (MAX_COUNT + 1))).collect();
        for part in stretches.chunks(MAX_RULES) {
            assert_eq!(round_trip_fault(house, &Lists::from(&Sheet::new(span, &[], part))), None, "{house:?}");
        }
    }
}

/// Every loader number, and every count there is.
#[test]
fn every_number() {
    let numbers: Vec<u16> = (1..=tugrokt::MAX_LOADER).collect();
    for house in House::BOTH {
        for part in numbers.chunks(MAX_UNITS) {
            let sheet = Sheet::new(3, &vec![(2, 3); part.len()], &[]).numbered(part);
            assert_eq!(round_trip_fault(house, &Lists::from(&sheet)), None, "{house:?}");
        }
        let counts: Vec<(u16, u16, u16, u16)> = (0..=MAX_COUNT).map(|high| (2, 3, if house == House::Ours { high / 2 } else { 0 }, high)).collect();
        for part in counts.chunks(MAX_RULES) {
            assert_eq!(round_trip_fault(house, &Lists::from(&Sheet::new(3, &[], part))), None, "{house:?}");
        }
    }
}

/// Sheets at random, as each house can have them: the page is the model's, the lists come back, and a text that goes to the other house and
/// back is the text that was written.
#[test]
fn there_and_back() {
    let mut tally = Tally::new("writing sheets and reading them back", seed(601));
    for i in 0..effort(12_000) {
        let (mut r, house) = (Random::of_case(seed(601), i), House::BOTH[i % 2]);
        let sheet = match i % 40 {
            0 | 1 => largest_sheet(&mut r, 1, 48, Reach::PastWave),
            2..=9 => any_sheet(&mut r),
            _ => small_sheet(&mut r),
        };
        let lists = Lists::from(&sheet.kept_by(house));
        let (place, more) = (r.below(30), r.below(30));
        let end = place + lists.sheet().text_for(house).len();
        hold(&mut tally, house, &lists, end + more, place);
        hold(&mut tally, house, &lists, end, place);
        hold(&mut tally, house, &lists, end - 1, place);
        // Of sheets with units that may be carried, or with lows, most are refused on their way to the partner.
        hold(&mut tally, House::Partner, &Lists::from(&sheet), tugrokt::MAX_TEXT, 0);
        assert_eq!(round_trip_fault(house, &lists), None, "seed {} case {i}: {lists:?}", seed(601));
        let theirs = Lists::from(&sheet.kept_by(House::Partner));
        let texts = House::BOTH.map(|house| text_of(house, &theirs));
        for (from, to) in [(0, 1), (1, 0)] {
            let there = Lists::from(&read(House::BOTH[from], &texts[from]).unwrap());
            assert_eq!(text_of(House::BOTH[to], &there), texts[to], "seed {} case {i}", seed(601));
        }
    }
    tally.report();
    for number in [15, 17, 18] {
        assert!(20 * tally.refused_by(number) > tally.all(), "{number} refuses too seldom");
    }
    assert!(3 * tally.count(TEXT) > tally.all());
}

/// A page of every length up to the text's own and some more, and places up to the page's end and past it.
#[test]
fn pages_that_do_not_hold_the_text() {
    let mut tally = Tally::new("writing onto pages of every length", 0);
    for (case, house) in cases::all().iter().flat_map(|case| House::BOTH.map(|house| (case, house))) {
        let lists = Lists::from(&case.sheet.kept_by(house));
        let whole = lists.sheet().text_for(house).len();
        for length in 0..whole + 3 {
            for place in [0, 1, 17] {
                hold(&mut tally, house, &lists, length, place);
                hold(&mut tally, house, &lists, length + place, place);
            }
            hold(&mut tally, house, &lists, 1_000, 1_000 - length);
        }
        for place in [999, 1_000, 1_001, 2_000, 1 << 32, usize::MAX - whole, usize::MAX - whole + 1, usize::MAX - 1, usize::MAX] {
            hold(&mut tally, house, &lists, 1_000, place);
            hold(&mut tally, house, &lists, 0, place);
        }
    }
    tally.report();
    assert!(tally.count(TEXT) > 0 && tally.refused_by(15) > 0);
}

/// Pages about as long as the longest text, from which on a text is written in place: every byte behind it and before its place stays.
#[test]
fn pages_that_just_hold_every_text() {
    let mut tally = Tally::new("writing onto pages about as long as the longest text", 0);
    for (case, house) in cases::all().iter().flat_map(|case| House::BOTH.map(|house| (case, house))) {
        let lists = Lists::from(&case.sheet.kept_by(house));
        for length in tugrokt::MAX_TEXT - 2..=tugrokt::MAX_TEXT + 20 {
            for place in [0, 1, 2, 17, 18, tugrokt::MAX_TEXT - 1, length, usize::MAX - tugrokt::MAX_TEXT, usize::MAX] {
                hold(&mut tally, house, &lists, length, place);
            }
        }
    }
    tally.report();
    assert!(tally.count(TEXT) > 0 && tally.refused_by(15) > 0);
}

/// The longest texts: exactly as long as is said, and a page of that length holds them, from its front on.
#[test]
fn the_longest_texts() {
    let numbers: Vec<u16> = (9_700..=9_999).rev().collect();
    for (house, low, length) in [(House::Ours, 300, 10_331), (House::Partner, 0, 12_309)] {
        let sheet = Sheet::new(48, &[(10, 48); 300], &[(11, 48, low, 300); 60]).numbered(&numbers);
        let lists = Lists::from(&sheet);
        assert_eq!(sheet.text_for(house).len(), length);
        for (page_length, place) in [(length, 0), (length - 1, 0), (length, 1), (tugrokt::MAX_TEXT, 0), (tugrokt::MAX_TEXT + 7, 7), (20_000, 20_000 - length)] {
            assert_eq!(writing_fault(house, &lists, page_length, place), None, "{house:?}");
        }
        assert_eq!(round_trip_fault(house, &lists), None);
    }
    assert_eq!(tugrokt::MAX_TEXT, 12_309);
}

/// The shortest: a span alone.
#[test]
fn sheets_without_units_and_rules() {
    for span in 1..=MAX_SLOTS {
        let lists = Lists::from(&Sheet::new(span, &[], &[]));
        for (house, text) in [(House::Ours, format!("(sheet {span})\n")), (House::Partner, format!("(day {span})\n"))] {
            assert_eq!(text_of(house, &lists), text.as_bytes());
            assert_eq!(round_trip_fault(house, &lists), None);
        }
    }
}

/// Texts of both houses one after the other on one page; a refused call between them leaves page and place.
#[test]
fn a_running_place() {
    let mut r = Random::new(seed(602));
    let (mut page, mut place, mut expected) = (vec![0; 20_000], 0, Vec::new());
    for i in 0..40 {
        let house = House::BOTH[i % 2];
        let sheet = small_sheet(&mut r).kept_by(house);
        let lists = Lists::from(&sheet);
        let mut refused = lists.clone();
        refused.span = 0;
        for (lists, number) in [(&refused, 6), (&lists, 0)] {
            let got = write_onto(house, lists, page, place);
            page = got.page;
            if number == 0 {
                expected.extend(sheet.text_for(house));
            }
            assert_eq!(got.reply, Writing { number, line: 0, place: expected.len() });
            place = got.reply.place;
            assert_eq!(page[..place], expected);
            assert!(page[place..].iter().all(|&b| b == 0));
        }
    }
}

/// 17 names the first unit that may be carried by its place in the lists, and 18 the first rule whose low is not 0: one at fault in every
/// place of few or many, and several.
#[test]
fn places_of_17_and_18() {
    let mut tally = Tally::new("writing lists that the partner cannot have", seed(603));
    let mut r = Random::new(seed(603));
    let mut held = |lists: &Lists, number: usize, line: usize| {
        assert_eq!(outgoing_refusal(House::Partner, lists), Some(Refusal { number, line }));
        hold(&mut tally, House::Partner, lists, tugrokt::MAX_TEXT, 0);
        // 15 comes after them.
        hold(&mut tally, House::Partner, lists, 0, 0);
        hold(&mut tally, House::Partner, lists, 5, 9);
        // Our own form has no such questions.
        assert_eq!(outgoing_refusal(House::Ours, lists), None);
        hold(&mut tally, House::Ours, lists, tugrokt::MAX_TEXT, 0);
    };
    for span in [1, 2, 7, 47, 48] {
        for (n, k) in [(1, 1), (2, 3), (9, 9), (255, 59), (256, 60), (300, 60)] {
            let end = span as u16;
            let sheet = Sheet::new(span, &vec![(1, end); n], &vec![(1, end, 0, 300); k]);
            let plain = Lists::from(&sheet);
            assert_eq!(outgoing_refusal(House::Partner, &plain), None);
            let step = if span == 7 { 1 } else { n.div_ceil(10) };
            for at in (0..n).step_by(step).chain([n - 1]) {
                let mut lists = plain.clone();
                lists.last[at] = end + 1;
                held(&lists, 17, at + 1);
                let later = r.between(at, n - 1);
                lists.last[later] = end + 1;
                (lists.first[later], lists.low[r.below(k)]) = (end, 1);
                held(&lists, 17, at + 1);
            }
            let step = if span == 7 { 1 } else { k.div_ceil(10) };
            for at in (0..k).step_by(step).chain([k - 1]) {
                let mut lists = plain.clone();
                lists.low[at] = *r.pick(&[1, 2, 255, 256, 300]);
                held(&lists, 18, at + 1);
                lists.low[r.between(at, k - 1)] = 300;
                held(&lists, 18, at + 1);
            }
        }
    }
    tally.report();
}

/// Every refusal alone, and in pairs the one that is asked first: the lists' questions, then 17, 18 and 15.
#[test]
fn refusals_alone_and_in_pairs() {
    let order = [13, 6, 9, 10, 7, 16, 8, 17, 18, 15];
    let rank = |q: usize| order.iter().position(|&o| o == q).unwrap();
    let sheet = Sheet::new(5, &[(1, 3), (2, 5)], &[(1, 2, 0, 2), (2, 4, 0, 2)]).numbered(&[4_017, 12]);
    let of_partner: [faults::Fault; 4] =
        [(17, |l| l.last[0] = carried_place(5) as u16), (17, |l| l.last[1] = carried_place(5) as u16), (18, |l| l.low[0] = 2), (18, |l| l.low[1] = 1)];
    let of_page: [faults::Fault; 1] = [(15, |_| ())];
    let all: Vec<faults::Fault> = faults::OF_LISTS.into_iter().chain(of_partner).chain(of_page).collect();
    let mut tally = Tally::new("writing refusals alone and in pairs", 0);
    for (one, make_one) in &all {
        for (other, make_other) in &all {
            let mut lists = Lists::from(&sheet);
            // Lists are changed in place first and made longer or shorter after, so that both changes can be made.
            let (early, late) = if rank(*one) > rank(*other) { (make_one, make_other) } else { (make_other, make_one) };
            early(&mut lists);
            late(&mut lists);
            let length = if [*one, *other].contains(&15) { 20 } else { 20_000 };
            let number = written(House::Partner, &lists, length, 0).map_or_else(|r| r.number, |_| 0);
            if rank(*one) != rank(*other) {
                assert_eq!(rank(number), rank(*one).min(rank(*other)), "{one} and {other}");
            }
            for house in House::BOTH {
                hold(&mut tally, house, &lists, length, 0);
                hold(&mut tally, house, &lists, length, 11);
                hold(&mut tally, house, &lists, length, length + 1);
            }
        }
    }
    tally.report();
    for number in order {
        assert!(tally.refused_by(number) > 0, "{number} refuses nothing");
    }
}

/// Lists with faults at random, also in the middle and at the end of long lists, onto pages that are long enough or nearly.
#[test]
fn refusals_at_random() {
    let mut tally = Tally::new("writing lists and pages at random", seed(604));
    for i in 0..effort(40_000) {
        let (mut r, house) = (Random::of_case(seed(604), i), House::BOTH[i % 3 % 2]);
        let sheet = if r.chance(90) { small_sheet(&mut r) } else { any_sheet(&mut r) };
        let kept = if r.chance(70) { sheet.kept_by(House::Partner) } else { sheet };
        let mut lists = Lists::from(&kept);
        for _ in 0..r.between(0, 2) {
            let kind = r.below(faults::KINDS);
            faults::at_random(&mut r, kind, kept.span, &mut lists);
        }
        let place = r.below(20);
        let needed = outgoing_refusal(house, &lists).map_or_else(|| lists.sheet().text_for(house).len(), |_| 50);
        let length = if r.chance(20) { r.below(needed + place) } else { needed + place + r.below(3) };
        hold(&mut tally, house, &lists, length, place);
        if outgoing_refusal(house, &lists).is_none() {
            assert_eq!(round_trip_fault(house, &lists), None, "seed {} case {i}: {lists:?}", seed(604));
        }
    }
    tally.report();
    for number in [6, 7, 8, 9, 10, 13, 15, 16, 17, 18] {
        assert!(2_000 * tally.refused_by(number) > tally.all(), "{number} refuses too seldom");
    }
    assert!(5 * tally.count(TEXT) > tally.all());
}
