//! The calls that tell more (`tugrokt::told`), a plan's counts, and calls with wild input, none of which panics. `rings.rs` has the rings, `refusals.rs` the
//! refusals, `bindings.rs` the calls that tell numbers.

use std::panic::catch_unwind;

use model::calls::owned;
use model::cases::{self, Says};
use model::damage::any_text;
use model::house::House;
use model::pairs::texts as texts_of_two;
use model::questions::{lists_refusal, partner_refusal, Lists};
use model::random::{any_sheet, small_sheet, tied_sheet, Random};
use model::tally::{self, Tally};
use model::{computed, effort, enumerated, page, seed, sheet};
use tugrokt::told::{self, Answer, Decision, Place, Refusal, Ring};
use tugrokt::{House as Form, Plan, Query, Sheet};

#[test]
fn document_cases() {
    for case in cases::all() {
        let sheet = told::read(&case.sheet.text()).unwrap();
        assert_eq!(sheet.loader, case.sheet.loaders(), "{}", case.name);
        match (told::plan(&sheet).unwrap(), case.says) {
            (Answer::Plan(plan), Says::Plan(slots, windows)) => {
                assert_eq!(plan.slot, slots);
                let between: Vec<(u16, u16)> = plan.earliest.into_iter().zip(plan.latest).collect();
                assert_eq!(between, windows);
            }
            (Answer::None(ring), Says::None(boundaries, shortfall)) => {
                assert_eq!(case.sheet.ring_fault(&ring.boundaries), None);
                assert_eq!(ring.shortfall as i64, shortfall);
                assert!(boundaries.is_none_or(|boundaries| boundaries == ring.boundaries), "{}", case.name);
            }
            (answer, says) => panic!("{}: {answer:?}, but {says:?}", case.name),
        }
    }
}

/// Deciding and seating give what planning gives: the counts or the ring, the plan or nothing. With the plan comes the number of looks.
#[test]
fn decisions_and_seats() {
    for case in cases::all() {
        let sheet = told::read(&case.sheet.text()).unwrap();
        match (told::plan(&sheet).unwrap(), told::decide(&sheet).unwrap(), told::seat(&sheet).unwrap()) {
            (Answer::Plan(plan), Decision::Fits(counts), Some(seated)) => {
                assert_eq!((&counts, &seated.plan), (&plan.counts, &plan), "{}", case.name);
                let solved = enumerated::solve(&case.sheet).unwrap();
                assert_eq!(seated.looked, case.sheet.looked(&solved.plan), "{}", case.name);
                let w = case.sheet.boundaries();
                for (first, last) in (1..w).flat_map(|first| (first..w).map(move |last| (first, last))) {
                    let range = (-solved.table[last * w + first - 1] as u16, solved.table[(first - 1) * w + last] as u16);
                    assert_eq!((counts.range(first, last), plan.range(first, last)), (range, range), "{}", case.name);
                }
            }
            (Answer::None(ring), Decision::None(decided), None) => assert_eq!(decided, ring, "{}", case.name),
            other => panic!("{}: {other:?}", case.name),
        }
    }
}

#[test]
fn pages() {
    for case in cases::all() {
        let page = told::page(&told::read(&case.sheet.text()).unwrap()).unwrap();
        assert_eq!(page::fault(&case.sheet, enumerated::solve(&case.sheet).as_ref(), &page), None, "{}", case.name);
    }
    assert_eq!(told::page(&Sheet::new(usize::MAX)), Err(Refusal::Span(Place::Whole)));
}

/// Sheets are written and read back, in our form and in the partner's.
#[test]
fn texts() {
    for case in cases::all() {
        let text = case.sheet.text();
        let sheet = told::read(&text).unwrap();
        assert_eq!(told::write(&sheet), Ok(text), "{}", case.name);
        let theirs = match partner_refusal(&case.sheet) {
            None => Ok(case.sheet.text_for(House::Partner)),
            Some(refusal) if refusal.number == 17 => Err(Refusal::MayBeCarried(Place::Unit(refusal.line - 1))),
            Some(refusal) => Err(Refusal::HasLow(Place::Rule(refusal.line - 1))),
        };
        assert_eq!(told::write_partner(&sheet), theirs, "{}", case.name);
        let kept = case.sheet.kept_by(House::Partner);
        let sheet = told::read_partner(&kept.text_for(House::Partner)).unwrap();
        assert_eq!(sheet, told::read(&kept.text()).unwrap(), "{}", case.name);
        assert_eq!(told::read_partner(&told::write_partner(&sheet).unwrap()), Ok(sheet), "{}", case.name);
    }
    // The longest text there is.
    let longest = sheet::Sheet::new(48, &[(10, 48); 300], &[(10, 48, 0, 300); 60]).numbered(&(9_700..=9_999).collect::<Vec<_>>());
    let text = told::read(&longest.text()).unwrap().write_partner().unwrap();
    assert_eq!((text.len(), text), (tugrokt::MAX_TEXT, longest.text_for(House::Partner)));
}

/// Two sheets become one; a unit's line is a part of the text that holds it, with the lifetime of both.
#[test]
fn two_sheets() {
    let (one, two) = cases::PAIR;
    let (one, two) = (one.as_bytes().to_vec(), two.as_bytes().to_vec());
    let merged = told::merge(&one, &two).unwrap();
    assert_eq!(told::write(&merged), Ok(cases::MERGED.into()));
    assert_eq!(told::read(cases::MERGED.as_bytes()), Ok(merged.clone()));
    assert!(matches!(told::plan(&merged), Ok(Answer::Plan(_))));
    let lines: Vec<&[u8]> = merged.loader.iter().map(|&loader| told::line_of(&one, &two, loader).unwrap()).collect();
    for (line, text) in lines.iter().zip([&one, &one, &two]) {
        let (part, whole) = (line.as_ptr_range(), text.as_ptr_range());
        assert!(whole.start <= part.start && part.end <= whole.end, "the line lies in its text");
    }
    assert_eq!(lines, [&b"(unit 4017 (window 1 4))"[..], b"(unit 12 (window 7 8))", b"(unit 40 (window 2 3))"]);
    assert_eq!(told::line_of(&one, &two, 401), Err(Refusal::UnknownLoader));
    assert_eq!(told::line_of(&one, b"(sheet 8)\n", 12), Err(Refusal::UnequalSpans(Place::Line(1))));
    assert_eq!(told::merge(&one, &one), Err(Refusal::LoaderInBoth(Place::Line(2))));
    assert_eq!(told::merge(b"", &two), Err(Refusal::SpanForm(Place::Whole)));
}

/// A carried unit is told from one with a slot, and stretches may end with the carried place.
#[test]
fn carried_units() {
    let mut sheet = Sheet::new(3);
    for loader in [4_017, 12] {
        sheet.add_unit(loader, 1, 4);
    }
    sheet.add_rule(1, 3, 1, 1);
    let Answer::Plan(plan) = told::plan(&sheet).unwrap() else { panic!("P12 has a plan") };
    assert_eq!(plan.slot.iter().map(|&slot| slot as usize).collect::<Vec<_>>(), [1, tugrokt::carried_place(3)]);
    assert_eq!([0, 1].map(|unit| plan.is_carried(unit)), [false, true]);
    assert_eq!([plan.range(1, 3), plan.range(4, 4), plan.range(3, 4), plan.range(1, 4)], [(1, 1), (1, 1), (1, 2), (2, 2)]);
    assert_eq!(sheet.page().unwrap(), cases::P12_PAGE.replace("unit 1 ", "unit 4017 ").replace("unit 2 ", "unit 12 ").as_bytes());
    let Decision::Fits(counts) = told::decide(&sheet).unwrap() else { panic!("P12 fits") };
    assert_eq!([counts.range(1, 3), counts.range(4, 4), counts.range(3, 4), counts.range(1, 4)], [(1, 1), (1, 1), (1, 2), (2, 2)]);
    let seated = told::seat(&sheet).unwrap().unwrap();
    // One look for slot 1, and both units for the carried place.
    assert_eq!((seated.plan.is_carried(1), seated.looked), (true, 1 + 2));
    sheet.add_unit(1, 4, 4);
    assert_eq!(told::plan(&sheet), Err(Refusal::Slots(Place::Unit(2))));
}

#[test]
fn refusals() {
    assert_eq!(told::read(b""), Err(Refusal::SpanForm(Place::Whole)));
    assert_eq!(told::read(b"(sheet 4)\n(unit 1 (window 4 3))\n"), Err(Refusal::Slots(Place::Line(2))));
    let again = b"(sheet 4)\n(unit 12 (window 1 3))\n(note)\n(unit 12 (window 1 4))\n";
    assert_eq!(told::read(again), Err(Refusal::Loader(Place::Line(4))));
    assert_eq!(told::plan(&Sheet::new(0)), Err(Refusal::Span(Place::Whole)));
    assert_eq!(told::plan(&Sheet::new(usize::MAX)), Err(Refusal::Span(Place::Whole)));
    for span in [0, 49, usize::MAX] {
        assert_eq!(told::decide(&Sheet::new(span)), Err(Refusal::Span(Place::Whole)));
        assert_eq!(told::seat(&Sheet::new(span)), Err(Refusal::Span(Place::Whole)));
    }
    let mut lopsided = Sheet::new(4);
    lopsided.first.push(1);
    assert_eq!(told::plan(&lopsided), Err(Refusal::UnequalLists));
    lopsided.last.push(1);
    assert_eq!(told::plan(&lopsided), Err(Refusal::UnequalLists), "no loader number");
    lopsided.loader.push(tugrokt::MAX_LOADER);
    assert!(told::plan(&lopsided).is_ok());
    lopsided.add_unit(tugrokt::MAX_LOADER, 1, 4);
    assert_eq!(told::plan(&lopsided), Err(Refusal::Loader(Place::Unit(1))));
    lopsided.loader[1] = tugrokt::MAX_LOADER + 1;
    assert_eq!(told::page(&lopsided), Err(Refusal::Loader(Place::Unit(1))));
    assert_eq!(told::decide(&lopsided), Err(Refusal::Loader(Place::Unit(1))));
    assert_eq!(told::seat(&lopsided), Err(Refusal::Loader(Place::Unit(1))));
    assert_eq!(told::write(&lopsided), Err(Refusal::Loader(Place::Unit(1))));
    assert_eq!(told::write_partner(&lopsided), Err(Refusal::Loader(Place::Unit(1))));
    assert_eq!(Refusal::Slots(Place::Line(3)).page(), "(refused 7 (line 3))\n");
}

#[test]
fn refusals_of_the_partner() {
    assert_eq!(told::read_partner(b""), Err(Refusal::SpanForm(Place::Whole)));
    assert_eq!(told::read_partner(b"(sheet 4)\n"), Err(Refusal::NoForm(Place::Line(1))));
    assert_eq!(told::read(b"(day 4)\n"), Err(Refusal::NoForm(Place::Line(1))));
    assert_eq!(told::read_partner(b"(day 4)\n(job 1 (start 4) (hours 2))\n"), Err(Refusal::Slots(Place::Line(2))));
    for span in [0, 49, usize::MAX] {
        assert_eq!(told::write(&Sheet::new(span)), Err(Refusal::Span(Place::Whole)));
        assert_eq!(told::write_partner(&Sheet::new(span)), Err(Refusal::Span(Place::Whole)));
    }
    let mut sheet = Sheet::new(4);
    sheet.add_unit(4_017, 1, 4);
    sheet.add_unit(12, 1, 5);
    sheet.add_rule(1, 4, 1, 1);
    assert_eq!(told::write_partner(&sheet), Err(Refusal::MayBeCarried(Place::Unit(1))));
    sheet.last[1] = 4;
    assert_eq!(told::write_partner(&sheet), Err(Refusal::HasLow(Place::Rule(0))));
    sheet.low[0] = 0;
    assert!(told::write_partner(&sheet).is_ok());
}

/// A sheet of any kind.
fn drawn(r: &mut Random, i: usize) -> sheet::Sheet {
    match i % 4 {
        0 | 1 => small_sheet(r),
        2 => tied_sheet(r),
        _ => any_sheet(r),
    }
}

/// The model's seats of a sheet that has a plan.
fn seats(sheet: &sheet::Sheet) -> Option<Vec<u16>> {
    let table = computed::closure(sheet)?;
    Some(computed::seats(sheet, &table[..sheet.boundaries()]))
}

/// The counts of the slots that the page of a plan has.
fn counts_on(page: &[u8]) -> Vec<usize> {
    let Some(page::Page::Plan { slots, .. }) = page::parse(page) else { panic!("{}", String::from_utf8_lossy(page)) };
    slots.iter().map(|slot| slot.count as usize).collect()
}

/// A plan's counts: of each slot as its page has it, and of each stretch as the model's plan has it.
#[test]
fn counts_of_plans() {
    let mut tally = Tally::new("counts of plans", seed(1_111));
    for i in 0..effort(3_000) {
        let sheet = drawn(&mut Random::of_case(tally.seed(), i), i);
        let what = format!("seed {} case {i}: {sheet:?}", tally.seed());
        let package = owned(&Lists::from(&sheet));
        let (answer, seats) = (told::plan(&package).unwrap(), seats(&sheet));
        let (Answer::Plan(plan), Some(seats)) = (&answer, &seats) else {
            assert!(matches!(answer, Answer::None(_)) && seats.is_none(), "{what}");
            tally.add(0, tally::NONE);
            continue;
        };
        let slots: Vec<usize> = (1..=sheet.span).map(|slot| plan.count(slot, slot)).collect();
        assert_eq!(slots, counts_on(&package.page().unwrap()), "{what}");
        for (first, last) in (1..=sheet.carried_place()).flat_map(|first| (first..=sheet.carried_place()).map(move |last| (first, last))) {
            assert_eq!(plan.count(first, last), enumerated::count(seats, first - 1, last), "{what}: {first} to {last}");
        }
        let carried = (0..seats.len()).filter(|&i| plan.is_carried(i)).count();
        assert_eq!(plan.count(sheet.carried_place(), sheet.carried_place()), carried, "{what}");
        assert_eq!([plan.count(0, usize::MAX), plan.count(2, 1), plan.count(usize::MAX, 0)], [seats.len(), 0, 0], "{what}");
        tally.add(0, if carried > 0 { tally::CARRIES } else { tally::PLAN });
    }
    assert!(tally.count(tally::CARRIES) > 0 && tally.count(tally::PLAN) > 0);
    tally.report();
}

/// Numbers on both sides of every limit, and at random.
fn wild_number(r: &mut Random) -> u16 {
    if r.chance(50) { r.below(1 << 16) as u16 } else { *r.pick(&[0, 1, 2, 3, 47, 48, 49, 50, 300, 301, 9_999, 10_000, 32_768, 65_535]) }
}

/// Lists of any lengths, equal ones or not, with any numbers in them.
fn wild_lists(r: &mut Random) -> Lists {
    let span = if r.chance(60) { r.between(1, 48) } else { *r.pick(&[0, 49, 50, 1 << 16, 1 << 32, usize::MAX - 2, usize::MAX - 1, usize::MAX]) };
    let lengths = [0, 1, 2, 5, 59, 60, 61, 299, 300, 301, 1_000];
    let (units, rules, equal) = (*r.pick(&lengths), *r.pick(&lengths), r.chance(70));
    let mut list = |length: usize| {
        let length = if equal || r.chance(80) { length } else { *r.pick(&lengths) };
        (0..length).map(|_| wild_number(r)).collect()
    };
    let (loader, first, last) = (list(units), list(units), list(units));
    Lists { span, loader, first, last, from: list(rules), to: list(rules), low: list(rules), high: list(rules) }
}

/// The questions that refuse the calls on a sheet, 0 for none.
fn refused_by(sheet: &Sheet) -> [usize; 5] {
    fn number<T>(answer: Result<T, Refusal>) -> usize {
        answer.map_or_else(|refusal| refusal.question(), |_| 0)
    }
    [number(told::plan(sheet)), number(told::decide(sheet)), number(told::seat(sheet)), number(told::page(sheet)), number(told::write(sheet))]
}

/// No lists make a call panic: they are refused as the model says, or answered. Nor does a page beside them, or their span.
#[test]
fn wild_sheets() {
    let mut tally = Tally::new("wild sheets", seed(1_112));
    for i in 0..effort(3_000) {
        let lists = wild_lists(&mut Random::of_case(tally.seed(), i));
        let sheet = owned(&lists);
        let number = lists_refusal(&lists);
        tally.add(number, tally::PLAN);
        assert_eq!(refused_by(&sheet), [number; 5], "seed {} case {i}: {lists:?}", tally.seed());
        let partner = told::write_partner(&sheet);
        assert!(number == 0 || partner.is_err_and(|refusal| refusal.question() == number));
        assert!(tugrokt::carried_place(sheet.span) >= sheet.span && tugrokt::boundaries(sheet.span) >= sheet.span);
        for page in [cases::P4_PAGE, cases::P2_PAGE, "(answer none)\n(at-least 65535 (slots 0 65535))\n(at-most 0 (slots 65535 0))\n(shortfall 65535)\n", ""] {
            let _ = Ring::on_page(&sheet, page.as_bytes());
        }
    }
    for number in [13, 6, 9, 10, 7] {
        assert!(tally.refused_by(number) > 0, "none refused by {number}");
    }
    tally.report();
}

/// Bytes that are no text, and such as are damaged sheets.
fn wild_text(r: &mut Random) -> Vec<u8> {
    if r.chance(70) {
        let house = *r.pick(&House::BOTH);
        return any_text(r, house);
    }
    let length = *r.pick(&[0, 1, 10, 100, 15_999, 16_000, 16_001, 40_000]);
    (0..length).map(|_| r.below(256) as u8).collect()
}

/// No texts make a call panic. What reading refuses, the answer's page has; what it takes, is answered.
#[test]
fn wild_texts() {
    let mut tally = Tally::new("wild texts", seed(1_113));
    for i in 0..effort(1_500) {
        let mut r = Random::of_case(tally.seed(), i);
        let (one, two) = if r.chance(50) { (wild_text(&mut r), wild_text(&mut r)) } else { texts_of_two(&mut r) };
        let what = || format!("seed {} case {i}: {}", seed(1_113), String::from_utf8_lossy(&one));
        for (form, read) in [(Form::Ours, told::read(&one)), (Form::Partner, told::read_partner(&one))] {
            let [plan, fits] = [Query::Plan, Query::Fits].map(|query| tugrokt::answer(form, query, &one));
            let expected = read.as_ref().map_err(|refusal| *refusal).and_then(told::page);
            assert_eq!(plan, expected.clone().unwrap_or_else(|refusal| refusal.page().into_bytes()), "{}", what());
            let has_plan = expected.is_ok_and(|page| page.starts_with(b"(answer plan "));
            assert_eq!((fits == plan, fits.starts_with(b"(answer fits ")), (!has_plan, has_plan), "{}", what());
        }
        let loader = wild_number(&mut r);
        tally.add(told::read(&one).map_or_else(|refusal| refusal.question(), |_| 0), "read");
        if let Err(refusal) = told::merge(&one, &two) {
            assert_eq!(refusal.text(&one) == Some(1), told::read(&one).is_err() || refusal == Refusal::CrossedCounts(Place::Whole), "{}", what());
            assert_eq!(told::line_of(&one, &two, loader), Err(refusal), "{}", what());
        } else {
            assert!(told::line_of(&one, &two, loader).is_ok_and(|line| !line.is_empty()) || loader_is_in_neither(&one, &two, loader));
        }
    }
    assert!(tally.count("read") > 0);
    tally.report();
}

/// Is this the loader number of no unit of two sheets?
fn loader_is_in_neither(one: &[u8], two: &[u8], loader: u16) -> bool {
    let unknown = told::line_of(one, two, loader) == Err(Refusal::UnknownLoader);
    unknown && [one, two].iter().all(|text| !told::read(text).unwrap().loader.contains(&loader))
}

/// The plan of a sheet with two units on three slots, of which the second is carried.
fn some_plan() -> Plan {
    let mut sheet = Sheet::new(3);
    sheet.add_unit(4_017, 1, 3);
    sheet.add_unit(12, 1, 4);
    sheet.add_rule(1, 3, 0, 1);
    let Ok(Answer::Plan(plan)) = told::plan(&sheet) else { panic!("one is carried") };
    plan
}

/// What is documented to panic does: ranges of what is no stretch, and units that the sheet does not have. All else does not.
#[test]
fn documented_panics() {
    let plan = some_plan();
    let places = [0, 1, 2, 3, 4, 5, 6, 65_535, 65_536, usize::MAX - 1, usize::MAX];
    for (first, last) in places.iter().flat_map(|&first| places.map(|last| (first, last))) {
        let is_stretch = 1 <= first && first <= last && last <= 4;
        assert_eq!(catch_unwind(|| plan.range(first, last)).is_ok(), is_stretch, "{first} to {last}");
        assert_eq!(catch_unwind(|| plan.counts.range(first, last)).is_ok(), is_stretch, "{first} to {last}");
        assert_eq!(plan.count(first, last), plan.slot.iter().filter(|&&slot| first <= slot as usize && slot as usize <= last).count());
    }
    for unit in [0, 1, 2, 3, usize::MAX] {
        assert_eq!(catch_unwind(|| plan.is_carried(unit)).ok(), [false, true].get(unit).copied(), "unit {unit}");
    }
}
