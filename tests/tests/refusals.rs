//! Refusals as the package hands them out: the question and what it was asked of, in numbers and in words.

use model::calls::{lent, owned};
use model::cases;
use model::damage::any_text;
use model::faults::{at_random, KINDS, OF_LISTS};
use model::house::House;
use model::pairs;
use model::program::{run_with, Asked};
use model::questions::{is_count, is_new, is_stretch, is_window, lists_refusal, outgoing_refusal, Lists};
use model::random::{any_sheet, small_sheet, Random};
use model::reading::read;
use model::tally::Tally;
use model::{effort, seed};
use tugrokt::entry::{self, DecideRooms, Rooms, SeatRooms};
use tugrokt::told::{self, Place, Refusal};
use tugrokt::Sheet;

/// The variant of each question of a place, and of those that are asked of the whole.
const OF_A_PLACE: [(usize, fn(Place) -> Refusal); 16] = [
    (2, Refusal::ForeignByte),
    (3, Refusal::NoForm),
    (4, Refusal::NumberForm),
    (5, Refusal::SpanForm),
    (6, Refusal::Span),
    (7, Refusal::Slots),
    (8, Refusal::Count),
    (9, Refusal::TooManyUnits),
    (10, Refusal::TooManyRules),
    (11, Refusal::NoteBrackets),
    (16, Refusal::Loader),
    (17, Refusal::MayBeCarried),
    (18, Refusal::HasLow),
    (19, Refusal::UnequalSpans),
    (20, Refusal::LoaderInBoth),
    (21, Refusal::CrossedCounts),
];
const OF_THE_WHOLE: [(usize, Refusal); 5] = [
    (1, Refusal::TextTooLong),
    (12, Refusal::RoomTooShort),
    (13, Refusal::UnequalLists),
    (15, Refusal::PageTooShort),
    (27, Refusal::UnknownLoader),
];

/// The refusal by this question, of this place.
fn refusal(number: usize, place: Place) -> Refusal {
    let of_the_whole = OF_THE_WHOLE.iter().find(|known| known.0 == number).map(|known| known.1);
    let of_a_place = OF_A_PLACE.iter().find(|known| known.0 == number).map(|known| known.1(place));
    of_the_whole.or(of_a_place).unwrap_or_else(|| panic!("no variant for {number}"))
}

/// The numbers of the questions that docs/RULES.md has in its list of them.
fn questions() -> Vec<usize> {
    let rules = std::fs::read_to_string(concat!(env!("ROOT"), "/docs/RULES.md")).unwrap();
    let section = rules.split("\n## ").find(|section| section.starts_with("Questions\n")).expect("the questions");
    section.lines().filter_map(|line| line.split_once(". ")?.0.parse().ok()).collect()
}

/// Every question has its variant, and every variant its question.
#[test]
fn every_question_has_a_variant() {
    let mut known: Vec<usize> = OF_A_PLACE.map(|known| known.0).into_iter().chain(OF_THE_WHOLE.map(|known| known.0)).collect();
    known.sort();
    assert_eq!(known, questions());
    for number in known {
        for place in [Place::Whole, Place::Line(3), Place::Unit(2), Place::Rule(0)] {
            let refusal = refusal(number, place);
            assert_eq!(refusal.question(), number);
            assert!(!matches!(refusal, Refusal::Other { .. }));
            let asked_of = if OF_THE_WHOLE.iter().any(|known| known.0 == number) { Place::Whole } else { place };
            assert_eq!(refusal.place(), asked_of, "{number}");
        }
    }
    let other = Refusal::Other { question: 14, line: 5 };
    assert_eq!((other.question(), other.place(), other.line(), other.page()), (14, Place::Whole, 5, "(refused 14 (line 5))\n".into()));
}

/// The words have the place as a person counts, what would have to be so, and the number of the question.
#[test]
fn words() {
    for (place, named) in [(Place::Whole, ""), (Place::Line(3), "line 3: "), (Place::Unit(2), "unit 3: "), (Place::Rule(0), "rule 1: ")] {
        for number in questions() {
            let refusal = refusal(number, place);
            let named = if refusal.place() == Place::Whole { "" } else { named };
            assert_eq!(refusal.to_string(), format!("{named}{} (question {number})", refusal.demand()));
        }
    }
    assert_eq!([Place::Whole, Place::Line(7), Place::Unit(0), Place::Rule(9)].map(|p| p.to_string()), ["the whole", "line 7", "unit 1", "rule 10"]);
    let demands: Vec<&str> = questions().into_iter().map(|number| refusal(number, Place::Whole).demand()).collect();
    assert!((1..demands.len()).all(|i| !demands[..i].contains(&demands[i])), "two questions have the same words");
    // The numbers that a question asks for are in its words.
    for (number, asked) in [(1, "16,000"), (2, "32 to 126"), (4, "four"), (6, "1 to 48"), (8, "300"), (9, "300"), (10, "60"), (11, "16"), (16, "1 to 9999")] {
        let demand = refusal(number, Place::Whole).demand();
        assert!(demand.contains(asked), "{number}: {demand}");
    }
}

/// The first unit or rule at which a question is answered no, in the order of docs/RULES.md: 7 of the units comes before 7 of the rules.
fn at_fault(number: usize, lists: &Lists) -> Place {
    let Lists { span, loader, first, last, from, to, low, high } = lists;
    let unit = |fails: &dyn Fn(usize) -> bool| (0..loader.len()).find(|&i| fails(i)).map(Place::Unit);
    let rule = |fails: &dyn Fn(usize) -> bool| (0..from.len()).find(|&i| fails(i)).map(Place::Rule);
    let found = match number {
        7 => unit(&|i| !is_window(first[i], last[i], *span)).or_else(|| rule(&|i| !is_stretch(from[i], to[i], *span))),
        16 => unit(&|i| !is_new(loader[i], &loader[..i])),
        8 => rule(&|i| !is_count(low[i], high[i])),
        _ => return Place::Whole,
    };
    found.unwrap_or_else(|| panic!("{number} has no place"))
}

/// The refusal of lists that the model gives, and by writing to the partner.
fn expected(lists: &Lists) -> (Option<Refusal>, Option<Refusal>) {
    let number = lists_refusal(lists);
    let of_lists = (number != 0).then(|| refusal(number, at_fault(number, lists)));
    let outgoing = outgoing_refusal(House::Partner, lists).map(|r| match r.number {
        17 => refusal(17, Place::Unit(r.line - 1)),
        18 => refusal(18, Place::Rule(r.line - 1)),
        number => refusal(number, at_fault(number, lists)),
    });
    (of_lists, outgoing)
}

/// What the entries reply to lists, in rooms that refuse none: number and line of planning, deciding, seating, printing and both writings.
fn replies(lists: &Lists) -> [(usize, usize); 6] {
    let (units, boundaries) = (lists.first.len(), tugrokt::MAX_BOUNDARIES);
    let (mut table, mut ring) = (vec![0; tugrokt::MAX_CELLS], vec![0; boundaries]);
    let (mut plan, mut earliest, mut latest) = (vec![0; units], vec![0; units], vec![0; units]);
    let mut page = vec![0; tugrokt::MAX_PAGE];
    let (table, ring, plan, earliest, latest) = (&mut table[..], &mut ring[..], &mut plan[..], &mut earliest[..], &mut latest[..]);
    let planned = entry::plan(lent(lists), Rooms { table: &mut *table, plan: &mut *plan, earliest: &mut *earliest, latest: &mut *latest, ring: &mut *ring });
    let decided = entry::decide(lent(lists), DecideRooms { table: &mut *table, ring: &mut *ring });
    let seated = entry::seat(lent(lists), SeatRooms { table: &mut *table, plan: &mut *plan, earliest: &mut *earliest, latest: &mut *latest });
    let printed = entry::print(lent(lists), Rooms { table, plan, earliest, latest, ring }, &mut page, 0);
    let [ours, theirs] = [entry::write_sheet, entry::write_partner].map(|writes| writes(lent(lists), &mut page, 0));
    [
        (planned.number, planned.line),
        (decided.number, decided.line),
        (seated.number, seated.line),
        (printed.number, printed.line),
        (ours.number, ours.line),
        (theirs.number, theirs.line),
    ]
}

/// The refusals that the calls of a sheet hand out, in the same order.
fn handed_out(sheet: &Sheet) -> [Option<Refusal>; 6] {
    let (planned, decided, seated) = (told::plan(sheet).err(), told::decide(sheet).err(), told::seat(sheet).err());
    [planned, decided, seated, told::page(sheet).err(), told::write(sheet).err(), told::write_partner(sheet).err()]
}

/// The refusals of lists have the place that the model finds, and number and line of the entries' replies.
fn hold(what: &str, lists: &Lists) -> Option<Refusal> {
    let (of_lists, outgoing) = expected(lists);
    let got = handed_out(&owned(lists));
    assert_eq!(got, [of_lists, of_lists, of_lists, of_lists, of_lists, outgoing], "{what}");
    let shown = got.map(|refusal| refusal.map_or((0, 0), |refusal| (refusal.question(), refusal.line())));
    assert_eq!(shown, replies(lists), "{what}");
    outgoing
}

#[test]
fn faults_of_each_kind() {
    for (i, (number, fault)) in OF_LISTS.iter().enumerate() {
        let mut lists = Lists::from(&cases::named("P2").sheet);
        lists.from.truncate(2);
        lists.to.truncate(2);
        lists.low.truncate(2);
        lists.high.truncate(2);
        fault(&mut lists);
        let refusal = hold(&format!("fault {i}"), &lists).expect("a fault");
        assert_eq!(refusal.question(), *number, "fault {i}");
    }
}

#[test]
fn faults_at_random() {
    let mut tally = Tally::new("faults of lists", seed(1_121));
    for i in 0..effort(4_000) {
        let mut r = Random::of_case(tally.seed(), i);
        let sheet = if r.chance(70) { small_sheet(&mut r) } else { any_sheet(&mut r) };
        let mut lists = Lists::from(&sheet);
        for _ in 0..r.between(1, 4) {
            let kind = r.below(KINDS);
            at_random(&mut r, kind, sheet.span, &mut lists);
        }
        let refusal = hold(&format!("seed {} case {i}: {lists:?}", tally.seed()), &lists);
        tally.add(refusal.map_or(0, |refusal| refusal.question()), "taken");
    }
    for number in [6, 7, 8, 9, 10, 13, 16, 17, 18] {
        assert!(tally.refused_by(number) > 0, "none refused by {number}");
    }
    assert!(tally.count("taken") > 0);
    tally.report();
}

/// Several units and rules at fault, of which the first is named; and 7 of a rule before 16 and 8 of what comes earlier in the lists.
#[test]
fn the_first_at_fault() {
    let mut sheet = Sheet::new(4);
    for loader in [1, 2, 3, 2, 1] {
        sheet.add_unit(loader, 1, 4);
    }
    for (low, high) in [(0, 1), (2, 1), (3, 1)] {
        sheet.add_rule(1, 4, low, high);
    }
    assert_eq!(told::plan(&sheet), Err(Refusal::Loader(Place::Unit(3))));
    (sheet.loader[3], sheet.loader[4]) = (4, 5);
    assert_eq!(told::decide(&sheet), Err(Refusal::Count(Place::Rule(1))));
    sheet.loader[1] = 0;
    assert_eq!(told::seat(&sheet), Err(Refusal::Loader(Place::Unit(1))));
    sheet.to[2] = 5;
    assert_eq!(told::page(&sheet), Err(Refusal::Slots(Place::Rule(2))));
    sheet.from[0] = 0;
    assert_eq!(told::write(&sheet), Err(Refusal::Slots(Place::Rule(0))));
    sheet.first[4] = 5;
    assert_eq!(told::write_partner(&sheet), Err(Refusal::Slots(Place::Unit(4))));
    assert_eq!(told::write_partner(&sheet).unwrap_err().page(), "(refused 7 (line 0))\n");
}

/// The place of a text's line, 0 being the whole.
fn line(line: usize) -> Place {
    if line == 0 { Place::Whole } else { Place::Line(line) }
}

/// The refusals of texts are those of the model, line for line.
#[test]
fn refused_texts() {
    let mut tally = Tally::new("refused texts", seed(1_122));
    for i in 0..effort(6_000) {
        let mut r = Random::of_case(tally.seed(), i);
        let house = *r.pick(&House::BOTH);
        let mut text = any_text(&mut r, house);
        if r.chance(2) {
            text.resize(r.between(15_999, 16_002), b'x');
        }
        let got = match house {
            House::Ours => told::read(&text),
            House::Partner => told::read_partner(&text),
        };
        let expected = read(house, &text).err().map(|r| refusal(r.number, line(r.line)));
        assert_eq!(got.as_ref().err(), expected.as_ref(), "seed {} case {i}: {}", tally.seed(), String::from_utf8_lossy(&text));
        tally.add(expected.map_or(0, |refusal| refusal.question()), "read");
    }
    for number in [1, 2, 3, 4, 5, 6, 7, 8, 11, 16] {
        assert!(tally.refused_by(number) > 0, "none refused by {number}");
    }
    tally.report();
}

/// A text and the refusal that reading it hands out.
fn refused_sheets() -> Vec<(String, Refusal)> {
    let many = |line: fn(usize) -> String, times: usize| (1..=times).map(line).collect::<String>();
    let sheet = |lines: &str| format!("(sheet 4)\n{lines}");
    vec![
        ("x".repeat(16_001), Refusal::TextTooLong),
        (sheet("(unit 1 (window 1\t2))\n"), Refusal::ForeignByte(Place::Line(2))),
        (sheet("\n"), Refusal::NoForm(Place::Line(2))),
        (sheet("(unit 01 (window 1 2))\n"), Refusal::NumberForm(Place::Line(2))),
        (sheet("(sheet 4)\n"), Refusal::SpanForm(Place::Line(2))),
        ("(note)\n".into(), Refusal::SpanForm(Place::Whole)),
        ("(sheet 49)\n".into(), Refusal::Span(Place::Line(1))),
        (sheet("(note)\n(rule (slots 4 5) (count 0 1))\n"), Refusal::Slots(Place::Line(3))),
        (sheet("(rule (slots 1 2) (count 2 1))\n"), Refusal::Count(Place::Line(2))),
        (sheet(&many(|i| format!("(unit {i} (window 1 4))\n"), 301)), Refusal::TooManyUnits(Place::Line(302))),
        (sheet(&many(|_| "(rule (slots 1 4) (count 0 9))\n".into(), 61)), Refusal::TooManyRules(Place::Line(62))),
        (sheet("(note (\n"), Refusal::NoteBrackets(Place::Line(2))),
        (sheet("(unit 9 (window 1 4))\n(unit 9 (window 1 4))\n"), Refusal::Loader(Place::Line(3))),
    ]
}

/// Two texts, and the refusal that merging them hands out.
fn refused_pairs() -> Vec<(&'static str, &'static str, Refusal)> {
    vec![
        ("(sheet 4)\n", "(note)\n(sheet 5)\n", Refusal::UnequalSpans(Place::Line(2))),
        ("(sheet 4)\n(unit 9 (window 1 4))\n", "(sheet 4)\n(unit 9 (window 1 4))\n", Refusal::LoaderInBoth(Place::Line(2))),
        ("(sheet 4)\n(rule (slots 1 2) (count 0 1))\n", "(sheet 4)\n(rule (slots 1 2) (count 2 3))\n", Refusal::CrossedCounts(Place::Line(2))),
        ("(sheet 4)\n(rule (slots 1 2) (count 0 1))\n(rule (slots 1 2) (count 2 3))\n", "(sheet 4)\n", Refusal::CrossedCounts(Place::Whole)),
    ]
}

/// Every question that a call of the package can be refused by is handed out as its variant: all but those of lent rooms and pages, which are
/// the package's own and long enough.
#[test]
fn a_refusal_by_each_question() {
    let mut handed: Vec<Refusal> = Vec::new();
    for (text, refusal) in refused_sheets() {
        assert_eq!(told::read(text.as_bytes()), Err(refusal));
        handed.push(refusal);
    }
    for (one, two, refusal) in refused_pairs() {
        assert_eq!(told::merge(one.as_bytes(), two.as_bytes()), Err(refusal));
        assert_eq!(told::line_of(one.as_bytes(), two.as_bytes(), 9), Err(refusal));
        handed.push(refusal);
    }
    let mut sheet = Sheet::new(4);
    sheet.add_unit(4_017, 1, 5);
    sheet.add_rule(1, 4, 1, 2);
    handed.extend(told::write_partner(&sheet).err());
    sheet.last[0] = 4;
    handed.extend(told::write_partner(&sheet).err());
    sheet.first.clear();
    handed.extend(told::plan(&sheet).err());
    handed.extend(told::line_of(b"(sheet 4)\n", b"(sheet 4)\n", 9).err());
    let mut numbers: Vec<usize> = handed.iter().map(Refusal::question).collect();
    numbers.sort();
    numbers.dedup();
    assert_eq!(numbers, questions().into_iter().filter(|number| ![12, 15].contains(number)).collect::<Vec<_>>());
    assert!(!handed.iter().any(|refusal| matches!(refusal, Refusal::Other { .. })));
}

/// The page of a refusal is what the program prints: of texts that are read, and that are written for the partner.
#[test]
fn pages_of_the_program() {
    let mut tally = Tally::new("refused by the program", seed(1_123));
    for i in 0..effort(300) {
        let mut r = Random::of_case(tally.seed(), i);
        let asked = *r.pick(&Asked::ALL);
        let text = if asked == Asked::ToPartner { small_sheet(&mut r).text() } else { any_text(&mut r, asked.house()) };
        let refusal = match asked {
            Asked::Plan | Asked::Fits => told::read(&text).err(),
            Asked::Partner | Asked::FromPartner => told::read_partner(&text).err(),
            Asked::ToPartner => told::read(&text).and_then(|sheet| told::write_partner(&sheet)).err(),
        };
        let (page, said) = run_with(asked.words(), &text, &[], None);
        let page = String::from_utf8(page).unwrap();
        let what = format!("seed {} case {i}: {asked:?} {}", tally.seed(), String::from_utf8_lossy(&text));
        match refusal {
            None => assert!(!page.starts_with("(refused "), "{what}"),
            Some(refusal) => assert_eq!(page, refusal.page(), "{what}"),
        }
        // The program says which unit or rule 17 and 18 are of, as the place does.
        let named = refusal.map(|refusal| refusal.place()).filter(|place| matches!(place, Place::Unit(_) | Place::Rule(_)));
        assert_eq!(said, named.map_or(String::new(), |place| format!("{place}\n")), "{what}");
        tally.add(refusal.map_or(0, |refusal| refusal.question()), "taken");
    }
    assert!(tally.refused_by(17) > 0 && tally.refused_by(18) > 0 && tally.refused_by(3) > 0 && tally.count("taken") > 0);
    tally.report();
}

/// The same of two texts; and the text that a refusal is of is the file that the program names.
#[test]
fn pages_of_two_texts() {
    let mut tally = Tally::new("two texts refused by the program", seed(1_124));
    let folder = std::path::Path::new(env!("CARGO_TARGET_TMPDIR")).join("refusals");
    std::fs::create_dir_all(&folder).unwrap();
    let files = ["first.sheet", "second.sheet"].map(|name| folder.join(name).to_str().unwrap().to_string());
    for i in 0..effort(300) {
        let (one, two) = pairs::texts(&mut Random::of_case(tally.seed(), i));
        std::fs::write(&files[0], &one).unwrap();
        std::fs::write(&files[1], &two).unwrap();
        let what = format!("seed {} case {i}", tally.seed());
        let (page, said) = run_with(&["merge", &files[0], &files[1]], b"", &[], None);
        let Err(refusal) = told::merge(&one, &two) else {
            tally.add(0, "merged");
            assert!(page.starts_with(b"(sheet ") && said.is_empty(), "{what}: {said}");
            continue;
        };
        assert_eq!(String::from_utf8(page).unwrap(), refusal.page(), "{what}");
        let text = refusal.text(&one).expect("one of the two");
        assert!(said.contains(&files[text - 1]) && !said.contains(&files[2 - text]), "{what}: {said}, but it is of text {text}");
        tally.add(refusal.question(), "merged");
    }
    for number in [19, 20, 21] {
        assert!(tally.refused_by(number) > 0, "none refused by {number}");
    }
    let (one, two) = cases::PAIR;
    assert_eq!(told::line_of(one.as_bytes(), two.as_bytes(), 4).unwrap_err().text(one.as_bytes()), None);
    tally.report();
}
