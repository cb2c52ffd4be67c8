//! Planning from lists, and deciding and seating from the same ones, through the border: reply and every place of every room against the
//! model, and the three calls against each other. (`deciding.rs` has what only deciding and seating do.)

use model::calls::planning_fault;
use model::questions::{lists_refusal, planning_refusal, Lengths, Lists};
use model::random::{any_sheet, largest_sheet, loaders, paper_sheet, sheet_up_to, small_sheet, Random, Reach};
use model::sheet::{carried_place, Sheet, Solved, Unit, MAX_SLOTS};
use model::tally::{self, Tally, CARRIES, NONE, PLAN};
use model::{cases, computed, effort, enumerated, faults, seed};

/// The lengths that are asked for, with some places more here and there.
fn roomy(r: &mut Random, sheet: &Sheet) -> Lengths {
    let mut more = |length: usize| if r.chance(50) { length } else { length + r.below(6) };
    let l = Lengths::exact(sheet);
    Lengths {
        table: more(l.table),
        plan: more(l.plan),
        earliest: more(l.earliest),
        latest: more(l.latest),
        ring: more(l.ring),
    }
}

/// Plans, decides and seats, counts the case by the answer of planning, and fails where anything differs from the model.
fn hold(tally: &mut Tally, lists: &Lists, lengths: &Lengths, solved: Option<&Solved>) {
    let case = tally.all();
    let refusal = planning_refusal(lists, lengths);
    tally.add(refusal, if refusal == 0 { tally::answer(&lists.sheet(), solved) } else { "refused" });
    if let Some(fault) = planning_fault(lists, lengths, solved) {
        panic!("seed {} case {case}: {lists:?} {lengths:?}\n{fault}", tally.seed());
    }
}

/// The same for a sheet whose rooms have no place too many.
fn hold_sheet(tally: &mut Tally, sheet: &Sheet, solved: Option<&Solved>) {
    hold(tally, &Lists::from(sheet), &Lengths::exact(sheet), solved);
}

#[test]
fn document_cases() {
    let mut tally = Tally::new("planning P1 to P12", 0);
    for case in cases::all() {
        hold_sheet(&mut tally, &case.sheet, enumerated::solve(&case.sheet).as_ref());
    }
    tally.report();
}

#[test]
fn small_sheets_against_all_plans() {
    let mut tally = Tally::new("planning small sheets, all plans tried", seed(101));
    for i in 0..effort(60_000) {
        let mut r = Random::of_case(seed(101), i);
        let sheet = small_sheet(&mut r);
        let solved = enumerated::solve(&sheet);
        hold(&mut tally, &Lists::from(&sheet), &roomy(&mut r, &sheet), solved.as_ref());
    }
    tally.report();
    for (answer, share) in [(PLAN, 4), (NONE, 4), (CARRIES, 10)] {
        assert!(share * tally.count(answer) > tally.all(), "too few {answer}");
    }
}

/// Small sheets, told apart by what the carried place is to them: without it some have no plan, and in some of these a unit is carried in
/// every lawful plan.
#[test]
fn sheets_that_need_the_carried_place() {
    const MUST: &str = "with a unit that must be carried";
    const SOME: &str = "with some unit that must be carried, but not always the same";
    let mut tally = Tally::new("planning sheets that have no plan inside the wave, all plans tried", seed(110));
    for i in 0..effort(12_000) {
        let mut r = Random::of_case(seed(110), i);
        let sheet = small_sheet(&mut r);
        let Some(solved) = enumerated::solve(&sheet) else { continue };
        let cut = sheet.cut_to_span();
        if enumerated::solve(&cut).is_some() {
            continue;
        }
        let must = solved.earliest.iter().any(|&place| sheet.slot_at(place).is_none());
        tally.add(0, if must { MUST } else { SOME });
        for (sheet, solved) in [(&sheet, Some(&solved)), (&cut, None)] {
            let fault = planning_fault(&Lists::from(sheet), &roomy(&mut r, sheet), solved);
            assert_eq!(fault, None, "seed {} case {i}: {sheet:?}", seed(110));
        }
    }
    tally.report();
    for answer in [MUST, SOME] {
        assert!(tally.count(answer) > effort(100), "too few {answer}");
    }
}

/// Fewer sheets, with more plans each.
#[test]
fn wider_sheets_against_all_plans() {
    let mut tally = Tally::new("planning wider sheets, all plans tried", seed(108));
    for i in 0..effort(10_000) {
        let mut r = Random::of_case(seed(108), i);
        let sheet = sheet_up_to(&mut r, 8, 7);
        let solved = enumerated::solve(&sheet);
        hold(&mut tally, &Lists::from(&sheet), &roomy(&mut r, &sheet), solved.as_ref());
    }
    tally.report();
}

/// All lists of at most `most` elements.
fn lists_of<T: Copy>(elements: &[T], most: usize) -> Vec<Vec<T>> {
    let mut all = vec![vec![]];
    let mut from = 0;
    for _ in 0..most {
        let to = all.len();
        for i in from..to {
            for &element in elements {
                let mut longer = all[i].clone();
                longer.push(element);
                all.push(longer);
            }
        }
        from = to;
    }
    all
}

/// Every sheet of few slots with few units and at most two rules, whose counts go up to 3.
#[test]
fn all_tiny_sheets() {
    let mut tally = Tally::new("planning all tiny sheets, all plans tried", 0);
    for (span, most_units) in [(1u16, 3), (2, 3), (3, 2)] {
        let stretches: Vec<(u16, u16)> = (1..=span).flat_map(|a| (a..=span).map(move |b| (a, b))).collect();
        let counts: Vec<(u16, u16)> = (0..=3).flat_map(|low| (low..=3).map(move |high| (low, high))).collect();
        let rules: Vec<(u16, u16, u16, u16)> =
            stretches.iter().flat_map(|&(a, b)| counts.iter().map(move |&(low, high)| (a, b, low, high))).collect();
        let rules = lists_of(&rules, 2);
        let past = (1..=span).map(|first| (first, carried_place(span as usize) as u16));
        let windows: Vec<(u16, u16)> = stretches.iter().copied().chain(past).collect();
        for windows in lists_of(&windows, most_units) {
            for rules in &rules {
                let sheet = Sheet::new(span as usize, &windows, rules);
                hold_sheet(&mut tally, &sheet, enumerated::solve(&sheet).as_ref());
            }
        }
    }
    tally.report();
}

#[test]
fn sheets_of_all_sizes() {
    let mut tally = Tally::new("planning sheets of all sizes", seed(102));
    for i in 0..effort(3_000) {
        let mut r = Random::of_case(seed(102), i);
        let sheet = any_sheet(&mut r);
        let solved = computed::solve(&sheet);
        hold(&mut tally, &Lists::from(&sheet), &roomy(&mut r, &sheet), solved.as_ref());
    }
    tally.report();
}

/// Chabert and Demassey, section 4.
#[test]
fn sheets_of_the_source_paper() {
    let mut tally = Tally::new("planning sheets of the source paper", seed(103));
    for i in 0..effort(460) {
        let sheet = paper_sheet(&mut Random::of_case(seed(103), i), 10 + i % 23, Reach::InsideWave);
        hold_sheet(&mut tally, &sheet, computed::solve(&sheet).as_ref());
    }
    tally.report();
    assert_eq!(tally.count(PLAN), tally.all());
}

#[test]
fn largest_sheets() {
    let mut tally = Tally::new("planning largest sheets", seed(104));
    for i in 0..effort(24) {
        let mut r = Random::of_case(seed(104), i);
        let reach = [Reach::InsideWave, Reach::PastWave][i % 2];
        let mut sheet = largest_sheet(&mut r, [0, 1, 3][i % 3], [48, 24, 6, 3][i / 2 % 4], reach);
        if i % 5 == 4 {
            // One unit more is wanted of a stretch than it has.
            let rule = r.below(60);
            let c = sheet.rules[rule].high;
            (sheet.rules[rule].low, sheet.rules[rule].high) = (c + 1, c + 1);
        }
        hold_sheet(&mut tally, &sheet, computed::solve(&sheet).as_ref());
    }
    tally.report();
}

/// The greatest limits: every unit anywhere, or everywhere one by one.
#[test]
fn extreme_sheets() {
    let wide = vec![(1, 48); 300];
    let wider = vec![(1, 49); 300];
    let sheets = [
        Sheet::new(48, &wider, &[]),
        Sheet::new(48, &wider, &[(1, 48, 0, 0)]),
        Sheet::new(48, &wider, &[(1, 48, 300, 300)]),
        Sheet::new(48, &wider, &[(1, 48, 150, 150), (48, 48, 75, 300)]),
        Sheet::new(48, &wider, &[(1, 24, 300, 300), (25, 48, 1, 300)]),
        Sheet::new(48, &vec![(48, 49); 300], &[(48, 48, 0, 1)]),
        Sheet::new(48, &vec![(48, 49); 300], &[(1, 47, 1, 300)]),
        Sheet::new(48, &vec![(25, 49); 300], &[(1, 48, 0, 299), (1, 24, 1, 300)]),
        Sheet::new(1, &[(1, 2); 300], &[(1, 1, 0, 0); 60]),
        Sheet::new(1, &[(1, 2); 300], &[(1, 1, 300, 300); 60]),
        Sheet::new(48, &wide, &[]),
        Sheet::new(48, &wide, &[(48, 48, 300, 300)]),
        Sheet::new(48, &wide, &[(1, 48, 300, 300)]),
        Sheet::new(48, &wide, &[(1, 24, 300, 300), (25, 48, 0, 300)]),
        Sheet::new(48, &wide, &[(1, 24, 300, 300), (25, 48, 300, 300)]),
        Sheet::new(48, &wide, &[(1, 48, 0, 299)]),
        Sheet::new(48, &wide, &[(1, 48, 0, 0)]),
        Sheet::new(48, &[], &[(1, 48, 300, 300)]),
        Sheet::new(48, &[], &[(24, 24, 300, 300); 60]),
        Sheet::new(1, &[(1, 1); 300], &[(1, 1, 300, 300); 60]),
        Sheet::new(1, &[(1, 1); 300], &[(1, 1, 0, 299); 60]),
        Sheet::new(1, &[], &[]),
        Sheet::new(48, &vec![(1, 1); 300], &[(2, 48, 0, 0)]),
        Sheet::new(48, &vec![(48, 48); 300], &[(1, 47, 1, 300)]),
    ];
    let mut tally = Tally::new("planning extreme sheets", 0);
    for sheet in sheets {
        hold_sheet(&mut tally, &sheet, computed::solve(&sheet).as_ref());
    }
    tally.report();
}

/// Many separate stretches that each ask for 300: the pass makes the greatest sums that it can, and none overflows.
#[test]
fn the_greatest_sums() {
    let mut tally = Tally::new("planning sheets with the greatest sums", seed(107));
    for i in 0..effort(400) {
        let mut r = Random::of_case(seed(107), i);
        let windows = if r.chance(50) { vec![(1, r.between(48, carried_place(48)) as u16); 300] } else { vec![] };
        let width = r.between(1, 4) as u16;
        let mut rules: Vec<(u16, u16, u16, u16)> = (0..48 / width).map(|j| (j * width + 1, (j + 1) * width, 300, 300)).collect();
        for _ in 0..r.below(12) {
            let (from, to) = r.interval(48, 48);
            rules.push((from, to, 0, *r.pick(&[0, 1, 299, 300])));
        }
        // The order of rules is free, and some of the stretches may be left out.
        r.shuffle(&mut rules);
        rules.truncate(r.between(1, rules.len()));
        let sheet = Sheet::new(48, &windows, &rules);
        hold_sheet(&mut tally, &sheet, computed::solve(&sheet).as_ref());
    }
    tally.report();
}

/// Windows that nest and chain, where a cut window pushes many others: narrowing has much to do.
#[test]
fn narrowing_through_chains() {
    let mut tally = Tally::new("planning chains", seed(105));
    for i in 0..effort(200) {
        let mut r = Random::of_case(seed(105), i);
        let span = r.between(6, 48);
        let width = r.between(2, 4);
        let end = r.between(span, carried_place(span));
        let windows: Vec<(u16, u16)> = (1..=end - width + 1).map(|s| (s as u16, (s + width - 1) as u16)).collect();
        let per_slot: Vec<(u16, u16, u16, u16)> = (1..=span as u16).map(|s| (s, s, 0, 1)).collect();
        let mut sheet = Sheet::new(span, &windows, &per_slot);
        for _ in 0..r.below(4) {
            let unit = r.below(sheet.units.len());
            sheet.units.remove(unit);
        }
        for _ in 0..r.below(3) {
            let (first, last) = r.interval(span, span);
            sheet.units.push(Unit { loader: 0, first, last });
        }
        let numbers = loaders(&mut r, sheet.units.len());
        let sheet = sheet.numbered(&numbers);
        let solved = computed::solve(&sheet);
        hold(&mut tally, &Lists::from(&sheet), &roomy(&mut r, &sheet), solved.as_ref());
    }
    tally.report();
}

/// A fault of lists or of rooms.
type Fault = (usize, Box<dyn Fn(&mut Lists, &mut Lengths)>);

/// A fault of each kind, by the question that it fails.
fn faults() -> Vec<Fault> {
    let of_rooms: [(usize, fn(&mut Lengths)); 6] = [
        (12, |rooms| rooms.table -= 1),
        (12, |rooms| rooms.plan -= 1),
        (12, |rooms| rooms.earliest -= 1),
        (12, |rooms| rooms.latest -= 1),
        (12, |rooms| rooms.ring -= 1),
        (12, |rooms| {
            *rooms = Lengths { table: 0, plan: 0, earliest: 0, latest: 0, ring: 0 }
        }),
    ];
    let mut all: Vec<Fault> = Vec::new();
    for (number, make) in faults::OF_LISTS {
        all.push((number, Box::new(move |lists, _| make(lists))));
    }
    for (number, make) in of_rooms {
        all.push((number, Box::new(move |_, rooms| make(rooms))));
    }
    all
}

/// Every refusal alone, and in pairs the one that is asked first.
#[test]
fn refusals_alone_and_in_pairs() {
    let order = [13, 6, 9, 10, 7, 16, 8, 12];
    let rank = |q: usize| order.iter().position(|&o| o == q).unwrap();
    let sheet = Sheet::new(5, &[(1, 3), (2, 5)], &[(1, 2, 0, 2), (2, 4, 1, 2)]);
    let none = Sheet::new(5, &[(1, 3), (2, 5)], &[(1, 5, 0, 1), (2, 4, 1, 2)]);
    let all = faults();
    let mut tally = Tally::new("planning refusals alone and in pairs", 0);
    for sheet in [sheet, none] {
        let sheet = sheet.numbered(&[4_017, 12]);
        let solved = enumerated::solve(&sheet);
        hold_sheet(&mut tally, &sheet, solved.as_ref());
        for (one, make_one) in &all {
            for (other, make_other) in &all {
                let mut lists = Lists::from(&sheet);
                let mut rooms = Lengths::exact(&sheet);
                // Lists are changed in place first and made longer or shorter after, so that both changes can be made.
                let (early, late) = if rank(*one) > rank(*other) { (make_one, make_other) } else { (make_other, make_one) };
                if *one == 12 && *other == 12 {
                    make_one(&mut lists, &mut rooms);
                } else {
                    early(&mut lists, &mut rooms);
                    late(&mut lists, &mut rooms);
                }
                let refusal = planning_refusal(&lists, &rooms);
                if rank(*one) != rank(*other) {
                    assert_eq!(rank(refusal), rank(*one).min(rank(*other)), "{one} and {other}");
                }
                hold(&mut tally, &lists, &rooms, solved.as_ref());
            }
        }
    }
    tally.report();
}

/// Question 7 at its edges, on every span: only the last slot of a window may be the carried place.
#[test]
fn windows_and_stretches_at_the_end_of_the_wave() {
    let mut tally = Tally::new("planning windows and stretches at the end of the wave", 0);
    for span in 1..=MAX_SLOTS {
        let (end, carried, beyond) = (span as u16, carried_place(span) as u16, carried_place(span) as u16 + 1);
        let window = |first, last| (7, Sheet::new(span, &[(1, end), (first, last)], &[]));
        let stretch = |from, to| (7, Sheet::new(span, &[(1, end)], &[(1, end, 0, 1), (from, to, 0, 1)]));
        let taken = |(_, sheet)| (0, sheet);
        for (expected, sheet) in [
            taken(window(end, end)),
            taken(window(1, carried)),
            taken(window(end, carried)),
            window(carried, carried),
            window(1, beyond),
            window(end, beyond),
            window(carried, beyond),
            taken(stretch(1, end)),
            taken(stretch(end, end)),
            stretch(1, carried),
            stretch(end, carried),
            stretch(carried, carried),
        ] {
            let refusal = planning_refusal(&Lists::from(&sheet), &Lengths::exact(&sheet));
            assert_eq!(refusal, expected, "{sheet:?}");
            hold_sheet(&mut tally, &sheet, if refusal == 0 { computed::solve(&sheet) } else { None }.as_ref());
        }
    }
    tally.report();
}

/// Question 12 on every span: the table needs (span + 2)² places and the ring span + 2, and one less is refused.
#[test]
fn rooms_for_every_boundary() {
    let mut tally = Tally::new("planning rooms for every boundary", 0);
    for span in 1..=MAX_SLOTS {
        let (table, ring) = ((span + 2) * (span + 2), span + 2);
        // With a plan and with none.
        for (low, high) in [(0, 0), (2, 2)] {
            let sheet = Sheet::new(span, &[(1, carried_place(span) as u16)], &[(1, span as u16, low, high)]);
            let solved = computed::solve(&sheet);
            let exact = Lengths { table, ring, plan: 1, earliest: 1, latest: 1 };
            let short = [Lengths { table: table - 1, ..exact }, Lengths { ring: ring - 1, ..exact }];
            for (lengths, expected) in [(exact, 0), (short[0], 12), (short[1], 12)] {
                assert_eq!(planning_refusal(&Lists::from(&sheet), &lengths), expected, "{lengths:?}");
                hold(&mut tally, &Lists::from(&sheet), &lengths, solved.as_ref());
            }
        }
    }
    tally.report();
}

/// Equal closing slots go by line, whatever the loader numbers are: here those of the later lines are smaller.
#[test]
fn ties_go_by_line() {
    let mut tally = Tally::new("planning ties", 0);
    for numbers in [[300, 200, 100], [9_999, 2, 1], [100, 200, 300], [2, 3, 1]] {
        let sheet = Sheet::new(3, &[(1, 3), (1, 3), (1, 3)], &[(1, 1, 0, 1), (2, 2, 0, 1)]).numbered(&numbers);
        let solved = enumerated::solve(&sheet).unwrap();
        assert_eq!(solved.plan, [1, 2, 3]);
        hold_sheet(&mut tally, &sheet, Some(&solved));
    }
    // The carried place closes last, and takes those that are left by line.
    let sheet = Sheet::new(2, &[(1, 3), (1, 3), (2, 3), (1, 2)], &[(1, 1, 0, 1), (2, 2, 0, 1)]).numbered(&[4, 3, 2, 1]);
    let solved = enumerated::solve(&sheet).unwrap();
    assert_eq!(solved.plan, [2, 3, 3, 1]);
    hold_sheet(&mut tally, &sheet, Some(&solved));
    // 300 units with one window, no two of them in order of their numbers.
    let falling: Vec<u16> = (9_700..=9_999).rev().collect();
    let sheet = Sheet::new(48, &[(1, 48); 300], &[(1, 24, 0, 150)]).numbered(&falling);
    hold_sheet(&mut tally, &sheet, computed::solve(&sheet).as_ref());
    tally.report();
}

/// Loader numbers at their limits and equal ones, on any unit of few or many: 16 refuses them, but 9 comes first.
#[test]
fn loader_numbers_of_many_units() {
    let mut tally = Tally::new("planning loader numbers of many units", seed(109));
    for i in 0..effort(300) {
        let mut r = Random::of_case(seed(109), i);
        let n = *r.pick(&[2, 40, 256, 257, 299, 300, 301]);
        let mut numbers = loaders(&mut r, n);
        let at = if r.chance(50) { n - 1 } else { r.below(n) };
        let other = (at + r.between(1, n - 1)) % n;
        let (number, expected) = match i % 6 {
            0 => (numbers[at], 0),
            1 => (9_999, 0),
            2 => (numbers[other], 16),
            3 => (0, 16),
            4 => (10_000, 16),
            _ => (65_535, 16),
        };
        // The largest number may stand anywhere, but once.
        match numbers.iter().position(|&k| k == number) {
            Some(before) if expected == 0 => numbers.swap(before, at),
            _ => numbers[at] = number,
        }
        let sheet = Sheet::new(1, &vec![(1, 1); n], &[]).numbered(&numbers);
        let refusal = planning_refusal(&Lists::from(&sheet), &Lengths::exact(&sheet));
        assert_eq!(refusal, if n <= 300 { expected } else { 9 }, "seed {} case {i}", seed(109));
        hold_sheet(&mut tally, &sheet, if refusal == 0 { computed::solve(&sheet) } else { None }.as_ref());
    }
    tally.report();
    for number in [9, 16] {
        assert!(20 * tally.refused_by(number) > tally.all(), "{number} refuses too seldom");
    }
    assert!(10 * tally.count(PLAN) > tally.all());
}

/// Every pair of places that can have the same number: the shorter lists whole, the longest at every place of the second.
#[test]
fn a_number_comes_again_anywhere() {
    let mut tally = Tally::new("planning a number that comes again anywhere", 0);
    let numbers: Vec<u16> = (0..300).map(|i| i * 33 % 9_999 + 1).collect();
    for n in [2, 3, 10, 40, 300] {
        let earlier = |at: usize| if n < 300 { (0..at).collect::<Vec<_>>() } else { vec![0, at / 2, at - 1] };
        for at in 1..n {
            for before in earlier(at) {
                let mut numbers = numbers[..n].to_vec();
                numbers[at] = numbers[before];
                hold_sheet(&mut tally, &Sheet::new(1, &vec![(1, 1); n], &[]).numbered(&numbers), None);
            }
        }
    }
    assert_eq!(tally.refused_by(16), tally.all());
    tally.report();
}

/// Lists and rooms with faults at random, also in the middle and at the end of long lists.
#[test]
fn refusals_at_random() {
    let mut tally = Tally::new("planning lists and rooms at random", seed(106));
    for i in 0..effort(40_000) {
        let mut r = Random::of_case(seed(106), i);
        let sheet = if r.chance(90) { small_sheet(&mut r) } else { any_sheet(&mut r) };
        let mut lists = Lists::from(&sheet);
        let mut rooms = roomy(&mut r, &sheet);
        for _ in 0..r.between(1, 2) {
            match r.below(faults::KINDS + 3) {
                0 => rooms.table = r.below(rooms.table + 2),
                1 => rooms.ring = r.below(rooms.ring + 2),
                2 => {
                    let room = r.below(3);
                    *[&mut rooms.plan, &mut rooms.earliest, &mut rooms.latest][room] = r.below(7);
                }
                kind => {
                    let before = lists.first.len();
                    faults::at_random(&mut r, kind - 3, sheet.span, &mut lists);
                    // Units that were added have room.
                    if lists.first.len() > before + 1 {
                        for room in [&mut rooms.plan, &mut rooms.earliest, &mut rooms.latest] {
                            *room = lists.first.len().max(*room);
                        }
                    }
                }
            }
        }
        let solved = if lists_refusal(&lists) == 0 { computed::solve(&lists.sheet()) } else { None };
        hold(&mut tally, &lists, &rooms, solved.as_ref());
    }
    tally.report();
    for number in [6, 7, 8, 9, 10, 12, 13, 16] {
        assert!(2_000 * tally.refused_by(number) > tally.all(), "{number} refuses too seldom");
    }
}
