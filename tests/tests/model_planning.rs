//! The model itself: P1 to P12, the shortcuts that fail, the model's two halves against each other, and its looks against a search.

use model::cases::{self, Says};
use model::page::{self, Page};
use model::questions::{is_new, is_stretch, is_window, planning_refusal, refusal, Call, Lengths, Lists};
use model::random::{any_sheet, largest_sheet, loaders, small_sheet, tied_sheet, Random, Reach};
use model::sheet::{Sheet, Solved};
use model::{computed, effort, enumerated, seed};

fn windows(s: &Solved) -> Vec<(u16, u16)> {
    s.earliest.iter().copied().zip(s.latest.iter().copied()).collect()
}

#[test]
fn document_cases_have_their_answers() {
    let all = cases::all();
    assert_eq!(all.len(), 12);
    for case in all {
        for solved in [enumerated::solve(&case.sheet), computed::solve(&case.sheet)] {
            match (&case.says, solved) {
                (Says::Plan(plan, between), Some(solved)) => {
                    assert_eq!(&solved.plan, plan, "{}", case.name);
                    assert_eq!(&windows(&solved), between, "{}", case.name);
                }
                (Says::None(ring, shortfall), None) => {
                    let ring = ring.clone().unwrap_or_else(|| computed::ring(&case.sheet).unwrap());
                    assert_eq!(case.sheet.ring_fault(&ring), None, "{}", case.name);
                    assert_eq!(-case.sheet.ring_sum(&ring), *shortfall, "{}", case.name);
                }
                (says, solved) => panic!("{}: {says:?}, but {solved:?}", case.name),
            }
        }
    }
}

#[test]
fn document_pages_are_printed() {
    for (name, expected) in cases::PAGES {
        let sheet = cases::named(name).sheet;
        let page = enumerated::solve(&sheet).map_or_else(|| page::of_ring(&sheet, &[0, 3]), |solved| page::of_plan(&sheet, &solved));
        assert_eq!(String::from_utf8_lossy(&page), expected, "{name}");
    }
    let p7 = cases::named("P7").sheet;
    let page = page::of_plan(&p7, &enumerated::solve(&p7).unwrap());
    assert_eq!(page, b"(answer plan 0)\n(slot 1 (count 0) (range 0 0))\n");
}

/// P3: slot counts alone leave slot 2 to the second unit, and so do two of the rules, each alone. (The third, 4-5, shuts it
/// out by itself, since the first unit never gets there.)
#[test]
fn narrowing_needs_all_rules_at_once() {
    let p3 = cases::named("P3").sheet.clone();
    for rule in &p3.rules[..2] {
        let alone = Sheet { rules: vec![*rule], ..p3.clone() };
        assert_eq!(enumerated::solve(&alone).unwrap().earliest[1], 2);
    }
    let solved = enumerated::solve(&p3).unwrap();
    assert_eq!(solved.earliest[1], 4);
    let w = p3.boundaries();
    assert_eq!(solved.table[w + 2], 1, "slot 2 may take a unit, but never the second");
}

/// P5: every pair of rules has a plan, the three have none.
#[test]
fn rules_taken_in_pairs_are_not_enough() {
    let p5 = cases::named("P5").sheet.clone();
    for drop in 0..3 {
        let mut pair = p5.clone();
        pair.rules.remove(drop);
        assert!(enumerated::solve(&pair).is_some());
    }
    assert!(enumerated::solve(&p5).is_none());
}

/// P6: seats by line number would give the second unit's only slot away.
#[test]
fn seats_go_by_deadline() {
    let p6 = cases::named("P6").sheet.clone();
    assert!(!enumerated::is_lawful(&p6, &[1, 1]));
    assert!(!enumerated::seats_are_due(&Sheet::new(3, &[(1, 3), (1, 2)], &[]), &[1, 2]));
    assert_eq!(enumerated::solve(&p6).unwrap().plan, [2, 1]);
}

/// P9: either rule alone has another answer than both.
#[test]
fn all_rules_of_a_stretch_count() {
    let p9 = cases::named("P9").sheet.clone();
    let both = enumerated::solve(&p9).unwrap();
    for keep in 0..2 {
        let one = Sheet { rules: vec![p9.rules[keep]], ..p9.clone() };
        assert_ne!(enumerated::solve(&one).unwrap(), both);
    }
    assert_eq!((p9.limit(0, 1), p9.limit(1, 0)), (1, -1));
}

/// Slots between the earliest and the latest may be impossible; the window still runs over them.
#[test]
fn narrowed_windows_run_over_impossible_slots() {
    let sheet = Sheet::new(3, &[(1, 3)], &[(2, 2, 0, 0)]);
    for solved in [enumerated::solve(&sheet).unwrap(), computed::solve(&sheet).unwrap()] {
        assert_eq!(windows(&solved), [(1, 3)]);
    }
}

/// Seats go by the windows as given: here both units are narrowed to 1-2, and line order would decide.
#[test]
fn seats_ignore_narrowed_windows() {
    let sheet = Sheet::new(3, &[(1, 3), (1, 2)], &[(1, 2, 2, 3), (2, 3, 1, 2)]);
    for solved in [enumerated::solve(&sheet).unwrap(), computed::solve(&sheet).unwrap()] {
        assert_eq!(windows(&solved), [(1, 2), (1, 2)]);
        assert_eq!(solved.plan, [2, 1]);
    }
}

/// Equal closing slots go by line, whatever the loader numbers are: the larger one first, or the smaller.
#[test]
fn ties_go_by_line() {
    let sheet = Sheet::new(2, &[(1, 2), (1, 2)], &[(1, 1, 0, 1)]);
    for numbers in [[9_999, 1], [1, 9_999]] {
        let sheet = sheet.clone().numbered(&numbers);
        for solved in [enumerated::solve(&sheet).unwrap(), computed::solve(&sheet).unwrap()] {
            assert_eq!(solved.plan, [1, 2], "{numbers:?}");
        }
    }
}

/// A page's unit lines have the loader numbers in the order of the lines, and nothing else in an answer knows them.
#[test]
fn numbers_are_only_printed() {
    for i in 0..effort(2_000) {
        let mut r = Random::of_case(seed(5), i);
        let sheet = small_sheet(&mut r);
        let by_line = sheet.clone().numbered(&(1..=sheet.units.len() as u16).collect::<Vec<_>>());
        let solved = enumerated::solve(&sheet);
        assert_eq!(solved, enumerated::solve(&by_line), "seed {} case {i}: {sheet:?}", seed(5));
        let Some(solved) = solved else { continue };
        let Some(Page::Plan { units, .. }) = page::parse(&page::of_plan(&sheet, &solved)) else { panic!("case {i}") };
        assert_eq!(units.iter().map(|u| u.loader).collect::<Vec<_>>(), sheet.loaders(), "seed {} case {i}: {sheet:?}", seed(5));
    }
    let sheet = Sheet::new(2, &[(1, 2), (1, 1)], &[(1, 1, 0, 1)]).numbered(&[4_017, 12]);
    let page = page::of_plan(&sheet, &enumerated::solve(&sheet).unwrap());
    assert!(page.starts_with(b"(answer plan 2)\n(unit 4017 (slot 2) (between 2 2))\n(unit 12 (slot 1) (between 1 1))\n(slot 1 "));
}

/// The numbers that are drawn pass 16, are of both ends, and seldom stand in the order of the lines.
#[test]
fn numbers_at_random_are_new() {
    let (mut ordered, mut least, mut greatest) = (0, 0, 0);
    for i in 0..effort(1_000) {
        let mut r = Random::of_case(seed(6), i);
        let n = *r.pick(&[2, 5, 79, 299, 300]);
        let numbers = loaders(&mut r, n);
        assert_eq!(numbers.len(), n);
        assert!((0..n).all(|j| is_new(numbers[j], &numbers[..j])), "seed {} case {i}: {numbers:?}", seed(6));
        ordered += numbers.is_sorted() as usize;
        least += numbers.contains(&1) as usize;
        greatest += numbers.contains(&9_999) as usize;
    }
    assert!(5 * ordered < effort(1_000), "{ordered} in order");
    assert!(10 * least > effort(1_000) && 10 * greatest > effort(1_000), "1 in {least}, 9999 in {greatest}");
}

/// Cycles can use a cut window twice: no single limit shuts slot 2 out for the first unit, all together do.
#[test]
fn a_cut_window_counts_more_than_once() {
    let sheet = Sheet::new(4, &[(2, 4), (1, 3)], &[(1, 2, 0, 1), (2, 3, 0, 1)]);
    for solved in [enumerated::solve(&sheet).unwrap(), computed::solve(&sheet).unwrap()] {
        assert_eq!(solved.earliest[0], 3);
    }
}

#[test]
fn a_low_above_n_leads_to_none() {
    let sheet = Sheet::new(2, &[(1, 2)], &[(1, 2, 2, 300)]);
    assert!(enumerated::solve(&sheet).is_none());
    assert_eq!(computed::ring(&sheet), Some(vec![0, 2]));
}

#[test]
fn rings_are_told_from_other_lists() {
    let p4 = &cases::named("P4").sheet;
    assert_eq!(p4.ring_fault(&[0, 3]), None);
    assert!(p4.ring_fault(&[3, 0]).is_some(), "lowest first");
    assert!(p4.ring_fault(&[0]).is_some());
    assert!(p4.ring_fault(&[]).is_some());
    assert!(p4.ring_fault(&[0, 3, 0, 3]).is_some());
    assert!(p4.ring_fault(&[0, 4]).is_some(), "limits 2 and -2");
    assert!(p4.ring_fault(&[0, 5]).is_some(), "no boundary");
    assert!(p4.ring_fault(&[0, 1]).is_some(), "limits 2 and 0");
}

#[test]
fn both_halves_agree_on_small_sheets() {
    let (mut plans, mut nones) = (0, 0);
    for i in 0..effort(20_000) {
        let sheet = small_sheet(&mut Random::of_case(seed(1), i));
        let by_definition = enumerated::solve(&sheet);
        assert_eq!(by_definition, computed::solve(&sheet), "seed {} case {i}: {sheet:?}", seed(1));
        match by_definition {
            Some(solved) => {
                plans += 1;
                let page = page::of_plan(&sheet, &solved);
                assert_eq!(page::fault(&sheet, Some(&solved), &page), None);
                let Some(Page::Plan { units, slots }) = page::parse(&page) else { panic!("case {i}") };
                let ranges = slots.iter().map(|s| (s.least, s.greatest)).collect();
                let fits = page::of_fits(&sheet, &solved);
                assert_eq!(page::fits_fault(&sheet, Some(&solved), &fits), None);
                assert_eq!(page::parse(&fits), Some(Page::Fits { units: units.len(), ranges }));
                assert_eq!(units.iter().map(|u| u.slot).collect::<Vec<_>>(), solved.plan.iter().map(|&s| sheet.slot_at(s)).collect::<Vec<_>>());
                let carried = units.iter().filter(|u| u.slot.is_none()).count();
                assert_eq!(slots.iter().map(|s| s.count as usize).sum::<usize>() + carried, sheet.units.len());
                assert_eq!(slots.len(), sheet.span);
            }
            None => {
                nones += 1;
                let ring = computed::ring(&sheet).expect("no plan, so there is a ring");
                assert_eq!(sheet.ring_fault(&ring), None, "seed {} case {i}: {sheet:?}", seed(1));
                let page = page::of_ring(&sheet, &ring);
                assert_eq!(page::fault(&sheet, None, &page), None);
                assert_eq!(page::fits_fault(&sheet, None, &page), None);
                let shortfall = -sheet.ring_sum(&ring) as u64;
                assert_eq!(page::parse(&page), Some(Page::None { ring, shortfall }));
            }
        }
    }
    assert!(plans * 5 > nones && nones * 5 > plans, "{plans} plans, {nones} none");
}

/// No plan exactly where there is a ring, by trying every closed list.
#[test]
fn a_ring_or_a_plan() {
    for i in 0..effort(3_000) {
        let sheet = small_sheet(&mut Random::of_case(seed(2), i));
        let none = enumerated::lawful_plans(&sheet).is_empty();
        assert_eq!(enumerated::has_ring(&sheet), none, "seed {} case {i}: {sheet:?}", seed(2));
    }
}

/// On large sheets: the plan is lawful, the seats are due, and no sum of the pass is above 600 in size.
#[test]
fn large_sheets_are_answered_lawfully() {
    let (mut plans, mut nones) = (0, 0);
    for i in 0..effort(300) {
        let sheet = any_sheet(&mut Random::of_case(seed(3), i));
        assert_eq!(planning_refusal(&Lists::from(&sheet), &Lengths::exact(&sheet)), 0);
        assert!(computed::greatest_sum(&sheet) <= 600, "seed {} case {i}", seed(3));
        match computed::solve(&sheet) {
            Some(solved) => {
                plans += 1;
                assert!(enumerated::is_lawful(&sheet, &solved.plan), "seed {} case {i}", seed(3));
                assert!(enumerated::seats_are_due(&sheet, &solved.plan), "seed {} case {i}", seed(3));
            }
            None => {
                nones += 1;
                let ring = computed::ring(&sheet).unwrap();
                assert_eq!(sheet.ring_fault(&ring), None, "seed {} case {i}", seed(3));
            }
        }
    }
    assert!(plans * 5 > nones && nones * 5 > plans, "{plans} plans, {nones} none");
}

#[test]
fn the_largest_sheets_are_answered() {
    for (slack, widest) in [(0, 48), (0, 12), (1, 24), (3, 48)] {
        for reach in [Reach::InsideWave, Reach::PastWave] {
            let sheet = largest_sheet(&mut Random::new(seed(4)), slack, widest, reach);
            assert_eq!((sheet.span, sheet.units.len(), sheet.rules.len()), (48, 300, 60));
            assert_eq!(sheet.cut_to_span() == sheet, reach == Reach::InsideWave);
            let solved = computed::solve(&sheet).unwrap();
            assert!(enumerated::is_lawful(&sheet, &solved.plan));
            assert!(enumerated::seats_are_due(&sheet, &solved.plan));
        }
    }
}

/// How many units seating looks at, counted by hand.
#[test]
fn looks_by_hand() {
    for (case, (name, looked)) in cases::all().into_iter().zip(cases::LOOKED) {
        assert_eq!(case.name, name);
        let plan = if let Says::Plan(plan, _) = case.says { Some(plan) } else { None };
        assert_eq!(plan.map_or(0, |plan| case.sheet.looked(&plan)), looked, "{name}");
    }
    for (name, sheet, plan, looked) in cases::looked_at() {
        assert_eq!(computed::solve(&sheet).map(|solved| solved.plan), plan, "{name}");
        assert_eq!(plan.map_or(0, |plan| sheet.looked(&plan)), looked, "{name}");
    }
}

/// The plan of a search with these counts, and its looks: for each slot that is to take units it begins at the front of the order by closing
/// slot and line, passes units that are seated or not yet open, and ends with the slot's last one.
fn searched(sheet: &Sheet, counts: &[usize]) -> (Vec<u16>, usize) {
    let n = sheet.units.len();
    let closing_in = |slot: usize| (0..n).filter(move |&i| sheet.units[i].last as usize == slot);
    let order: Vec<usize> = (1..=sheet.carried_place()).flat_map(closing_in).collect();
    let (mut plan, mut looks) = (vec![0; n], 0);
    for (slot, &count) in (1..).zip(counts) {
        let mut wanted = count;
        let mut waiting = order.iter();
        while wanted > 0 {
            let &unit = waiting.next().expect("the plan has the counts");
            looks += 1;
            if plan[unit] == 0 && sheet.units[unit].first <= slot {
                plan[unit] = slot;
                wanted -= 1;
            }
        }
    }
    (plan, looks)
}

/// A search with a plan's counts makes that plan, and its looks are the model's number.
fn hold_to_search(sheet: &Sheet, solved: &Solved, case: &str) {
    let counts: Vec<usize> = (0..sheet.carried_place()).map(|a| enumerated::count(&solved.plan, a, a + 1)).collect();
    assert_eq!(searched(sheet, &counts), (solved.plan.clone(), sheet.looked(&solved.plan)), "{case}: {sheet:?}");
}

/// The number of looks is that of a search, on small sheets with the plan that enumeration leaves, and on others with the computed one.
#[test]
fn looks_are_those_of_a_search() {
    let (mut enumerated_plans, mut computed_plans) = (0, 0);
    for i in 0..effort(10_000) {
        let sheet = small_sheet(&mut Random::of_case(seed(10), i));
        if let Some(solved) = enumerated::solve(&sheet) {
            enumerated_plans += 1;
            hold_to_search(&sheet, &solved, &format!("seed {} case {i}", seed(10)));
        }
    }
    for i in 0..effort(600) {
        let mut r = Random::of_case(seed(11), i);
        let sheet = if i % 4 == 0 { any_sheet(&mut r) } else { tied_sheet(&mut r) };
        if let Some(solved) = computed::solve(&sheet) {
            computed_plans += 1;
            hold_to_search(&sheet, &solved, &format!("seed {} case {i}", seed(11)));
        }
    }
    assert!(3 * enumerated_plans > effort(10_000) && 3 * computed_plans > effort(600), "{enumerated_plans} and {computed_plans} plans");
}

/// 7 at its edges: only the last slot of a window may be the carried place.
#[test]
fn windows_may_end_in_the_carried_place() {
    for (first, last, is_a_window, is_a_stretch) in [
        (1, 4, true, true),
        (4, 4, true, true),
        (1, 5, true, false),
        (4, 5, true, false),
        (5, 5, false, false),
        (1, 6, false, false),
        (4, 6, false, false),
        (5, 6, false, false),
        (0, 5, false, false),
        (4, 3, false, false),
    ] {
        assert_eq!(is_window(first, last, 4), is_a_window, "{first} to {last}");
        assert_eq!(is_stretch(first, last, 4), is_a_stretch, "{first} to {last}");
    }
}

/// A carried unit counts in no rule, and the step over all boundaries is n forward and minus n backward.
#[test]
fn carried_units_count_in_no_rule() {
    let sheet = Sheet::new(2, &[(1, 3), (2, 3), (1, 2)], &[(1, 2, 0, 1), (2, 2, 0, 300)]);
    assert!(enumerated::is_lawful(&sheet, &[3, 3, 1]));
    assert!(!enumerated::is_lawful(&sheet, &[3, 2, 1]));
    assert_eq!((sheet.limit(0, 3), sheet.limit(3, 0)), (3, -3));
    assert_eq!((sheet.limit(1, 3), sheet.limit(3, 1)), (3, -1), "one window inside 2 to 3");
    assert_eq!((sheet.limit(2, 3), sheet.limit(3, 2)), (3, 0), "no window begins there");
    assert_eq!((sheet.limit(0, 2), sheet.limit(2, 0)), (1, -1));
}

/// Seats go by closing slot, the carried place being the last: of two windows that are open the one inside the wave goes first.
#[test]
fn windows_past_the_wave_close_last() {
    let sheet = Sheet::new(2, &[(1, 3), (1, 2)], &[(1, 2, 0, 1)]);
    for solved in [enumerated::solve(&sheet).unwrap(), computed::solve(&sheet).unwrap()] {
        assert_eq!(solved.plan, [3, 1]);
        assert_eq!(windows(&solved), [(3, 3), (1, 2)]);
        let w = sheet.boundaries();
        let range = |first: usize, last: usize| (-solved.table[last * w + first - 1], solved.table[(first - 1) * w + last]);
        assert_eq!([range(1, 2), range(3, 3), range(2, 3), range(1, 3)], [(1, 1), (1, 1), (1, 2), (2, 2)]);
    }
}

/// A ring may go through the end of the carried place: slot 1 is to take a unit, and both windows open after it.
#[test]
fn rings_reach_the_carried_place() {
    let sheet = Sheet::new(2, &[(2, 3), (2, 3)], &[(1, 1, 1, 1)]);
    assert!(enumerated::solve(&sheet).is_none());
    let ring = computed::ring(&sheet).unwrap();
    assert_eq!(ring, [0, 3, 1]);
    let page = "(answer none)\n(at-most 2 (slots 1 3))\n(at-least 2 (slots 2 3))\n(at-least 1 (slots 1 1))\n(shortfall 1)\n";
    assert_eq!(String::from_utf8_lossy(&page::of_ring(&sheet, &ring)), page);
}

/// A carried unit's line has no slot, and the page no line for the carried place.
#[test]
fn carried_units_are_told_by_their_lines() {
    let Some(Page::Plan { units, slots }) = page::parse(cases::P11_PAGE.as_bytes()) else { panic!("P11 has a plan") };
    assert_eq!(units.iter().map(|u| u.slot).collect::<Vec<_>>(), [Some(1), None]);
    assert_eq!(slots.iter().map(|s| s.count).collect::<Vec<_>>(), [1, 0]);
    let p11 = cases::named("P11").sheet;
    let solved = enumerated::solve(&p11).unwrap();
    let with_slot = cases::P11_PAGE.replace("(carried)", "(slot 3)");
    assert!(page::fault(&p11, Some(&solved), with_slot.as_bytes()).is_some());
    let with_line = format!("{}(slot 3 (count 1) (range 1 1))\n", cases::P11_PAGE);
    assert!(page::fault(&p11, Some(&solved), with_line.as_bytes()).is_some());
}

/// Of the windows that are drawn, about half of those that reach the last slot reach past it.
#[test]
fn windows_at_random_reach_past_the_wave() {
    let (mut to_the_end, mut past) = (0, 0);
    for i in 0..effort(2_000) {
        let mut r = Random::of_case(seed(8), i);
        let sheet = if i % 10 == 0 { any_sheet(&mut r) } else { small_sheet(&mut r) };
        to_the_end += sheet.units.iter().filter(|u| u.last as usize >= sheet.span).count();
        past += sheet.units.iter().filter(|u| u.last as usize == sheet.carried_place()).count();
    }
    assert!(past * 5 > to_the_end * 2 && past * 5 < to_the_end * 3, "{past} of {to_the_end}");
}

/// Where a unit is carried in every lawful plan, cutting the windows to the wave leaves none; and where there is none, cutting them makes
/// no plan.
#[test]
fn windows_cut_to_the_wave() {
    let mut needed = 0;
    for i in 0..effort(6_000) {
        let sheet = small_sheet(&mut Random::of_case(seed(9), i));
        let solved = enumerated::solve(&sheet);
        let cut = enumerated::solve(&sheet.cut_to_span());
        let must_carry = |s: &Solved| s.earliest.iter().any(|&place| sheet.slot_at(place).is_none());
        if solved.as_ref().is_none_or(must_carry) {
            assert_eq!(cut, None, "seed {} case {i}: {sheet:?}", seed(9));
        }
        needed += (solved.is_some() && cut.is_none()) as usize;
    }
    assert!(20 * needed > effort(6_000), "{needed} have a plan only because units may be carried");
}

/// The questions in their order, one fault each, and in pairs the one asked first.
#[test]
fn planning_questions_keep_their_order() {
    let sheet = Sheet::new(3, &[(1, 3), (2, 2)], &[(1, 2, 0, 300)]);
    let lists = Lists::from(&sheet);
    let rooms = Lengths::exact(&sheet);
    assert_eq!(planning_refusal(&lists, &rooms), 0);
    let with = |change: &dyn Fn(&mut Lists)| {
        let mut l = lists.clone();
        change(&mut l);
        planning_refusal(&l, &rooms)
    };
    assert_eq!(with(&|l| l.last.push(1)), 13);
    assert_eq!(with(&|l| l.high.clear()), 13);
    assert_eq!(with(&|l| l.loader.push(3)), 13);
    assert_eq!(with(&|l| l.loader.truncate(1)), 13);
    assert_eq!(with(&|l| l.span = 0), 6);
    assert_eq!(with(&|l| l.span = 49), 6);
    assert_eq!(with(&|l| l.first[0] = 0), 7);
    assert_eq!(with(&|l| l.last[0] = 4), 0);
    assert_eq!(with(&|l| l.last[0] = 5), 7);
    assert_eq!(with(&|l| (l.first[0], l.last[0]) = (4, 4)), 7);
    assert_eq!(with(&|l| l.to[0] = 4), 7);
    for (numbers, number) in [([1, 9_999], 0), ([9_999, 1], 0), ([0, 1], 16), ([1, 0], 16), ([1, 1], 16), ([1, 10_000], 16), ([65_535, 1], 16)] {
        assert_eq!(with(&|l| l.loader = numbers.to_vec()), number, "{numbers:?}");
        assert_eq!(with(&|l| (l.loader, l.to[0]) = (numbers.to_vec(), 4)), 7, "7 of the rules before 16");
        assert_eq!(with(&|l| (l.loader, l.high[0]) = (numbers.to_vec(), 301)), if number == 0 { 8 } else { 16 }, "16 before 8");
    }
    // A number comes again on the last unit: 9 is asked before 16.
    let many = |n: u16| {
        let numbers: Vec<u16> = (1..n).chain([17]).collect();
        let sheet = Sheet::new(3, &vec![(1, 3); n as usize], &[]).numbered(&numbers);
        planning_refusal(&Lists::from(&sheet), &Lengths::exact(&sheet))
    };
    assert_eq!((many(300), many(301)), (16, 9));
    assert_eq!(with(&|l| l.high[0] = 301), 8);
    assert_eq!(with(&|l| l.low[0] = 301), 8);
    assert_eq!((rooms.table, rooms.ring), (25, 5));
    assert_eq!(planning_refusal(&lists, &Lengths { ring: 4, ..rooms }), 12);
    assert_eq!(planning_refusal(&lists, &Lengths { table: 24, ..rooms }), 12);
}

/// The page of a sheet that fits has its head, a line for each slot and no other: none for the carried place, no unit and no count.
#[test]
fn pages_of_sheets_that_fit() {
    for (name, page) in cases::FITS_PAGES {
        let sheet = cases::named(name).sheet;
        let solved = enumerated::solve(&sheet);
        let fault = |page: &str| page::fits_fault(&sheet, solved.as_ref(), page.as_bytes());
        assert_eq!(fault(page), None, "{name}");
        if let Some(solved) = &solved {
            assert!(fault(&String::from_utf8(page::of_plan(&sheet, solved)).unwrap()).is_some(), "{name}");
            assert!(page::fault(&sheet, Some(solved), page.as_bytes()).is_some(), "{name}");
        }
        let carried = format!("{page}(slot {} (range 1 1))\n", sheet.carried_place());
        for wrong in [carried, page.replace("fits", "plan"), page.replace("(range 0", "(count 0) (range 0"), page.replacen("\n", "\n\n", 1)] {
            assert!(wrong == page || fault(&wrong).is_some(), "{name}: {wrong}");
        }
    }
}

/// Each call asks 12 of its own rooms, after all other questions.
#[test]
fn each_call_asks_for_its_own_rooms() {
    let sheet = Sheet::new(3, &[(1, 3), (2, 2)], &[(1, 2, 0, 300)]);
    let (lists, exact) = (Lists::from(&sheet), Lengths::exact(&sheet));
    let answers = |lists: &Lists, rooms: Lengths| Call::ALL.map(|call| refusal(call, lists, &rooms));
    assert_eq!(exact, Lengths { table: 25, plan: 2, earliest: 2, latest: 2, ring: 5 });
    assert_eq!(answers(&lists, exact), [0, 0, 0]);
    assert_eq!(answers(&lists, Lengths { table: 24, ..exact }), [12, 12, 12]);
    assert_eq!(answers(&lists, Lengths { ring: 4, ..exact }), [12, 12, 0]);
    for short in [Lengths { plan: 1, ..exact }, Lengths { earliest: 1, ..exact }, Lengths { latest: 1, ..exact }] {
        assert_eq!(answers(&lists, short), [12, 0, 12], "{short:?}");
    }
    let mut wrong = lists.clone();
    wrong.high[0] = 301;
    assert_eq!(answers(&wrong, Lengths { table: 0, plan: 0, earliest: 0, latest: 0, ring: 0 }), [8, 8, 8]);
}
