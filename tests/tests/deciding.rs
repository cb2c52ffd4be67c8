//! Deciding and seating, through the border: what each asks of its rooms, that neither believes what stands there, and how many units seating
//! looks at. (`planning.rs` holds them to the model and to planning on all its sheets and refusals.)

use model::calls::{called_fault, calls_fault, made, Reply, Rooms};
use model::cases::{self, Says};
use model::questions::{lists_refusal, refusal, Call, Lengths, Lists};
use model::random::{any_sheet, largest_sheet, small_sheet, tied_sheet, Random, Reach};
use model::sheet::{carried_place, Sheet, Solved, MAX_SLOTS, MAX_UNITS};
use model::tally::{self, Tally, CARRIES, NONE, PLAN};
use model::{computed, effort, enumerated, seed};
use tugrokt::entry::{Planning, Seating};

/// The numbers by which the three calls refuse, 0 for an answer.
fn numbers(lists: &Lists, lengths: &Lengths) -> [usize; 3] {
    Call::ALL.map(|call| made(call, lists, &Rooms::marked(lengths)).reply.number())
}

const NO_ROOM: Lengths = Lengths { table: 0, plan: 0, earliest: 0, latest: 0, ring: 0 };

#[test]
fn document_cases() {
    for (case, (_, looked)) in cases::all().into_iter().zip(cases::LOOKED) {
        let (lists, exact) = (Lists::from(&case.sheet), Lengths::exact(&case.sheet));
        let solved = enumerated::solve(&case.sheet);
        let before = Rooms::marked(&exact);
        assert_eq!(calls_fault(&lists, &before, solved.as_ref()), None, "{}", case.name);
        let [_, decided, seated] = Call::ALL.map(|call| made(call, &lists, &before));
        match case.says {
            Says::Plan(slots, windows) => {
                assert_eq!(decided.reply, Reply::Planning(Planning { number: 0, line: 0, length: 0 }), "{}", case.name);
                assert_eq!(decided.rooms.ring, before.ring, "{}", case.name);
                assert_eq!(seated.reply, Reply::Seating(Seating { number: 0, line: 0, planned: 1, looked }), "{}", case.name);
                assert_eq!(seated.rooms.plan, slots, "{}", case.name);
                let between: Vec<(u16, u16)> = seated.rooms.earliest.iter().copied().zip(seated.rooms.latest).collect();
                assert_eq!(between, windows, "{}", case.name);
                assert_eq!(seated.rooms.table, decided.rooms.table, "{}", case.name);
            }
            Says::None(..) => {
                assert!(matches!(decided.reply, Reply::Planning(Planning { number: 0, line: 0, length: 2.. })), "{}", case.name);
                assert_eq!(seated.reply, Reply::Seating(Seating { number: 0, line: 0, planned: 0, looked: 0 }), "{}", case.name);
                let cleared = Rooms { table: vec![0; before.table.len()], ..before };
                assert_eq!(seated.rooms, cleared, "{}", case.name);
                assert_eq!(decided.rooms.table, cleared.table, "{}", case.name);
            }
        }
    }
}

/// The table of a sheet that fits has the counts of the carried place too: both numbers of each stretch of P12, the carried place being
/// slot 4.
#[test]
fn the_carried_place_is_counted() {
    let sheet = cases::named("P12").sheet;
    let before = Rooms::marked(&Lengths::exact(&sheet));
    for call in Call::ALL {
        let table = made(call, &Lists::from(&sheet), &before).rooms.table;
        let range = |first: usize, last: usize| (-table[last * 5 + first - 1], table[(first - 1) * 5 + last]);
        assert_eq!([range(1, 3), range(4, 4), range(3, 4), range(1, 4)], [(1, 1), (1, 1), (1, 2), (2, 2)], "{call:?}");
    }
}

/// What seating replies and leaves, in rooms that are just long enough.
fn seated(sheet: &Sheet) -> (Seating, Rooms) {
    let called = made(Call::Seat, &Lists::from(sheet), &Rooms::marked(&Lengths::exact(sheet)));
    let Reply::Seating(reply) = called.reply else { panic!("{:?} is no reply of seating", called.reply) };
    (reply, called.rooms)
}

/// How many units seating looks at, counted by hand.
#[test]
fn looks_by_hand() {
    for (name, sheet, plan, looked) in cases::looked_at() {
        let (reply, rooms) = seated(&sheet);
        assert_eq!(reply, Seating { number: 0, line: 0, planned: plan.is_some() as usize, looked }, "{name}");
        assert!(plan.is_none_or(|plan| plan == rooms.plan), "{name}: {:?}", rooms.plan);
    }
}

/// Do lines settle the number of looks? Where later lines go first it is another one.
fn goes_by_line(sheet: &Sheet, plan: &[u16]) -> bool {
    let turned = Sheet { units: sheet.units.iter().rev().copied().collect(), ..sheet.clone() };
    turned.looked(&plan.iter().rev().copied().collect::<Vec<_>>()) != sheet.looked(plan)
}

/// Is there an empty slot between two that have units, the carried place being the last?
fn has_gap(plan: &[u16]) -> bool {
    let (first, last) = (plan.iter().min().copied().unwrap_or(0), plan.iter().max().copied().unwrap_or(0));
    (first..last).any(|slot| !plan.contains(&slot))
}

/// The number of looks is the model's, on sheets where ties are frequent, and slots that are empty between others.
#[test]
fn looks_at_random() {
    let mut tally = Tally::new("seating and its looks", seed(605));
    let (mut by_line, mut with_gap) = (0, 0);
    for i in 0..effort(20_000) {
        let sheet = tied_sheet(&mut Random::of_case(seed(605), i));
        let solved = computed::solve(&sheet);
        tally.add(0, tally::answer(&sheet, solved.as_ref()));
        let looked = solved.as_ref().map_or(0, |solved| sheet.looked(&solved.plan));
        let expected = Seating { number: 0, line: 0, planned: solved.is_some() as usize, looked };
        assert_eq!(seated(&sheet).0, expected, "seed {} case {i}: {sheet:?}", seed(605));
        by_line += solved.as_ref().is_some_and(|solved| goes_by_line(&sheet, &solved.plan)) as usize;
        with_gap += solved.as_ref().is_some_and(|solved| has_gap(&solved.plan)) as usize;
    }
    tally.report();
    for (answer, share) in [(PLAN, 3), (NONE, 10), (CARRIES, 10)] {
        assert!(share * tally.count(answer) > tally.all(), "too few {answer}");
    }
    assert!(4 * by_line > tally.all(), "{by_line} go by line");
    assert!(4 * with_gap > tally.all(), "{with_gap} have an empty slot between others");
}

/// Question 12 on every span and with every number of units at the edges: each call asks for every room that it takes, and one place less is
/// refused; rooms that it does not take may have none.
#[test]
fn each_call_asks_for_its_own_rooms() {
    let mut tally = Tally::new("deciding and seating in rooms of every size", 0);
    for (span, n) in (1..=MAX_SLOTS).map(|span| (span, span % 4 + 1)).chain([(1, MAX_UNITS), (MAX_SLOTS, MAX_UNITS)]) {
        // With a plan and with none.
        let rules = [(1, span as u16, 0, 0), (1, span as u16, 1, 300)];
        for rules in [&rules[..1], &rules] {
            let sheet = Sheet::new(span, &vec![(1, carried_place(span) as u16); n], rules);
            let solved = computed::solve(&sheet);
            let exact = Lengths { table: (span + 2) * (span + 2), plan: n, earliest: n, latest: n, ring: span + 2 };
            let for_deciding = Lengths { table: exact.table, ring: exact.ring, ..NO_ROOM };
            for (lengths, expected) in [
                (exact, [0, 0, 0]),
                (Lengths { table: exact.table - 1, ..exact }, [12, 12, 12]),
                (Lengths { ring: exact.ring - 1, ..exact }, [12, 12, 0]),
                (Lengths { plan: n - 1, ..exact }, [12, 0, 12]),
                (Lengths { earliest: n - 1, ..exact }, [12, 0, 12]),
                (Lengths { latest: n - 1, ..exact }, [12, 0, 12]),
                (for_deciding, [12, 0, 12]),
                (Lengths { ring: 0, ..exact }, [12, 12, 0]),
                (Lengths { table: exact.table - 1, ..for_deciding }, [12, 12, 12]),
                (Lengths { ring: exact.ring - 1, ..for_deciding }, [12, 12, 12]),
                (Lengths { table: 0, ..exact }, [12, 12, 12]),
                (NO_ROOM, [12, 12, 12]),
            ] {
                let lists = Lists::from(&sheet);
                assert_eq!(numbers(&lists, &lengths), expected, "{lengths:?}");
                tally.add(0, tally::answer(&sheet, solved.as_ref()));
                assert_eq!(calls_fault(&lists, &Rooms::marked(&lengths), solved.as_ref()), None, "{lengths:?}");
            }
        }
    }
    tally.report();
    assert_eq!(tally.count(NONE), tally.count(CARRIES));
}

/// Rooms of any lengths around those that are asked for: which calls are refused, and what the others leave.
#[test]
fn rooms_of_any_lengths() {
    const NO_CALL: &str = "no call is refused";
    const BUT_DECIDE: &str = "all but deciding are refused";
    const BUT_SEAT: &str = "all but seating are refused";
    const ALL: &str = "all are refused";
    let mut tally = Tally::new("deciding and seating in rooms of any lengths", seed(601));
    for i in 0..effort(30_000) {
        let mut r = Random::of_case(seed(601), i);
        let sheet = small_sheet(&mut r);
        // One in six rooms is too short, where it can be.
        let mut near = |length: usize| if r.chance(16) { r.below(length + 1).min(length.saturating_sub(1)) } else { length + r.below(4) };
        let exact = Lengths::exact(&sheet);
        let lengths = Lengths {
            table: near(exact.table),
            plan: near(exact.plan),
            earliest: near(exact.earliest),
            latest: near(exact.latest),
            ring: near(exact.ring),
        };
        let (lists, solved) = (Lists::from(&sheet), enumerated::solve(&sheet));
        let kind = match Call::ALL.map(|call| refusal(call, &lists, &lengths)) {
            [0, 0, 0] => NO_CALL,
            [12, 0, 12] => BUT_DECIDE,
            [12, 12, 0] => BUT_SEAT,
            [12, 12, 12] => ALL,
            other => panic!("{other:?}: planning asks for all that deciding and seating ask for"),
        };
        tally.add(0, kind);
        let fault = calls_fault(&lists, &Rooms::marked(&lengths), solved.as_ref());
        assert_eq!(fault, None, "seed {} case {i}: {lists:?} {lengths:?}", seed(601));
    }
    tally.report();
    for kind in [NO_CALL, BUT_DECIDE, BUT_SEAT, ALL] {
        assert!(20 * tally.count(kind) > tally.all(), "too seldom: {kind}");
    }
}

/// A table that a caller might hand in: rubbish, the extremes, or one that looks right and is not.
fn handed_in(r: &mut Random, sheet: &Sheet, solved: Option<&Solved>, length: usize) -> Vec<i16> {
    const ENDS: [i16; 8] = [i16::MIN, i16::MIN + 1, -300, -1, 0, 1, 300, i16::MAX];
    let w = sheet.boundaries();
    let front = |front: Vec<i16>, rest: i16| front.iter().copied().chain(std::iter::repeat(rest)).take(length).collect();
    let wide = || Sheet { rules: vec![], ..sheet.clone() };
    match r.below(8) {
        0 => (0..length).map(|_| r.next() as i16).collect(),
        1 => (0..length).map(|_| *r.pick(&ENDS)).collect(),
        2 => vec![*r.pick(&ENDS); length],
        // The finished table of the same sheet without its rules: it fits, whatever the sheet does.
        3 | 4 => front(enumerated::solve(&wide()).expect("windows alone leave a plan").table, 7),
        // The sheet's own limits, as they are before the pass.
        5 => front(sheet.limits().iter().map(|&limit| limit as i16).collect(), 7),
        // The sheet's own finished table, right or with one number off.
        k => match solved {
            Some(solved) => {
                let mut table = solved.table.clone();
                if k == 6 {
                    let at = r.below(w * w);
                    table[at] += if r.chance(50) { 1 } else { -1 };
                }
                front(table, 7)
            }
            None => vec![0; length],
        },
    }
}

/// Whatever stands in the table and in the other rooms before, each call works its answer out from the lists.
#[test]
fn what_stands_in_the_rooms_is_not_believed() {
    let mut tally = Tally::new("deciding and seating with tables handed in", seed(602));
    for i in 0..effort(30_000) {
        let mut r = Random::of_case(seed(602), i);
        let sheet = small_sheet(&mut r);
        let (lists, solved) = (Lists::from(&sheet), enumerated::solve(&sheet));
        tally.add(0, tally::answer(&sheet, solved.as_ref()));
        let exact = Lengths::exact(&sheet);
        let mut before = Rooms::marked(&Lengths { table: exact.table + r.below(3), ring: exact.ring + r.below(3), ..exact });
        before.table = handed_in(&mut r, &sheet, solved.as_ref(), before.table.len());
        let clean = Rooms::marked(&before.lengths());
        assert_eq!(calls_fault(&lists, &before, solved.as_ref()), None, "seed {} case {i}: {sheet:?} {before:?}", seed(602));
        for call in Call::ALL {
            let replies = [&before, &clean].map(|rooms| made(call, &lists, rooms).reply);
            assert_eq!(replies[0], replies[1], "seed {} case {i}: {call:?}", seed(602));
        }
    }
    tally.report();
    for (answer, share) in [(PLAN, 4), (NONE, 4), (CARRIES, 10)] {
        assert!(share * tally.count(answer) > tally.all(), "too few {answer}");
    }
}

/// One set of rooms of the largest sizes, all day: sheets of any size come in any order, and any of the three calls answers each, over what
/// the calls before have left. Some have a fault.
#[test]
fn the_same_rooms_all_day() {
    const SIZES: Lengths = Lengths { table: 50 * 50, plan: 300, earliest: 300, latest: 300, ring: 50 };
    let mut tally = Tally::new("planning, deciding and seating in the same rooms", seed(603));
    let mut counts = [0; 3];
    for day in 0..effort(40) {
        let mut r = Random::of_case(seed(603), day);
        let mut rooms = Rooms::marked(&SIZES);
        for step in 0..40 {
            let sheet = if r.chance(80) { small_sheet(&mut r) } else { any_sheet(&mut r) };
            let mut lists = Lists::from(&sheet);
            if r.chance(15) {
                let end = carried_place(sheet.span) as u16 + 1;
                match r.below(3) {
                    0 => lists.span = 49,
                    1 => lists.add_units(301),
                    _ => lists.last.iter_mut().for_each(|last| *last = end),
                }
            }
            let refused = lists_refusal(&lists);
            let solved = if refused == 0 { computed::solve(&sheet) } else { None };
            tally.add(refused, tally::answer(&sheet, solved.as_ref()));
            // Often one call after the other on the same sheet.
            for _ in 0..r.between(1, 3) {
                let call = *r.pick(&Call::ALL);
                counts[call as usize] += 1;
                let called = made(call, &lists, &rooms);
                let fault = called_fault(call, &lists, &rooms, solved.as_ref(), &called);
                assert_eq!(fault, None, "seed {} day {day} step {step}: {call:?} {lists:?}", seed(603));
                rooms = called.rooms;
            }
        }
    }
    tally.report();
    for (answer, share) in [(PLAN, 4), (NONE, 8), (CARRIES, 20)] {
        assert!(share * tally.count(answer) > tally.all(), "too few {answer}");
    }
    for number in [6, 7, 9] {
        assert!(100 * tally.refused_by(number) > tally.all(), "{number} refuses too seldom");
    }
    assert!(counts.iter().all(|&count| 4 * count > counts.iter().sum::<usize>()), "{counts:?}");
}

/// The largest sheets: the noon question, and the seats when the wave is locked, in the table of noon.
#[test]
fn noon_and_then_the_seats() {
    let mut tally = Tally::new("deciding the largest sheets and then seating them", seed(604));
    for i in 0..effort(24) {
        let mut r = Random::of_case(seed(604), i);
        let reach = [Reach::InsideWave, Reach::PastWave][i % 2];
        let mut sheet = largest_sheet(&mut r, [0, 1, 3][i % 3], [48, 24, 6, 3][i / 2 % 4], reach);
        if i % 3 == 2 {
            // More units are wanted of the whole wave than there are.
            sheet.rules[0] = model::sheet::Rule { from: 1, to: 48, low: 300, high: 300 };
            sheet.units.pop();
        }
        let (lists, solved) = (Lists::from(&sheet), computed::solve(&sheet));
        tally.add(0, tally::answer(&sheet, solved.as_ref()));
        let mut rooms = Rooms::marked(&Lengths::exact(&sheet));
        let planned = made(Call::Plan, &lists, &rooms);
        for call in [Call::Decide, Call::Seat] {
            let called = made(call, &lists, &rooms);
            assert_eq!(called_fault(call, &lists, &rooms, solved.as_ref(), &called), None, "seed {} case {i}: {call:?}", seed(604));
            rooms = called.rooms;
        }
        assert_eq!(rooms, planned.rooms, "seed {} case {i}", seed(604));
    }
    tally.report();
    assert!(4 * tally.count(NONE) > tally.all() && 2 * (tally.count(PLAN) + tally.count(CARRIES)) > tally.all());
}
