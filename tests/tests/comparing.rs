//! Sheets that customers compare, through the border and through the program: the same wave listed in another order, and one with wider
//! windows and looser rules. The answers to both are compared with each other, and not with the model.

use model::comparing::{loosened, loosened_fault, of_pages, planned, printed, shuffled, shuffled_fault, Answer, Asking, Loader};
use model::program::{run, Asked};
use model::random::{any_sheet, largest_sheet, sheet_up_to, small_sheet, tied_sheet, Random, Reach};
use model::sheet::Sheet;
use model::tally::{Tally, CARRIES, NONE, PLAN};
use model::{effort, seed};

/// A sheet of any kind; small ones are frequent, and such as have many equal closing slots.
fn drawn(r: &mut Random, i: usize) -> Sheet {
    match i % 40 {
        0 => {
            let (slack, widest) = (r.below(3), r.between(3, 48));
            largest_sheet(r, slack, widest, Reach::PastWave)
        }
        1..=4 => any_sheet(r),
        5..=14 => sheet_up_to(r, 12, 16),
        15..=24 => tied_sheet(r),
        _ => small_sheet(r),
    }
}

/// What two answers make together: a fault, or what kind of pair they are.
type Paired<T> = fn(Option<&Answer>, Option<&Answer>) -> T;

/// Draws sheets and makes another of each, has both answered, counts the pair by its kind, and fails where there is a fault.
fn hold(
    tally: &mut Tally,
    cases: usize,
    other: fn(&mut Random, &Sheet) -> Sheet,
    asks: fn(&mut Random, &Sheet) -> Asking,
    fault: Paired<Option<String>>,
    kind: Paired<&'static str>,
) {
    for i in 0..cases {
        let mut r = Random::of_case(tally.seed(), i);
        let sheet = drawn(&mut r, i);
        let other = other(&mut r, &sheet);
        let sheets = [sheet, other];
        let case = || format!("seed {} case {i}: {sheets:?}", tally.seed());
        let answers = sheets.each_ref().map(|sheet| asks(&mut r, sheet).unwrap_or_else(|fault| panic!("{}\n{fault}", case())));
        let [one, two] = answers.each_ref().map(Option::as_ref);
        if let Some(fault) = fault(one, two) {
            panic!("{}\n{fault}", case());
        }
        tally.add(0, kind(one, two));
    }
    tally.report();
}

const OTHER_SEATS: &str = "with a plan and other seats";
const OTHERS_CARRIED: &str = "with a plan that carries units and other seats";

fn kind_of_shuffled(one: Option<&Answer>, two: Option<&Answer>) -> &'static str {
    let (Some(one), Some(two)) = (one, two) else { return NONE };
    match (one.other_seats(two) > 0, one.counts.last() > Some(&0)) {
        (false, false) => PLAN,
        (false, true) => CARRIES,
        (true, false) => OTHER_SEATS,
        (true, true) => OTHERS_CARRIED,
    }
}

fn hold_shuffled(name: &'static str, own: u64, cases: usize, asks: fn(&mut Random, &Sheet) -> Asking) {
    let mut tally = Tally::new(name, seed(own));
    hold(&mut tally, cases, shuffled, asks, shuffled_fault, kind_of_shuffled);
    for (kind, share) in [(PLAN, 8), (CARRIES, 40), (NONE, 8), (OTHER_SEATS, 40), (OTHERS_CARRIED, 60)] {
        assert!(share * tally.count(kind) > tally.all(), "too few {kind}");
    }
}

const SAME_BOUNDS: &str = "with a plan and the same ranges";
const WIDER_BOUNDS: &str = "with a plan and a wider range";
const PLAN_AT_LAST: &str = "with a plan where there was none";

fn kind_of_loosened(strict: Option<&Answer>, loose: Option<&Answer>) -> &'static str {
    match (strict, loose) {
        (Some(strict), Some(loose)) if strict.bounds == loose.bounds => SAME_BOUNDS,
        (Some(_), _) => WIDER_BOUNDS,
        (None, Some(_)) => PLAN_AT_LAST,
        (None, None) => NONE,
    }
}

fn hold_loosened(name: &'static str, own: u64, cases: usize, asks: fn(&mut Random, &Sheet) -> Asking) {
    let mut tally = Tally::new(name, seed(own));
    hold(&mut tally, cases, loosened, asks, loosened_fault, kind_of_loosened);
    for (kind, share) in [(SAME_BOUNDS, 10), (WIDER_BOUNDS, 8), (PLAN_AT_LAST, 40), (NONE, 20)] {
        assert!(share * tally.count(kind) > tally.all(), "too few {kind}");
    }
}

#[test]
fn listed_in_another_order() {
    hold_shuffled("planning sheets in two orders", 901, effort(12_000), |_, sheet| planned(sheet));
}

#[test]
fn pages_in_another_order() {
    hold_shuffled("the program on sheets in two orders", 902, effort(600), printed);
}

#[test]
fn with_wider_windows_and_looser_rules() {
    hold_loosened("planning sheets and looser ones", 903, effort(12_000), |_, sheet| planned(sheet));
}

#[test]
fn pages_with_wider_windows_and_looser_rules() {
    hold_loosened("the program on sheets and looser ones", 904, effort(600), printed);
}

/// A unit for each of 4 slots, and one that is carried: loaders 11 and 12 close in slot 2, 13 and 14 in slot 4, and 15 alone in the carried
/// place.
fn known() -> Sheet {
    let rules: Vec<_> = (1..=4).map(|slot| (slot, slot, 0, 1)).collect();
    Sheet::new(4, &[(1, 2), (1, 2), (1, 4), (1, 4), (1, 5)], &rules).numbered(&[11, 12, 13, 14, 15])
}

/// Two loaders have each other's seat or narrowed window.
fn exchange<T>(answer: &mut Answer, loaders: [u16; 2], part: fn(&mut Loader) -> &mut T) {
    let [mut one, mut two] = loaders.map(|loader| answer.loaders[&loader]);
    std::mem::swap(part(&mut one), part(&mut two));
    answer.loaders.extend(loaders.into_iter().zip([one, two]));
}

/// Turned round, the known sheet exchanges the seats of loaders with equal closing slots, and no other.
#[test]
fn a_known_sheet_turned_round() {
    let mut turned = known();
    turned.units.reverse();
    turned.rules.reverse();
    let [one, two] = [known(), turned].map(|sheet| planned(&sheet).unwrap().unwrap());
    assert_eq!(one.loaders.values().map(|l| l.seat).collect::<Vec<_>>(), [1, 2, 3, 4, 5]);
    assert_eq!(two.loaders.values().map(|l| l.seat).collect::<Vec<_>>(), [2, 1, 4, 3, 5]);
    assert_eq!(shuffled_fault(Some(&one), Some(&two)), None);
    assert_eq!(one.other_seats(&two), 4);
}

/// Answers that must not agree: each is told, by what is wrong with it.
#[test]
fn wrong_answers_are_told() {
    let right = planned(&known()).unwrap().unwrap();
    let told = |wrongs: fn(&mut Answer)| {
        let mut wrong = right.clone();
        wrongs(&mut wrong);
        let faults = [shuffled_fault(Some(&right), Some(&wrong)), shuffled_fault(Some(&wrong), Some(&right))];
        faults.map(|fault| fault.map_or("nothing".to_string(), |fault| fault.split(':').next().unwrap().to_string()))
    };
    const ALONE: &str = "seats of loaders alone in their closing slot";
    let wrongs: [(fn(&mut Answer), &str); 11] = [
        (|_| (), "nothing"),
        (|a| exchange(a, [11, 12], |l| &mut l.seat), "nothing"),
        (|a| exchange(a, [13, 14], |l| &mut l.seat), "nothing"),
        (|a| exchange(a, [12, 13], |l| &mut l.seat), "seats by closing slot"),
        (|a| exchange(a, [14, 15], |l| &mut l.seat), ALONE),
        (|a| a.loaders.get_mut(&11).unwrap().seat = 2, "seats by closing slot"),
        (|a| a.loaders.get_mut(&15).unwrap().seat = 4, ALONE),
        (|a| exchange(a, [12, 13], |l| &mut l.narrowed), "narrowed windows"),
        (|a| a.loaders.get_mut(&14).unwrap().narrowed.1 -= 1, "narrowed windows"),
        (|a| a.loaders.retain(|&loader, _| loader != 13), "narrowed windows"),
        (|a| (a.counts[3], a.counts[4]) = (0, 2), "counts"),
    ];
    for (i, (wrongs, expected)) in wrongs.into_iter().enumerate() {
        assert_eq!(told(wrongs), [expected; 2], "wrong answer {i}");
    }
    let (lost, found) = (shuffled_fault(Some(&right), None), shuffled_fault(None, Some(&right)));
    assert!(lost.is_some() && found.is_some());
    assert!(loosened_fault(Some(&right), None).is_some());
    assert_eq!([shuffled_fault(None, None), loosened_fault(None, None), loosened_fault(None, Some(&right))], [None, None, None]);
    // Every number of the table counts, and for a looser sheet by its direction.
    for place in 0..right.bounds.len() {
        let mut wrong = right.clone();
        wrong.bounds[place] += 1;
        assert!(shuffled_fault(Some(&right), Some(&wrong)).is_some(), "{place}");
        assert_eq!(loosened_fault(Some(&right), Some(&wrong)), None, "{place}");
        assert!(loosened_fault(Some(&wrong), Some(&right)).is_some(), "{place}");
    }
}

/// Every digit of a page counts: with another one in its place the page is none of the sheet's, or is told from the right one.
#[test]
fn wrong_pages_are_told() {
    let pages = [Asked::Plan, Asked::Fits].map(|asked| String::from_utf8(run(asked, &known().text(), &[], None)).unwrap());
    let right = of_pages(&known(), &pages[0], &pages[1]).unwrap().unwrap();
    let mut tried = 0;
    for of in 0..2 {
        for at in (0..pages[of].len()).filter(|&at| pages[of].as_bytes()[at].is_ascii_digit()) {
            for digit in ('0'..='9').filter(|digit| !pages[of][at..].starts_with(*digit)) {
                let mut wrong = pages.clone();
                wrong[of].replace_range(at..=at, &digit.to_string());
                let told = of_pages(&known(), &wrong[0], &wrong[1]).map(|answer| shuffled_fault(Some(&right), answer.as_ref()));
                assert_ne!(told, Ok(None), "{}{}", wrong[0], wrong[1]);
                tried += 1;
            }
        }
    }
    assert!(tried > 300);
    for (of, from, to) in [(0, "(carried)", "(slot 4)"), (1, " (range", "  (range")] {
        let mut wrong = pages.clone();
        wrong[of] = pages[of].replace(from, to);
        assert!(shuffled_fault(Some(&right), of_pages(&known(), &wrong[0], &wrong[1]).unwrap().as_ref()).is_some(), "{}", wrong[of]);
    }
    // For a looser sheet each page is told by a range that has lost a count.
    for (of, narrower) in [(0, "(range 2 1)"), (0, "(range 1 0)"), (1, "(range 2 1)"), (1, "(range 1 0)")] {
        let mut wrong = pages.clone();
        wrong[of] = pages[of].replacen("(range 1 1)", narrower, 1);
        assert!(loosened_fault(Some(&right), of_pages(&known(), &wrong[0], &wrong[1]).unwrap().as_ref()).is_some(), "{}", wrong[of]);
    }
    let none = "(answer none)\n(shortfall 1)\n".to_string();
    for (plan, fits) in [(&pages[0], &none), (&none, &pages[1]), (&pages[1], &pages[1]), (&pages[0], &pages[0])] {
        assert!(of_pages(&known(), plan, fits).is_err());
    }
}
