//! The pass, one middle boundary of it and the finder of negative cycles on random weights, through the library for tests, against a
//! plain implementation.

use model::network::{middle, negative_cycle, pass, Outcome, MAX_WEIGHT};
use model::random::{any_sheet, Random};
use model::sheet::Sheet;
use model::tally::Tally;
use model::{effort, seed};
use tugrokt::MAX_BOUNDARIES;

/// The largest weight, as the plain pass counts.
const MOST: i64 = MAX_WEIGHT as i64;

/// What stands past the table, and must stay.
const MARK: i16 = 12_345;

// ---- the plain pass

/// The pass (docs/RULES.md, "The pass") in 64 bits, with what it met on its way.
struct PlainPass {
    w: usize,
    table: Vec<i64>,
    /// The number furthest from 0 at the beginning of a middle boundary, by its size, and the least number on the diagonal there.
    greatest_number: i64,
    least_diagonal: i64,
    /// The sum furthest from 0, by its size.
    greatest_sum: i64,
}

impl PlainPass {
    fn over(weights: &[i16], w: usize) -> PlainPass {
        let table = weights[..w * w].iter().map(|d| i64::from(*d)).collect();
        PlainPass { w, table, greatest_number: 0, least_diagonal: 0, greatest_sum: 0 }
    }

    /// One middle boundary, row after row.
    fn middle(&mut self, m: usize) -> Outcome {
        let w = self.w;
        self.look_over();
        let middle = self.table[m * w..(m + 1) * w].to_vec();
        for (a, row) in self.table.chunks_mut(w).enumerate() {
            let am = row[m];
            for (ab, mb) in row.iter_mut().zip(&middle) {
                self.greatest_sum = self.greatest_sum.max((am + mb).abs());
                *ab = (*ab).min(am + mb);
            }
            if row[a] < 0 {
                return Outcome::Stopped;
            }
        }
        Outcome::Finished
    }

    fn look_over(&mut self) {
        for (i, x) in self.table.iter().enumerate() {
            self.greatest_number = self.greatest_number.max(x.abs());
            if i / self.w == i % self.w {
                self.least_diagonal = self.least_diagonal.min(*x);
            }
        }
    }

    /// One middle boundary after the other, until one stops.
    fn run(&mut self) -> Outcome {
        let stops = (0..self.w).any(|m| self.middle(m) == Outcome::Stopped);
        if stops { Outcome::Stopped } else { Outcome::Finished }
    }

    /// What a call with this outcome leaves where `lent` stood: the table, or zeros in its places; what stands past it stays.
    fn left(&self, outcome: Outcome, lent: &[i16]) -> Vec<i16> {
        let number = |x: &i64| if outcome == Outcome::Finished { i16::try_from(*x).unwrap() } else { 0 };
        self.table.iter().map(number).chain(lent[self.w * self.w..].iter().copied()).collect()
    }
}

// ---- random tables

fn number(r: &mut Random, least: i64, greatest: i64) -> i64 {
    least + r.below((greatest - least + 1) as usize) as i64
}

/// Any width; often a small one, where there is more to tell apart.
fn width(r: &mut Random) -> usize {
    if r.chance(70) { r.between(1, 8) } else { r.between(9, MAX_BOUNDARIES) }
}

/// The entries, row by row, as they are lent: with up to three places past them.
fn lent(r: &mut Random, entries: &[i64]) -> Vec<i16> {
    let past = r.below(4);
    entries.iter().map(|d| i16::try_from(*d).unwrap()).chain(std::iter::repeat_n(MARK, past)).collect()
}

/// The entry (a, b) of each place, row by row.
fn entries(w: usize, mut entry: impl FnMut(usize, usize) -> i64) -> Vec<i64> {
    (0..w * w).map(|i| entry(i / w, i % w)).collect()
}

/// The same with zeros on the diagonal.
fn weights(w: usize, mut weight: impl FnMut(usize, usize) -> i64) -> Vec<i64> {
    entries(w, |a, b| if a == b { 0 } else { weight(a, b) })
}

/// Forward weights of one range, backward weights of another.
fn free_weights(r: &mut Random, w: usize) -> Vec<i64> {
    let forward = *r.pick(&[1, 20, MOST]);
    let (least, greatest) = *r.pick(&[(-MOST, MOST), (-20, 60), (-5, 20), (-1, 1), (-MOST, 0), (0, MOST)]);
    weights(w, |a, b| if a < b { number(r, 0, forward) } else { number(r, least, greatest) })
}

/// The largest weights, save some backward ones far below 0: sums of these go far down before the pass stops.
fn steep_weights(r: &mut Random, w: usize) -> Vec<i64> {
    let steep = r.between(1, 30);
    weights(w, |a, b| if a > b && r.chance(steep) { number(r, -MOST, 0) } else { MOST })
}

/// Weights that leave a potential feasible; in half of them some backward ones are then a little lower, so that many a pass stops late.
fn weights_around(r: &mut Random, w: usize) -> Vec<i64> {
    let mut potential: Vec<i64> = (0..w).map(|_| number(r, 0, MOST)).collect();
    if r.chance(60) {
        potential.sort();
    }
    let room = *r.pick(&[0, 3, MOST]);
    let lowered = if r.chance(50) { r.between(1, 100) } else { 0 };
    weights(w, |a, b| {
        let weight = (potential[b] - potential[a] + number(r, 0, room)).min(MOST);
        if a < b {
            weight.max(0)
        } else if r.chance(lowered) {
            (weight - number(r, 1, 5)).max(-MOST)
        } else {
            weight
        }
    })
}

/// Weights such as a sheet's limits, and sometimes a sheet's limits.
fn limited_weights(r: &mut Random) -> (usize, Vec<i16>) {
    let w = width(r);
    let (w, entries) = match r.below(10) {
        0 => {
            let sheet = any_sheet(r);
            (sheet.boundaries(), sheet.limits())
        }
        1..=3 => (w, free_weights(r, w)),
        4..=5 => (w, steep_weights(r, w)),
        _ => (w, weights_around(r, w)),
    };
    let table = lent(r, &entries);
    (w, table)
}

/// Small numbers of any sign, on the diagonal too, and a middle boundary; in half of them the pass over it finishes.
fn small_numbers(r: &mut Random) -> (usize, usize, Vec<i16>) {
    let w = width(r);
    let m = r.below(w);
    let (least, greatest) = *r.pick(&[(-MOST, MOST), (-20, 60), (-1, 1), (-MOST, 0), (0, MOST)]);
    let extremes = r.chance(20);
    let mut entries = entries(w, |_, _| if extremes { *r.pick(&[-MOST, MOST]) } else { number(r, least, greatest) });
    if r.chance(50) {
        for a in 0..w {
            entries[a * w + a] = entries[a * w + a].abs();
        }
        for a in 0..w {
            entries[a * w + m] = entries[a * w + m].max(-entries[m * w + a]);
        }
    }
    let table = lent(r, &entries);
    (w, m, table)
}

/// Small weights of any sign, zeros on the diagonal.
fn small_weights(r: &mut Random) -> (usize, Vec<i16>) {
    if r.chance(50) {
        return limited_weights(r);
    }
    let w = width(r);
    let (least, greatest) = *r.pick(&[(-MOST, MOST), (-20, 60), (-5, 20), (-1, 1), (0, MOST), (-3, MOST)]);
    let entries = weights(w, |_, _| number(r, least, greatest));
    let table = lent(r, &entries);
    (w, table)
}

// ---- what the cases were

/// A row of more than 32 columns is taken in two stretches.
fn kind(outcome: Outcome, w: usize) -> &'static str {
    match (outcome, w > 32) {
        (Outcome::Finished, false) => "finished",
        (Outcome::Stopped, false) => "stopped",
        (Outcome::Finished, true) => "finished in two stretches a row",
        (Outcome::Stopped, true) => "stopped in two stretches a row",
    }
}

/// Each kind is a fair part of the cases.
fn report(tally: &Tally) {
    tally.report();
    for outcome in [Outcome::Finished, Outcome::Stopped] {
        for (w, part) in [(32, 5), (MAX_BOUNDARIES, 50)] {
            let kind = kind(outcome, w);
            assert!(part * tally.count(kind) > tally.all(), "too few {kind}");
        }
    }
}

// ---- the tests

#[test]
fn limited_weights_against_a_plain_pass() {
    let seed = seed(501);
    let mut tally = Tally::new("network: passes over random weights", seed);
    for i in 0..effort(25_000) {
        let (w, weights) = limited_weights(&mut Random::of_case(seed, i));
        let mut plain = PlainPass::over(&weights, w);
        let expected = plain.run();
        let mut table = weights.clone();
        let at = format!("seed {seed} case {i}: w = {w}, {weights:?}");
        assert_eq!(pass(&mut table, w), Some(expected), "{at}");
        assert_eq!(table, plain.left(expected, &weights), "{at}");
        tally.add(0, kind(expected, w));
    }
    report(&tally);
}

/// At the beginning of each middle boundary no number is further from 0 than the largest weight, and the diagonal is not below 0; no sum
/// is further from 0 than twice the largest weight, those of the middle boundary that stops included.
#[test]
fn numbers_and_sums_stay_small() {
    let seed = seed(502);
    let mut tally = Tally::new("network: sizes in passes over random weights", seed);
    for i in 0..effort(25_000) {
        let (w, weights) = limited_weights(&mut Random::of_case(seed, i));
        let mut plain = PlainPass::over(&weights, w);
        let outcome = plain.run();
        let at = format!("seed {seed} case {i}: w = {w}, {weights:?}");
        assert!(plain.greatest_number <= MOST, "{at}: a number of {}", plain.greatest_number);
        assert!(plain.greatest_sum <= 2 * MOST, "{at}: a sum of {}", plain.greatest_sum);
        assert_eq!(plain.least_diagonal, 0, "{at}");
        tally.add(0, kind(outcome, w));
    }
    report(&tally);
}

/// 300 units that may each come in either of two slots.
#[test]
fn the_greatest_sum_is_reached() {
    let sheet = Sheet::new(2, &[(1, 2); 300], &[]);
    let w = sheet.boundaries();
    let limits: Vec<i16> = sheet.limits().iter().map(|d| i16::try_from(*d).unwrap()).collect();
    let mut plain = PlainPass::over(&limits, w);
    assert_eq!(plain.run(), Outcome::Finished);
    assert_eq!(plain.greatest_sum, 2 * MOST);
    let mut table = limits.clone();
    assert_eq!(pass(&mut table, w), Some(Outcome::Finished));
    assert_eq!(table, plain.left(Outcome::Finished, &limits));
}

/// The pass, one call for each middle boundary until one stops; `None` where a number is too large when one begins.
fn pass_by_middles(table: &mut [i16], w: usize) -> Option<Outcome> {
    for m in 0..w {
        if middle(table, w, m)? == Outcome::Stopped {
            return Some(Outcome::Stopped);
        }
    }
    Some(Outcome::Finished)
}

#[test]
fn one_middle_boundary_after_the_other() {
    let seed = seed(503);
    let mut tally = Tally::new("network: passes taken one middle boundary at a time", seed);
    for i in 0..effort(15_000) {
        let (w, weights) = limited_weights(&mut Random::of_case(seed, i));
        let (mut table, mut whole) = (weights.clone(), weights.clone());
        let at = format!("seed {seed} case {i}: w = {w}, {weights:?}");
        let expected = pass(&mut whole, w).unwrap();
        assert_eq!(pass_by_middles(&mut table, w), Some(expected), "{at}");
        assert_eq!(table, whole, "{at}");
        tally.add(0, kind(expected, w));
    }
    report(&tally);
}

/// One middle boundary of any table whose numbers are small, whatever pass it comes from.
#[test]
fn one_middle_boundary_of_small_numbers() {
    let seed = seed(504);
    let mut tally = Tally::new("network: one middle boundary of small numbers", seed);
    for i in 0..effort(25_000) {
        let (w, m, numbers) = small_numbers(&mut Random::of_case(seed, i));
        let mut plain = PlainPass::over(&numbers, w);
        let expected = plain.middle(m);
        let mut table = numbers.clone();
        let at = format!("seed {seed} case {i}: w = {w}, m = {m}, {numbers:?}");
        assert_eq!(middle(&mut table, w, m), Some(expected), "{at}");
        assert_eq!(table, plain.left(expected, &numbers), "{at}");
        tally.add(0, kind(expected, w));
    }
    report(&tally);
}

/// A cycle is two or more boundaries, none twice, from the lowest on, whose weights add up to less than 0.
fn is_negative_cycle(weights: &[i16], w: usize, cycle: &[u16]) -> bool {
    let sum: i64 = (0..cycle.len())
        .map(|i| i64::from(weights[usize::from(cycle[i]) * w + usize::from(cycle[(i + 1) % cycle.len()])]))
        .sum();
    let lowest_first = cycle[1..].iter().all(|b| cycle[0] < *b);
    let distinct = (0..cycle.len()).all(|i| !cycle[i + 1..].contains(&cycle[i]));
    cycle.len() >= 2 && cycle.iter().all(|b| usize::from(*b) < w) && distinct && lowest_first && sum < 0
}

/// A cycle is found where the plain pass stops.
#[test]
fn negative_cycles_of_small_weights() {
    let seed = seed(505);
    let mut tally = Tally::new("network: negative cycles of random weights", seed);
    for i in 0..effort(25_000) {
        let (w, weights) = small_weights(&mut Random::of_case(seed, i));
        let expected = PlainPass::over(&weights, w).run();
        let mut out = vec![u16::MAX; w + 3];
        let at = format!("seed {seed} case {i}: w = {w}, {weights:?}");
        let found = negative_cycle(&weights, w, &mut out);
        assert_eq!(found.is_some(), expected == Outcome::Stopped, "{at}");
        if let Some(length) = found {
            assert!(is_negative_cycle(&weights, w, &out[..length]), "{at}: {:?}", &out[..length]);
            assert!(out[length..].iter().all(|x| *x == u16::MAX), "{at}: {out:?}");
        }
        tally.add(0, kind(expected, w));
    }
    report(&tally);
}
