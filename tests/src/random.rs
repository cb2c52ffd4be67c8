//! Random numbers from a printed seed, and random sheets.

use crate::enumerated::count;
use crate::sheet::{carried_place, Rule, Sheet, Unit, MAX_COUNT, MAX_LOADER};

/// SplitMix64.
#[derive(Clone, Debug)]
pub struct Random(u64);

impl Random {
    pub fn new(seed: u64) -> Random {
        Random(seed)
    }

    /// The generator of case `i` of a test: any case can be run again alone.
    pub fn of_case(seed: u64, i: usize) -> Random {
        Random(Random(seed ^ (i as u64).wrapping_mul(0xd134_2543_de82_ef95)).next())
    }

    pub fn next(&mut self) -> u64 {
        self.0 = self.0.wrapping_add(0x9e37_79b9_7f4a_7c15);
        let mut z = self.0;
        z = (z ^ (z >> 30)).wrapping_mul(0xbf58_476d_1ce4_e5b9);
        z = (z ^ (z >> 27)).wrapping_mul(0x94d0_49bb_1331_11eb);
        z ^ (z >> 31)
    }

    /// 0 to n - 1.
    pub fn below(&mut self, n: usize) -> usize {
        ((self.next() as u128 * n as u128) >> 64) as usize
    }

    pub fn between(&mut self, least: usize, greatest: usize) -> usize {
        least + self.below(greatest - least + 1)
    }

    pub fn chance(&mut self, percent: usize) -> bool {
        self.below(100) < percent
    }

    pub fn pick<'a, T>(&mut self, all: &'a [T]) -> &'a T {
        &all[self.below(all.len())]
    }

    pub fn shuffle<T>(&mut self, all: &mut [T]) {
        for i in (1..all.len()).rev() {
            all.swap(i, self.below(i + 1));
        }
    }

    /// A generator beside this one, which goes on as if nothing had been drawn.
    fn beside(&self) -> Random {
        Random(self.0 ^ 0x5851_f42d_4c95_7f2d)
    }

    /// An interval inside 1 to span, at most `widest` slots wide.
    pub fn interval(&mut self, span: usize, widest: usize) -> (u16, u16) {
        let width = self.between(1, widest.clamp(1, span));
        let first = self.between(1, span - width + 1);
        (first as u16, (first + width - 1) as u16)
    }
}

/// Different loader numbers in any order: the smallest or the largest, such as share few remainders, or any.
pub fn loaders(r: &mut Random, n: usize) -> Vec<u16> {
    let mut all: Vec<u16> = match r.below(4) {
        0 => (1..=n as u16).collect(),
        1 => (MAX_LOADER - n as u16 + 1..=MAX_LOADER).collect(),
        2 => {
            let divisor = 1 << r.between(1, 10);
            let start = r.below(divisor);
            let of_remainder = |k: usize| (k % divisor..=MAX_LOADER as usize).step_by(divisor);
            (start..start + divisor).flat_map(of_remainder).filter(|&k| k > 0).take(n).map(|k| k as u16).collect()
        }
        _ => {
            let mut all = Vec::new();
            while all.len() < n {
                let k = r.between(1, MAX_LOADER as usize) as u16;
                if !all.contains(&k) {
                    all.push(k);
                }
            }
            all
        }
    };
    r.shuffle(&mut all);
    all
}

/// How far the windows of a sheet may reach.
#[derive(Clone, Copy, Debug, PartialEq, Eq)]
pub enum Reach {
    /// To the last slot: no unit can be carried.
    InsideWave,
    /// Half of those that reach the last slot reach the carried place too.
    PastWave,
}

impl Reach {
    fn window(self, r: &mut Random, span: usize, widest: usize) -> (u16, u16) {
        let (first, last) = r.interval(span, widest);
        let past = self == Reach::PastWave && last as usize == span && r.chance(50);
        (first, if past { carried_place(span) as u16 } else { last })
    }
}

/// Units with windows of at most this width, the carried place not counted. Their numbers are drawn beside, so that a seed has the
/// windows and rules it has whatever the numbers are.
fn units(r: &mut Random, span: usize, n: usize, widest: usize, reach: Reach) -> Vec<Unit> {
    loaders(&mut r.beside(), n)
        .into_iter()
        .map(|loader| {
            let (first, last) = reach.window(r, span, widest);
            Unit { loader, first, last }
        })
        .collect()
}

/// A rule whose count leaves a plan's count this much room below and above; a negative room shuts that plan out.
fn rule_around(plan: &[u16], (from, to): (u16, u16), below: i64, above: i64) -> Rule {
    let c = count(plan, from as usize - 1, to as usize) as i64;
    let low = (c - below).clamp(0, MAX_COUNT as i64);
    let high = (c + above).clamp(low, MAX_COUNT as i64);
    Rule { from, to, low: low as u16, high: high as u16 }
}

/// Some plan that keeps to the windows.
fn any_plan(r: &mut Random, units: &[Unit]) -> Vec<u16> {
    units.iter().map(|u| r.between(u.first as usize, u.last as usize) as u16).collect()
}

/// A rule with no regard to any plan; some lows lie above n.
fn free_rule(r: &mut Random, stretch: (u16, u16), n: usize) -> Rule {
    let low = if r.chance(60) { 0 } else { r.below(n + 2) };
    let high = if r.chance(10) { MAX_COUNT as usize } else { low + r.below(n + 2) };
    Rule { from: stretch.0, to: stretch.1, low: low as u16, high: high as u16 }
}

/// A sheet small enough to try every plan: at most 5 units and 5 slots.
pub fn small_sheet(r: &mut Random) -> Sheet {
    sheet_up_to(r, 5, 5)
}

/// A sheet with at most so many slots and units. Half of them are built around a plan, with little room or a little too little, so
/// that plan and none are about as frequent.
pub fn sheet_up_to(r: &mut Random, most_slots: usize, most_units: usize) -> Sheet {
    let span = r.between(1, most_slots);
    let n = if r.chance(5) { 0 } else { r.between(1, most_units) };
    let widest = r.between(1, span);
    let units = units(r, span, n, widest, Reach::PastWave);
    let plan = any_plan(r, &units);
    let around = r.chance(60);
    let tight = r.chance(50);
    let wanted = if r.chance(5) { 0 } else { r.between(1, 7) };
    let mut rules: Vec<Rule> = Vec::new();
    for _ in 0..wanted {
        // Often a stretch that a rule has already: several rules on one stretch all count.
        let stretch = if !rules.is_empty() && r.chance(20) {
            let old = r.pick(&rules);
            (old.from, old.to)
        } else {
            r.interval(span, span)
        };
        let rule = if around {
            let room = |r: &mut Random| {
                if r.chance(6) { -1 } else if tight || r.chance(50) { 0 } else { r.below(2) as i64 }
            };
            let (below, above) = (room(r), room(r));
            rule_around(&plan, stretch, below, above)
        } else {
            free_rule(r, stretch, n)
        };
        rules.push(rule);
    }
    Sheet { span, units, rules }
}

/// A sheet of any size up to the greatest, built around a plan. `slack` is the room that rules leave, `shut` how often in a
/// hundred a rule shuts that plan out by one.
pub fn sheet_around(r: &mut Random, span: usize, n: usize, k: usize, widest: usize, slack: usize, shut: usize) -> Sheet {
    let units = units(r, span, n, widest, Reach::PastWave);
    with_rules_around(r, span, units, k, slack, shut)
}

/// The same with these units.
fn with_rules_around(r: &mut Random, span: usize, units: Vec<Unit>, k: usize, slack: usize, shut: usize) -> Sheet {
    let plan = any_plan(r, &units);
    let rules = (0..k)
        .map(|_| {
            let stretch = r.interval(span, span);
            let (below, above) = (r.between(0, slack) as i64, r.between(0, slack) as i64);
            if r.chance(shut) {
                if r.chance(50) { rule_around(&plan, stretch, -1, 1) } else { rule_around(&plan, stretch, 1, -1) }
            } else {
                rule_around(&plan, stretch, below, above)
            }
        })
        .collect();
    Sheet { span, units, rules }
}

/// A sheet whose windows close in at most three slots, so that lines settle most of the order by closing slot, with a rule on each slot around
/// a plan: where these leave no room they shut the slots that it leaves empty.
pub fn tied_sheet(r: &mut Random) -> Sheet {
    let span = r.between(2, 12);
    let n = r.below(2 * span);
    let mut end = || if r.chance(50) { r.between(span, carried_place(span)) } else { r.between(1, span - 1) };
    let ends = [end(), end(), end()];
    let mut units: Vec<Unit> = Vec::new();
    for loader in loaders(&mut r.beside(), n) {
        let last = *r.pick(&ends);
        let first = r.between(1, last.min(span));
        units.push(Unit { loader, first: first as u16, last: last as u16 });
    }
    let plan = any_plan(r, &units);
    let slack = r.chance(30) as usize;
    let mut rules: Vec<Rule> = Vec::new();
    for slot in 1..=span as u16 {
        let room = if r.chance(5) { -1 } else { r.between(0, slack) as i64 };
        rules.push(rule_around(&plan, (slot, slot), room, room));
    }
    Sheet { span, units, rules }
}

/// A sheet as in Chabert and Demassey, section 4: as many units and rules as slots, counts within one of an a priori plan's.
pub fn paper_sheet(r: &mut Random, n: usize, reach: Reach) -> Sheet {
    let units = units(r, n, n, n, reach);
    let plan = any_plan(r, &units);
    let rules = (0..n)
        .map(|_| {
            let stretch = r.interval(n, n);
            rule_around(&plan, stretch, 1, 1)
        })
        .collect();
    Sheet { span: n, units, rules }
}

/// A sheet of any kind: short and long spans, few and many units, with and without a plan.
pub fn any_sheet(r: &mut Random) -> Sheet {
    match r.below(8) {
        0 => small_sheet(r),
        1 => {
            let (n, k) = (r.below(6), r.below(4));
            sheet_around(r, 1, n, k, 1, 1, 20)
        }
        2 => {
            let n = r.between(10, 32);
            paper_sheet(r, n, Reach::PastWave)
        }
        3 => {
            let (n, k, widest) = (r.between(0, 300), r.between(0, 60), r.between(1, 48));
            sheet_around(r, 48, n, k, widest, 2, 4)
        }
        4 => {
            let (k, widest) = (r.between(0, 60), r.between(1, 48));
            sheet_around(r, 48, 300, k, widest, 0, 3)
        }
        5 => {
            let (span, n, k) = (r.between(2, 48), r.between(0, 40), r.between(0, 20));
            let widest = r.between(1, span);
            sheet_around(r, span, n, k, widest, 1, 10)
        }
        6 => {
            let (span, n, k) = (r.between(2, 12), r.between(0, 20), r.between(1, 30));
            let widest = r.between(1, span);
            sheet_around(r, span, n, k, widest, 0, 5)
        }
        _ => {
            let (span, n, k) = (r.between(1, 48), r.between(0, 300), r.between(0, 10));
            sheet_around(r, span, n, k, span, 3, 10)
        }
    }
}

/// The largest sheet with this room in its rules; every rule lies on a stretch of its own.
pub fn largest_sheet(r: &mut Random, slack: usize, widest: usize, reach: Reach) -> Sheet {
    let units = units(r, 48, 300, widest, reach);
    let mut sheet = with_rules_around(r, 48, units, 0, 0, 0);
    let plan = any_plan(r, &sheet.units);
    while sheet.rules.len() < 60 {
        let stretch = r.interval(48, 48);
        if sheet.rules.iter().all(|x| (x.from, x.to) != stretch) {
            let (below, above) = (r.between(0, slack) as i64, r.between(0, slack) as i64);
            sheet.rules.push(rule_around(&plan, stretch, below, above));
        }
    }
    sheet
}
