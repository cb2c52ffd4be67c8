//! Two sheets made one, and the lines of its units (docs/RULES.md, "Two sheets made one"), straight from the words: rules are gathered stretch by
//! stretch, and each question is asked of what both texts say.

use crate::house::House;
use crate::reading::{fits_into, locate, Located, Refusal, Spot};
use crate::sheet::{Rule, Sheet, MAX_RULES, MAX_UNITS};

/// The stretches of rules, in the order of their first appearance.
pub fn stretches<'a>(rules: impl IntoIterator<Item = &'a Rule>) -> Vec<(u16, u16)> {
    let mut all = Vec::new();
    for rule in rules {
        if !all.contains(&(rule.from, rule.to)) {
            all.push((rule.from, rule.to));
        }
    }
    all
}

/// One sheet of two, whatever the questions say.
pub fn merged(one: &Sheet, two: &Sheet) -> Sheet {
    let given = || one.rules.iter().chain(&two.rules);
    let combined = |(from, to): (u16, u16)| {
        let here = || given().filter(|rule| (rule.from, rule.to) == (from, to));
        Rule { from, to, low: here().map(|rule| rule.low).max().unwrap(), high: here().map(|rule| rule.high).min().unwrap() }
    };
    Sheet {
        span: one.span,
        units: one.units.iter().chain(&two.units).copied().collect(),
        rules: stretches(given()).into_iter().map(combined).collect(),
    }
}

/// Two texts that can be merged: both as they were read, and the merged sheet.
#[derive(Clone, Debug, PartialEq, Eq)]
pub struct Pair {
    pub one: Located,
    pub two: Located,
    pub merged: Sheet,
}

/// Where the line of a unit stands: in the first text or the second, 1 or 2.
#[derive(Clone, Debug, PartialEq, Eq)]
pub struct Found {
    pub text: usize,
    pub spot: Spot,
}

/// All questions but 12.
pub fn pair(one: &[u8], two: &[u8]) -> Result<Pair, Refusal> {
    let (one, two) = (locate(House::Ours, one)?, locate(House::Ours, two)?);
    let refused = |number: usize, spot: Option<&Spot>| Err(Refusal { number, line: spot.map_or(0, |spot| spot.number) });
    if one.sheet.span != two.sheet.span {
        return refused(19, Some(&two.span));
    }
    let known = one.sheet.loaders();
    if let Some(j) = two.sheet.units.iter().position(|unit| known.contains(&unit.loader)) {
        return refused(20, Some(&two.units[j]));
    }
    if one.units.len() + two.units.len() > MAX_UNITS {
        return refused(9, Some(&two.units[MAX_UNITS - one.units.len()]));
    }
    let merged = merged(&one.sheet, &two.sheet);
    if let Some(crossed) = merged.rules.iter().find(|rule| rule.low > rule.high) {
        let last = two.sheet.rules.iter().rposition(|rule| (rule.from, rule.to) == (crossed.from, crossed.to));
        return refused(21, last.map(|j| &two.rules[j]));
    }
    let with = |j: usize| stretches(one.sheet.rules.iter().chain(&two.sheet.rules[..=j])).len();
    if let Some(j) = (0..two.rules.len()).find(|&j| with(j) > MAX_RULES) {
        return refused(10, Some(&two.rules[j]));
    }
    Ok(Pair { one, two, merged })
}

impl Pair {
    /// Question 27, and the line of the unit with this loader number.
    pub fn line_of(&self, loader: usize) -> Result<Found, Refusal> {
        for (text, located) in [(1, &self.one), (2, &self.two)] {
            if let Some(i) = located.sheet.units.iter().position(|unit| unit.loader as usize == loader) {
                return Ok(Found { text, spot: located.units[i].clone() });
            }
        }
        Err(Refusal { number: 27, line: 0 })
    }
}

/// The merged sheet, or the refusal, up to question 12.
pub fn merge(one: &[u8], two: &[u8]) -> Result<Sheet, Refusal> {
    pair(one, two).map(|pair| pair.merged)
}

/// Merging into lists of these lengths: three for units, four for rules.
pub fn merge_into(one: &[u8], two: &[u8], units: [usize; 3], rules: [usize; 4]) -> Result<Sheet, Refusal> {
    fits_into(merge(one, two)?, units, rules)
}

/// Where the line of the unit with this loader number stands, or the refusal.
pub fn line_of(one: &[u8], two: &[u8], loader: usize) -> Result<Found, Refusal> {
    pair(one, two)?.line_of(loader)
}

/// The text that a refusal of merging is of, 1 or 2: the first where the first is no sheet, and by 21 where all rules on the stretch are the
/// first's, so that there is no line to name; else the second. Of 27 it is neither, 0.
pub fn text_at_fault(one: &[u8], refusal: Refusal) -> usize {
    match refusal {
        Refusal { number: 27, .. } => 0,
        _ if locate(House::Ours, one).is_err() => 1,
        Refusal { number: 21, line: 0 } => 1,
        _ => 2,
    }
}
