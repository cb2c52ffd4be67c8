//! Why a sheet has no plan: limits of the sheet that contradict each other, each with what sets it.

use crate::{carried_place, Sheet};
use std::fmt;

/// Limits that contradict each other: going round, the at-most limits allow fewer units than the at-least limits ask for.
///
/// ```
/// use tugrokt::told::{self, Answer, Bound, Source};
/// let mut sheet = tugrokt::Sheet::new(3);
/// sheet.add_unit(4017, 1, 3);
/// sheet.add_unit(212, 2, 3);
/// sheet.add_rule(1, 3, 0, 1);
/// let Ok(Answer::None(ring)) = told::plan(&sheet) else { panic!("two units, and a rule for one") };
/// assert_eq!(ring.boundaries, [0, 3]);
/// assert_eq!(ring.shortfall, 1);
/// let [most, least] = &ring.limits[..] else { panic!("two limits") };
/// assert_eq!((most.to_string(), most.bound, &most.sources[..]), ("(at-most 1 (slots 1 3))".into(), Bound::AtMost, &[Source::Rule(0)][..]));
/// assert_eq!((least.to_string(), least.bound, &least.sources[..]), ("(at-least 2 (slots 1 3))".into(), Bound::AtLeast, &[Source::Windows(vec![0, 1])][..]));
/// ```
#[derive(Clone, Debug, PartialEq, Eq)]
pub struct Ring {
    /// The boundaries that it leads through, from the lowest on. Boundary b is the end of slot b.
    pub boundaries: Vec<u16>,
    /// The limit of each step from one boundary to the next, and last of the step back to the first.
    pub limits: Vec<Limit>,
    /// How many units the at-least limits ask for beyond what the at-most limits allow.
    pub shortfall: usize,
}

/// How few or how many units a lawful plan can have in a stretch of slots.
#[derive(Clone, Debug, PartialEq, Eq)]
pub struct Limit {
    /// Which of the two.
    pub bound: Bound,
    /// How few, or how many.
    pub count: u16,
    /// The first slot of the stretch.
    pub first: u16,
    /// The last slot of the stretch: the carried place may be among them.
    pub last: u16,
    /// All that sets it; without one of several, the others set it still. Nothing sets a limit of at least 0.
    pub sources: Vec<Source>,
}

/// Whether a limit is one from above or from below.
#[derive(Clone, Copy, Debug, PartialEq, Eq)]
pub enum Bound {
    /// No lawful plan has more units there.
    AtMost,
    /// No lawful plan has fewer.
    AtLeast,
}

/// What sets a limit.
#[derive(Clone, Debug, PartialEq, Eq)]
pub enum Source {
    /// The high or the low of a rule on just that stretch, by the rule's index in the sheet's lists.
    Rule(usize),
    /// The windows that lie inside the stretch, by their units' indexes in the sheet's lists: these units get a slot there.
    Windows(Vec<usize>),
    /// The number of all units.
    Units,
}

impl fmt::Display for Limit {
    /// Its line on the answer page, without the line feed.
    fn fmt(&self, f: &mut fmt::Formatter) -> fmt::Result {
        let kind = if self.bound == Bound::AtMost { "at-most" } else { "at-least" };
        write!(f, "({kind} {} (slots {} {}))", self.count, self.first, self.last)
    }
}

impl Ring {
    /// The ring that a sheet's page of none shows, and nothing where the page is none of this sheet's.
    ///
    /// ```
    /// use tugrokt::{answer, told::Ring, House, Query, Sheet};
    /// let text = b"(sheet 3)\n(unit 1 (window 1 3))\n(unit 2 (window 1 3))\n(rule (slots 1 3) (count 1 1))\n";
    /// let (page, sheet) = (answer(House::Ours, Query::Fits, text), Sheet::read(text).unwrap());
    /// assert_eq!(Ring::on_page(&sheet, &page).unwrap().boundaries, [0, 3]);
    /// assert_eq!(Ring::on_page(&Sheet::new(3), &page), None);
    /// ```
    pub fn on_page(sheet: &Sheet, page: &[u8]) -> Option<Ring> {
        let page = std::str::from_utf8(page).ok()?;
        let steps = page.lines().filter_map(|line| line.split_once(" (slots ").map(|(bound, slots)| (bound.starts_with("(at-most "), slots)));
        let boundary = |(forward, slots): (bool, &str)| {
            let (first, last) = slots.strip_suffix("))")?.split_once(' ')?;
            let (first, last) = (first.parse::<u16>().ok()?, last.parse::<u16>().ok()?);
            if forward { first.checked_sub(1) } else { Some(last) }
        };
        let ring = Ring::of(sheet, steps.map(boundary).collect::<Option<_>>()?);
        (ring.is_of(sheet) && page == ring.page()).then_some(ring)
    }

    /// Is it a ring of this sheet, given from its lowest boundary on (docs/RULES.md, "Rings")?
    fn is_of(&self, sheet: &Sheet) -> bool {
        let boundaries = &self.boundaries;
        let new = |i: usize| boundaries[0] < boundaries[i] && !boundaries[1..i].contains(&boundaries[i]);
        let inside = boundaries.iter().all(|&boundary| boundary as usize <= carried_place(sheet.span));
        inside && (1..boundaries.len()).all(new) && self.shortfall > 0
    }

    /// The page of none that shows it.
    fn page(&self) -> String {
        let lines: String = self.limits.iter().map(|limit| format!("{limit}\n")).collect();
        format!("(answer none)\n{lines}(shortfall {})\n", self.shortfall)
    }

    /// The ring of a sheet that leads through these boundaries.
    pub(crate) fn of(sheet: &Sheet, boundaries: Vec<u16>) -> Ring {
        let next = boundaries.iter().cycle().skip(1);
        let limits: Vec<Limit> = boundaries.iter().zip(next).map(|(&from, &to)| Limit::of_step(sheet, from, to)).collect();
        let sum = |bound| limits.iter().filter(|l| l.bound == bound).map(|l| l.count as usize).sum::<usize>();
        let shortfall = sum(Bound::AtLeast).saturating_sub(sum(Bound::AtMost));
        Ring { boundaries, limits, shortfall }
    }
}

impl Limit {
    /// The limit of the step from a boundary to another (docs/RULES.md, "Boundaries and limits").
    fn of_step(sheet: &Sheet, from: u16, to: u16) -> Limit {
        let (first, last) = (from.min(to).saturating_add(1), from.max(to));
        let (bound, (count, sources)) = match from < to {
            true => (Bound::AtMost, most(sheet, first, last)),
            false => (Bound::AtLeast, least(sheet, first, last)),
        };
        Limit { bound, count, first, last, sources }
    }
}

/// The indexes of the rules on just this stretch, each with its low and its high.
fn rules_on(sheet: &Sheet, first: u16, last: u16) -> Vec<(usize, u16, u16)> {
    let stretches = sheet.from.iter().zip(&sheet.to);
    let counts = sheet.low.iter().zip(&sheet.high);
    let rules = stretches.zip(counts).enumerate();
    rules.filter(|(_, ((&from, &to), _))| (from, to) == (first, last)).map(|(i, (_, (&low, &high)))| (i, low, high)).collect()
}

/// A number of units, of which no sheet has more than fit.
fn counted(units: usize) -> u16 {
    u16::try_from(units).unwrap_or(u16::MAX)
}

/// How many units a stretch can hold, with what sets that: the number of units, or a rule's high.
fn most(sheet: &Sheet, first: u16, last: u16) -> (u16, Vec<Source>) {
    let rules = rules_on(sheet, first, last);
    let units = counted(sheet.loader.len());
    let count = rules.iter().map(|&(_, _, high)| high).fold(units, u16::min);
    let mut sources: Vec<Source> = rules.iter().filter(|&&(_, _, high)| high == count).map(|&(i, ..)| Source::Rule(i)).collect();
    sources.extend((count == units).then_some(Source::Units));
    (count, sources)
}

/// How few units a stretch can hold, likewise: the windows inside it, or a rule's low.
fn least(sheet: &Sheet, first: u16, last: u16) -> (u16, Vec<Source>) {
    let rules = rules_on(sheet, first, last);
    let windows = sheet.first.iter().zip(&sheet.last).enumerate();
    let inside: Vec<usize> = windows.filter(|&(_, (&from, &to))| first <= from && to <= last).map(|(i, _)| i).collect();
    let windows = counted(inside.len());
    let count = rules.iter().map(|&(_, low, _)| low).fold(windows, u16::max);
    if count == 0 {
        return (0, Vec::new());
    }
    let mut sources: Vec<Source> = rules.iter().filter(|&&(_, low, _)| low == count).map(|&(i, ..)| Source::Rule(i)).collect();
    sources.extend((count == windows).then_some(Source::Windows(inside)));
    (count, sources)
}
