//! The calls of this package with more to tell: why a call is refused, in words and with what it is of ([`Refusal`]), and by what limits a sheet
//! has no plan, each with what sets it ([`Ring`]). All else is as the calls of the same names give it.
//!
//! ```
//! use tugrokt::told::{self, Answer};
//! let sheet = told::read(b"(sheet 3)\n(unit 1 (window 1 3))\n(unit 2 (window 1 3))\n(rule (slots 1 3) (count 0 1))\n").unwrap();
//! let Ok(Answer::None(ring)) = told::plan(&sheet) else { panic!("two units, and a rule for one") };
//! assert_eq!(ring.limits[0].to_string(), "(at-most 1 (slots 1 3))");
//! let refusal = told::read(b"(sheet 49)\n").unwrap_err();
//! assert_eq!(refusal.to_string(), "line 1: the span must be 1 to 48 (question 6)");
//! ```

use crate::refusal::{of_lists, of_text};
use crate::{Counts, Plan, Seated, Sheet};

pub use crate::refusal::{Place, Refusal};
pub use crate::ring::{Bound, Limit, Ring, Source};

/// An answer to a sheet.
#[derive(Clone, Debug, PartialEq, Eq)]
pub enum Answer {
    /// The printed plan.
    Plan(Plan),
    /// No plan is lawful, since these limits contradict each other.
    None(Ring),
}

/// Whether a sheet has a plan.
#[derive(Clone, Debug, PartialEq, Eq)]
pub enum Decision {
    /// Some plan is lawful, and the counts of all lawful plans are these.
    Fits(Counts),
    /// No plan is lawful, as in [`Answer::None`].
    None(Ring),
}

/// What a call on a sheet's lists gave.
fn of<T>(sheet: &Sheet, given: Result<T, crate::Refusal>) -> Result<T, Refusal> {
    given.map_err(|refused| of_lists(refused, sheet.lists()))
}

/// As [`Sheet::read`].
pub fn read(text: &[u8]) -> Result<Sheet, Refusal> {
    Sheet::read(text).map_err(of_text)
}

/// As [`Sheet::read_partner`].
pub fn read_partner(text: &[u8]) -> Result<Sheet, Refusal> {
    Sheet::read_partner(text).map_err(of_text)
}

/// As [`Sheet::plan`].
pub fn plan(sheet: &Sheet) -> Result<Answer, Refusal> {
    Ok(match of(sheet, sheet.plan())? {
        crate::Answer::Plan(plan) => Answer::Plan(plan),
        crate::Answer::None { ring } => Answer::None(Ring::of(sheet, ring)),
    })
}

/// As [`Sheet::decide`].
pub fn decide(sheet: &Sheet) -> Result<Decision, Refusal> {
    Ok(match of(sheet, sheet.decide())? {
        crate::Decision::Fits(counts) => Decision::Fits(counts),
        crate::Decision::None { ring } => Decision::None(Ring::of(sheet, ring)),
    })
}

/// As [`Sheet::seat`].
pub fn seat(sheet: &Sheet) -> Result<Option<Seated>, Refusal> {
    of(sheet, sheet.seat())
}

/// As [`Sheet::page`].
pub fn page(sheet: &Sheet) -> Result<Vec<u8>, Refusal> {
    of(sheet, sheet.page())
}

/// As [`Sheet::write`].
pub fn write(sheet: &Sheet) -> Result<Vec<u8>, Refusal> {
    of(sheet, sheet.write())
}

/// As [`Sheet::write_partner`].
pub fn write_partner(sheet: &Sheet) -> Result<Vec<u8>, Refusal> {
    of(sheet, sheet.write_partner())
}

/// As [`merge`](crate::merge).
pub fn merge(one: &[u8], two: &[u8]) -> Result<Sheet, Refusal> {
    crate::merge(one, two).map_err(of_text)
}

/// As [`line_of`](crate::line_of).
pub fn line_of<'a>(one: &'a [u8], two: &'a [u8], loader: u16) -> Result<&'a [u8], Refusal> {
    crate::line_of(one, two, loader).map_err(of_text)
}
