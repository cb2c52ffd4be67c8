//! What a refused call is told: the question that was answered no, in words, and what it was asked of.

use crate::entry::{self, Lists};
use std::fmt;

/// What a refusal is of.
#[derive(Clone, Copy, Debug, PartialEq, Eq)]
pub enum Place {
    /// The text, the lists or the call as a whole.
    Whole,
    /// A line of the text, counted from 1.
    Line(usize),
    /// A unit, by its index in the sheet's lists.
    Unit(usize),
    /// A rule, by its index in the sheet's lists.
    Rule(usize),
}

impl fmt::Display for Place {
    /// As a person counts: from 1.
    fn fmt(&self, f: &mut fmt::Formatter) -> fmt::Result {
        match self {
            Place::Whole => write!(f, "the whole"),
            Place::Line(line) => write!(f, "line {line}"),
            Place::Unit(index) => write!(f, "unit {}", index.saturating_add(1)),
            Place::Rule(index) => write!(f, "rule {}", index.saturating_add(1)),
        }
    }
}

/// A call that was refused, by the question that was answered no. `docs/RULES.md` has the questions by number, and the order in which each
/// call asks them.
///
/// ```
/// use tugrokt::told::{self, Place, Refusal};
/// let refusal = told::read(b"(sheet 4)\n(unit 1 (window 4 3))\n").unwrap_err();
/// assert_eq!(refusal, Refusal::Slots(Place::Line(2)));
/// assert_eq!(refusal.page(), "(refused 7 (line 2))\n");
/// assert!(refusal.to_string().starts_with("line 2: the slots must be 1 ≤ first ≤ last ≤ span"));
/// let mut sheet = tugrokt::Sheet::new(4);
/// sheet.add_unit(4017, 1, 4);
/// sheet.add_unit(212, 4, 3);
/// assert_eq!(told::plan(&sheet), Err(Refusal::Slots(Place::Unit(1))));
/// ```
#[derive(Clone, Copy, Debug, PartialEq, Eq)]
#[non_exhaustive]
pub enum Refusal {
    /// 1: the text has too many bytes.
    TextTooLong,
    /// 2: a byte of the line is none that a sheet may have.
    ForeignByte(Place),
    /// 3: the line is none of the forms, or has no line feed.
    NoForm(Place),
    /// 4: a number has too many digits, or a needless zero in front.
    NumberForm(Place),
    /// 5: the form that gives the span is missing, is not the first, or comes again.
    SpanForm(Place),
    /// 6: the span is too small or too large.
    Span(Place),
    /// 7: a window or a stretch does not run upward inside the span.
    Slots(Place),
    /// 8: a low is above its high, or a high is too large.
    Count(Place),
    /// 9: there are too many units.
    TooManyUnits(Place),
    /// 10: there are too many rules.
    TooManyRules(Place),
    /// 11: the brackets of a note do not match.
    NoteBrackets(Place),
    /// 12: a lent room is too short.
    RoomTooShort,
    /// 13: lists that belong together differ in length.
    UnequalLists,
    /// 15: the page does not hold the whole answer, or the whole text.
    PageTooShort,
    /// 16: a loader number is too small, too large, or on an earlier unit too.
    Loader(Place),
    /// 17: a unit may be carried, and the partner has no carried place.
    MayBeCarried(Place),
    /// 18: a rule has a low, and the partner has none.
    HasLow(Place),
    /// 19: two sheets differ in their spans.
    UnequalSpans(Place),
    /// 20: a loader number is in both sheets.
    LoaderInBoth(Place),
    /// 21: the rules of two sheets leave no count on a stretch.
    CrossedCounts(Place),
    /// 27: the loader number is in neither sheet.
    UnknownLoader,
    /// A question that this package does not know. No entry of the library that it is built with asks one.
    Other {
        /// Its number.
        question: usize,
        /// What the reply has for its line.
        line: usize,
    },
}

/// The refusal of a reply with this number, of this place.
fn refusal(number: usize, line: usize, place: Place) -> Refusal {
    match number {
        1 => Refusal::TextTooLong,
        2 => Refusal::ForeignByte(place),
        3 => Refusal::NoForm(place),
        4 => Refusal::NumberForm(place),
        5 => Refusal::SpanForm(place),
        6 => Refusal::Span(place),
        7 => Refusal::Slots(place),
        8 => Refusal::Count(place),
        9 => Refusal::TooManyUnits(place),
        10 => Refusal::TooManyRules(place),
        11 => Refusal::NoteBrackets(place),
        12 => Refusal::RoomTooShort,
        13 => Refusal::UnequalLists,
        15 => Refusal::PageTooShort,
        16 => Refusal::Loader(place),
        17 => Refusal::MayBeCarried(place),
        18 => Refusal::HasLow(place),
        19 => Refusal::UnequalSpans(place),
        20 => Refusal::LoaderInBoth(place),
        21 => Refusal::CrossedCounts(place),
        27 => Refusal::UnknownLoader,
        question => Refusal::Other { question, line },
    }
}

/// The refusal of a call on a text.
pub(crate) fn of_text(refused: crate::Refusal) -> Refusal {
    let crate::Refusal { question, line } = refused;
    refusal(question, line, if line == 0 { Place::Whole } else { Place::Line(line) })
}

/// The refusal of a call on lists.
pub(crate) fn of_lists(refused: crate::Refusal, lists: Lists) -> Refusal {
    let crate::Refusal { question, line } = refused;
    let place = match question {
        7 | 8 | 16 => at_fault(question, lists),
        17 => Place::Unit(line.saturating_sub(1)),
        18 => Place::Rule(line.saturating_sub(1)),
        _ => Place::Whole,
    };
    refusal(question, line, place)
}

/// The first unit, or else the first rule, at which this question is answered no. The planner names none of them by a line, so it is asked
/// again, of some of the units alone, and then of some of the rules. Writing asks the lists' questions before 15, so that it needs no page here.
fn at_fault(number: usize, lists: Lists) -> Place {
    let refused = |units: usize, rules: usize| entry::write_sheet(lists.fronts(units, rules), &mut [], 0).number == number;
    let unit = first_refused(lists.loader.len(), |units| refused(units, 0)).map(Place::Unit);
    unit.or_else(|| first_refused(lists.from.len(), |rules| refused(0, rules)).map(Place::Rule)).unwrap_or(Place::Whole)
}

/// The index of the entry with which a list is first refused, by how many of its first entries are asked of. A front that is refused stays so
/// with more entries.
fn first_refused(length: usize, refused: impl Fn(usize) -> bool) -> Option<usize> {
    let fronts: Vec<usize> = (1..=length).collect();
    Some(fronts.partition_point(|&front| !refused(front))).filter(|&index| index < length)
}

impl Refusal {
    /// The number of the question.
    pub fn question(&self) -> usize {
        match self {
            Refusal::TextTooLong => 1,
            Refusal::ForeignByte(_) => 2,
            Refusal::NoForm(_) => 3,
            Refusal::NumberForm(_) => 4,
            Refusal::SpanForm(_) => 5,
            Refusal::Span(_) => 6,
            Refusal::Slots(_) => 7,
            Refusal::Count(_) => 8,
            Refusal::TooManyUnits(_) => 9,
            Refusal::TooManyRules(_) => 10,
            Refusal::NoteBrackets(_) => 11,
            Refusal::RoomTooShort => 12,
            Refusal::UnequalLists => 13,
            Refusal::PageTooShort => 15,
            Refusal::Loader(_) => 16,
            Refusal::MayBeCarried(_) => 17,
            Refusal::HasLow(_) => 18,
            Refusal::UnequalSpans(_) => 19,
            Refusal::LoaderInBoth(_) => 20,
            Refusal::CrossedCounts(_) => 21,
            Refusal::UnknownLoader => 27,
            Refusal::Other { question, .. } => *question,
        }
    }

    /// What it is of.
    pub fn place(&self) -> Place {
        match *self {
            Refusal::ForeignByte(place) | Refusal::NoForm(place) | Refusal::NumberForm(place) | Refusal::SpanForm(place) | Refusal::Span(place)
            | Refusal::Slots(place) | Refusal::Count(place) | Refusal::TooManyUnits(place) | Refusal::TooManyRules(place)
            | Refusal::NoteBrackets(place) | Refusal::Loader(place) | Refusal::MayBeCarried(place) | Refusal::HasLow(place)
            | Refusal::UnequalSpans(place) | Refusal::LoaderInBoth(place) | Refusal::CrossedCounts(place) => place,
            Refusal::TextTooLong | Refusal::RoomTooShort | Refusal::UnequalLists | Refusal::PageTooShort | Refusal::UnknownLoader
            | Refusal::Other { .. } => Place::Whole,
        }
    }

    /// The number behind `line` on the page of the refusal: a line of the text, for 17 the place of the unit and for 18 that of the rule in its
    /// lists, counted from 1, and else 0.
    pub fn line(&self) -> usize {
        match *self {
            Refusal::MayBeCarried(Place::Unit(index)) | Refusal::HasLow(Place::Rule(index)) => index.saturating_add(1),
            Refusal::Other { line, .. } => line,
            _ => if let Place::Line(line) = self.place() { line } else { 0 },
        }
    }

    /// The page that the program prints of it, as `(refused 7 (line 3))` and a line feed.
    pub fn page(&self) -> String {
        format!("(refused {} (line {}))\n", self.question(), self.line())
    }

    /// Which of two texts a refusal by [`merge`](crate::told::merge) or [`line_of`](crate::told::line_of) is of, the first (1) or the second (2): the first
    /// where the first alone is refused, and where all rules that cross are its own. None for a loader number that is in neither.
    ///
    /// ```
    /// use tugrokt::told;
    /// let (one, two) = (b"(sheet 4)\n(unit 12 (window 1 3))\n", b"(sheet 5)\n");
    /// assert_eq!(told::merge(one, two).unwrap_err().text(one), Some(2));
    /// assert_eq!(told::merge(b"(sheet 49)\n", two).unwrap_err().text(b"(sheet 49)\n"), Some(1));
    /// assert_eq!(told::line_of(one, one, 7).unwrap_err().text(one), Some(2));
    /// ```
    pub fn text(&self, one: &[u8]) -> Option<usize> {
        match self {
            Refusal::UnknownLoader => None,
            Refusal::CrossedCounts(Place::Whole) => Some(1),
            _ if crate::Sheet::read(one).is_err() => Some(1),
            _ => Some(2),
        }
    }

    /// What would have to be so.
    pub fn demand(&self) -> &'static str {
        match self {
            Refusal::TextTooLong => "the text must have at most 16,000 bytes",
            Refusal::ForeignByte(_) => "every byte must be a printable one of ASCII (32 to 126) or a line feed",
            Refusal::NoForm(_) => "the line must be one of the forms, exactly as shown, with a line feed at its end",
            Refusal::NumberForm(_) => "a number must have at most four digits, and no needless zero in front",
            Refusal::SpanForm(_) => "the form that gives the span must come first, apart from notes, and only once",
            Refusal::Span(_) => "the span must be 1 to 48",
            Refusal::Slots(_) => "the slots must be 1 ≤ first ≤ last ≤ span (a window on a sheet of ours may end with span + 1)",
            Refusal::Count(_) => "the count must be low ≤ high ≤ 300",
            Refusal::TooManyUnits(_) => "there must be at most 300 units",
            Refusal::TooManyRules(_) => "there must be at most 60 rules",
            Refusal::NoteBrackets(_) => "the note's brackets must match, the outer one closing at the end of the line, at most 16 deep",
            Refusal::RoomTooShort => "every lent room must be long enough",
            Refusal::UnequalLists => "lists that belong together must have equal length",
            Refusal::PageTooShort => "the page must hold the whole answer, or the whole text",
            Refusal::Loader(_) => "the loader number must be 1 to 9999, and on no earlier unit",
            Refusal::MayBeCarried(_) => "for the partner no unit may be carried",
            Refusal::HasLow(_) => "for the partner the low of every rule must be 0",
            Refusal::UnequalSpans(_) => "the two sheets must have the same span",
            Refusal::LoaderInBoth(_) => "no loader number may be in both sheets",
            Refusal::CrossedCounts(_) => "on each stretch the largest low of all rules must be at most the smallest high",
            Refusal::UnknownLoader => "the loader number must be in one of the two sheets",
            Refusal::Other { .. } => "a question must be answered yes",
        }
    }
}

impl fmt::Display for Refusal {
    /// What it is of, what would have to be so, and the number of the question.
    fn fmt(&self, f: &mut fmt::Formatter) -> fmt::Result {
        if self.place() != Place::Whole {
            write!(f, "{}: ", self.place())?;
        }
        write!(f, "{} (question {})", self.demand(), self.question())
    }
}

impl std::error::Error for Refusal {}
