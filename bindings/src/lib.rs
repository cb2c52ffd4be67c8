//! The wave planner, called from Rust.
//!
//! [`Sheet`] reads, plans, decides, seats, prints and writes with rooms of its own, and [`merge`] makes one of two; [`entry`] has the planner's
//! open entries as they are, with every room lent by the caller. Only numbers, slices and structs of numbers cross the border.
//!
//! ```
//! # fn main() -> Result<(), tugrokt::Refusal> {
//! let sheet = tugrokt::Sheet::read(b"(sheet 3)\n(unit 4017 (window 1 3))\n(rule (slots 2 3) (count 1 1))\n")?;
//! assert_eq!(sheet.loader, [4017]);
//! match sheet.plan()? {
//!     tugrokt::Answer::Plan(plan) => assert_eq!(plan.slot, [2]),
//!     tugrokt::Answer::None { ring } => println!("no plan: {ring:?}"),
//! }
//! # Ok(())
//! # }
//! ```
//! Where only a yes or no is wanted, and how full the slots can be, [`Sheet::decide`] seats no unit:
//!
//! ```
//! # fn main() -> Result<(), tugrokt::Refusal> {
//! # let sheet = tugrokt::Sheet::read(b"(sheet 3)\n(unit 4017 (window 1 3))\n(rule (slots 2 3) (count 1 1))\n")?;
//! match sheet.decide()? {
//!     tugrokt::Decision::Fits(counts) => assert_eq!([1, 2, 3].map(|slot| counts.range(slot, slot)), [(0, 0), (0, 1), (0, 1)]),
//!     tugrokt::Decision::None { ring } => println!("no plan: {ring:?}"),
//! }
//! # Ok(())
//! # }
//! ```
//! Sheets of the partner house are read into the same lists, and written from them:
//!
//! ```
//! # fn main() -> Result<(), tugrokt::Refusal> {
//! let sheet = tugrokt::Sheet::read_partner(b"(day 7)\n(job 4017 (start 3) (hours 2))\n(limit (from 1) (hours 3) (most 2))\n")?;
//! assert_eq!(sheet.write()?, b"(sheet 7)\n(unit 4017 (window 3 4))\n(rule (slots 1 3) (count 0 2))\n");
//! assert_eq!(tugrokt::Sheet::read_partner(&sheet.write_partner()?)?, sheet);
//! # Ok(())
//! # }
//! ```
//! Two sheets become one, and each unit's line is found where it stands:
//!
//! ```
//! # fn main() -> Result<(), tugrokt::Refusal> {
//! let one = b"(sheet 7)\n(unit 4017 (window 1 3))\n(rule (slots 1 3) (count 0 2))\n";
//! let two = b"(note the other site)\n(sheet 7)\n(rule (slots 1 3) (count 1 4))\n(unit 40 (window 2 8))\n";
//! let sheet = tugrokt::merge(one, two)?;
//! assert_eq!(sheet.write()?, b"(sheet 7)\n(unit 4017 (window 1 3))\n(unit 40 (window 2 8))\n(rule (slots 1 3) (count 1 2))\n");
//! assert_eq!(tugrokt::line_of(one, two, 40)?, b"(unit 40 (window 2 8))");
//! # Ok(())
//! # }
//! ```
//! [`answer`] gives the whole page to a sheet's text. `examples/` has whole programs, and the same in C.
//!
//! A refusal is the number of a question and a line, and a ring is its boundaries. [`told`] has the same calls with more to tell: a refusal in
//! words, with what it is of, and of a sheet without a plan the limits that contradict each other, each with what sets it.

#![warn(missing_docs)]

mod border;
pub mod entry;
mod refusal;
mod ring;
pub mod told;

// The sheet's sizes, as the planner's sources have them (`tests/tests/declarations.rs` holds them to these). Rooms and pages of such
// lengths refuse no sheet.

/// The longest span.
pub const MAX_SLOTS: usize = 48;
/// The most units of a sheet.
pub const MAX_UNITS: usize = 300;
/// The most rules of a sheet.
pub const MAX_RULES: usize = 60;
/// The greatest count of a rule.
pub const MAX_COUNT: usize = 300;
/// The largest loader number.
pub const MAX_LOADER: u16 = 9_999;
/// The longest text that is read.
pub const MAX_BYTES: usize = 16_000;
/// The boundaries of the longest span (see [`boundaries`]).
pub const MAX_BOUNDARIES: usize = MAX_SLOTS + 2;
/// The largest table.
pub const MAX_CELLS: usize = MAX_BOUNDARIES * MAX_BOUNDARIES;
/// The longest answer page, as is proved.
pub const MAX_PAGE: usize = 13_242;
/// The longest text that writing makes, as is proved.
pub const MAX_TEXT: usize = 12_309;

/// The place behind the last slot of a span: a unit with this slot is carried over into the next wave.
pub fn carried_place(span: usize) -> usize {
    // No sheet has a span that this cannot be added to, and none that is handed in may end the program.
    span.saturating_add(1)
}

/// The number of boundaries of a span, 0 to the end of the carried place: the numbers in a row of the table.
pub fn boundaries(span: usize) -> usize {
    carried_place(span).saturating_add(1)
}

/// A call that was refused: the number of the question that was answered no, and the line that it names, or 0.
#[derive(Clone, Copy, Debug, PartialEq, Eq)]
pub struct Refusal {
    /// The number of the question.
    pub question: usize,
    /// For 17 the place of the unit, for 18 that of the rule in its lists, counted from 1.
    pub line: usize,
}

impl std::fmt::Display for Refusal {
    fn fmt(&self, f: &mut std::fmt::Formatter) -> std::fmt::Result {
        write!(f, "(refused {} (line {}))", self.question, self.line)
    }
}

impl std::error::Error for Refusal {}

/// The refusal of a reply with this number and line, if it is one.
fn unless_refused(number: usize, line: usize) -> Result<(), Refusal> {
    match number {
        0 => Ok(()),
        question => Err(Refusal { question, line }),
    }
}

/// A sheet as parallel lists: a loader number and a window for each unit, a stretch and a count for each rule.
#[derive(Clone, Debug, Default, PartialEq, Eq)]
pub struct Sheet {
    /// The number of slots.
    pub span: usize,
    /// Each unit's loader number.
    pub loader: Vec<u16>,
    /// The first slot of each unit's window.
    pub first: Vec<u16>,
    /// The last slot of each unit's window, which may be the [`carried_place`].
    pub last: Vec<u16>,
    /// The first slot of each rule's stretch.
    pub from: Vec<u16>,
    /// The last slot of each rule's stretch.
    pub to: Vec<u16>,
    /// The least count of each rule.
    pub low: Vec<u16>,
    /// The greatest count of each rule.
    pub high: Vec<u16>,
}

/// Whose form a text has.
#[derive(Clone, Copy, Debug, PartialEq, Eq)]
pub enum House {
    /// Our own sheets.
    Ours,
    /// The sheets of the partner house.
    Partner,
}

/// What is asked of a sheet's text.
#[derive(Clone, Copy, Debug, PartialEq, Eq)]
pub enum Query {
    /// Its plan.
    Plan,
    /// Only whether it fits, and how few and how many units each slot can hold.
    Fits,
}

/// An answer to a sheet.
#[derive(Clone, Debug, PartialEq, Eq)]
pub enum Answer {
    /// The printed plan.
    Plan(Plan),
    /// No plan is lawful: the limits of the steps round this list of boundaries add up to less than 0.
    None {
        /// The boundaries, from the lowest on. Boundary b is the end of slot b.
        ring: Vec<u16>,
    },
}

/// Whether a sheet has a plan.
#[derive(Clone, Debug, PartialEq, Eq)]
pub enum Decision {
    /// Some plan is lawful, and the counts of all lawful plans are these.
    Fits(Counts),
    /// No plan is lawful.
    None {
        /// The ring as in [`Answer::None`].
        ring: Vec<u16>,
    },
}

/// How few and how many units lawful plans have in each stretch of slots.
#[derive(Clone, Debug, PartialEq, Eq)]
pub struct Counts {
    table: Vec<i16>,
    span: usize,
}

impl Counts {
    /// The least and the greatest number of units that a lawful plan has in the slots `first` to `last`. The carried place may be among
    /// them, as the last.
    ///
    /// # Panics
    /// Where these slots are no stretch of the sheet's: `1 <= first <= last <= carried_place(span)` does not hold.
    pub fn range(&self, first: usize, last: usize) -> (u16, u16) {
        assert!(1 <= first && first <= last && last <= carried_place(self.span), "{first} to {last} is no stretch");
        let (w, before) = (boundaries(self.span), first - 1);
        ((-self.table[last * w + before]) as u16, self.table[before * w + last] as u16)
    }
}

/// The printed plan, and what holds of all lawful plans.
#[derive(Clone, Debug, PartialEq, Eq)]
pub struct Plan {
    /// Each unit's slot, in the order of the sheet; [`carried_place`] for a unit that is carried over ([`Plan::is_carried`]).
    pub slot: Vec<u16>,
    /// The earliest slot that each unit has in any lawful plan, the carried place being the last.
    pub earliest: Vec<u16>,
    /// The latest slot that each unit has in any lawful plan.
    pub latest: Vec<u16>,
    /// The counts of all lawful plans.
    pub counts: Counts,
}

impl Plan {
    /// Is this unit of the sheet, counted from 0, carried over into the next wave?
    ///
    /// # Panics
    /// Where the sheet has no such unit.
    ///
    /// ```
    /// # fn main() -> Result<(), tugrokt::Refusal> {
    /// let mut sheet = tugrokt::Sheet::new(3);
    /// sheet.add_unit(4017, 1, 4);
    /// sheet.add_unit(212, 1, 4);
    /// sheet.add_rule(1, 3, 1, 1);
    /// let tugrokt::Answer::Plan(plan) = sheet.plan()? else { panic!("one may be carried") };
    /// assert_eq!(plan.slot, [1, 4]);
    /// assert!(!plan.is_carried(0) && plan.is_carried(1));
    /// # Ok(())
    /// # }
    /// ```
    pub fn is_carried(&self, unit: usize) -> bool {
        self.slot[unit] as usize == carried_place(self.counts.span)
    }

    /// How many units this plan has in the slots `first` to `last`. The carried place may be among them, as the last.
    ///
    /// ```
    /// # fn main() -> Result<(), tugrokt::Refusal> {
    /// let mut sheet = tugrokt::Sheet::new(3);
    /// sheet.add_unit(4017, 1, 2);
    /// sheet.add_unit(212, 3, 3);
    /// let tugrokt::Answer::Plan(plan) = sheet.plan()? else { panic!("there is no rule") };
    /// assert_eq!((plan.count(1, 1), plan.count(2, 2), plan.count(1, 3)), (1, 0, 2));
    /// # Ok(())
    /// # }
    /// ```
    pub fn count(&self, first: usize, last: usize) -> usize {
        self.slot.iter().filter(|&&slot| (first..=last).contains(&(slot as usize))).count()
    }

    /// The counts of a stretch over all lawful plans, by [`Counts::range`].
    ///
    /// # Panics
    /// As [`Counts::range`] does.
    pub fn range(&self, first: usize, last: usize) -> (u16, u16) {
        self.counts.range(first, last)
    }
}

/// What seating gives a sheet that fits.
#[derive(Clone, Debug, PartialEq, Eq)]
pub struct Seated {
    /// The plan that [`Sheet::plan`] gives.
    pub plan: Plan,
    /// How many units seating looked at. Order all units by closing slot, and those that close in one slot by line: each slot that has units
    /// in the plan, the carried place among them, adds the place in that order, from 1, of the last of its units.
    pub looked: usize,
}

impl Sheet {
    /// A sheet with this many slots, no units and no rules.
    pub fn new(span: usize) -> Sheet {
        Sheet { span, ..Sheet::default() }
    }

    /// Adds a unit with this loader number and the window `first` to `last`.
    pub fn add_unit(&mut self, loader: u16, first: u16, last: u16) {
        self.loader.push(loader);
        self.first.push(first);
        self.last.push(last);
    }

    /// Adds a rule: `low` to `high` units in the slots `from` to `to`.
    pub fn add_rule(&mut self, from: u16, to: u16, low: u16, high: u16) {
        self.from.push(from);
        self.to.push(to);
        self.low.push(low);
        self.high.push(high);
    }

    /// The lists, to be lent to a call of [`entry`].
    pub fn lists(&self) -> entry::Lists<'_> {
        entry::Lists {
            span: self.span,
            loader: &self.loader,
            first: &self.first,
            last: &self.last,
            from: &self.from,
            to: &self.to,
            low: &self.low,
            high: &self.high,
        }
    }

    /// Reads a sheet from its text.
    pub fn read(text: &[u8]) -> Result<Sheet, Refusal> {
        Sheet::filled_by(|lists| entry::read(text, lists))
    }

    /// Reads a partner's sheet from its text: a job is a unit whose window is its hours, and a limit a rule with the low 0.
    pub fn read_partner(text: &[u8]) -> Result<Sheet, Refusal> {
        Sheet::filled_by(|lists| entry::read_partner(text, lists))
    }

    /// The sheet that a call leaves in lists of its own, unless it is refused.
    fn filled_by(fills: impl FnOnce(entry::ListRooms) -> entry::Reading) -> Result<Sheet, Refusal> {
        let units = || vec![0; MAX_UNITS];
        let rules = || vec![0; MAX_RULES];
        let (mut loader, mut first, mut last) = (units(), units(), units());
        let (mut from, mut to, mut low, mut high) = (rules(), rules(), rules(), rules());
        let lists = entry::ListRooms {
            loader: &mut loader,
            first: &mut first,
            last: &mut last,
            from: &mut from,
            to: &mut to,
            low: &mut low,
            high: &mut high,
        };
        let reply = fills(lists);
        unless_refused(reply.number, reply.line)?;
        for list in [&mut loader, &mut first, &mut last] {
            list.truncate(reply.units);
        }
        for list in [&mut from, &mut to, &mut low, &mut high] {
            list.truncate(reply.rules);
        }
        Ok(Sheet { span: reply.span, loader, first, last, from, to, low, high })
    }

    /// Plans the sheet.
    pub fn plan(&self) -> Result<Answer, Refusal> {
        let mut own = OwnRooms::new(self);
        let reply = entry::plan(self.lists(), own.lend());
        unless_refused(reply.number, reply.line)?;
        Ok(if reply.length > 0 { Answer::None { ring: own.into_ring(reply.length) } } else { Answer::Plan(own.into_plan(self.span)) })
    }

    /// Decides whether the sheet has a plan, and how few and how many units each stretch can hold. No unit is seated.
    pub fn decide(&self) -> Result<Decision, Refusal> {
        let mut own = OwnRooms::new(self);
        let reply = entry::decide(self.lists(), entry::DecideRooms { table: &mut own.table, ring: &mut own.ring });
        unless_refused(reply.number, reply.line)?;
        Ok(if reply.length > 0 { Decision::None { ring: own.into_ring(reply.length) } } else { Decision::Fits(Counts { table: own.table, span: self.span }) })
    }

    /// Seats the units of a sheet that fits: the plan that [`Sheet::plan`] gives, with the number of units that were looked at, or nothing
    /// where no plan is lawful, and no ring is looked for.
    ///
    /// ```
    /// # fn main() -> Result<(), tugrokt::Refusal> {
    /// let mut sheet = tugrokt::Sheet::new(2);
    /// sheet.add_unit(4017, 1, 2);
    /// sheet.add_unit(212, 1, 1);
    /// sheet.add_rule(1, 1, 0, 1);
    /// let seated = sheet.seat()?.expect("the sheet fits");
    /// assert_eq!(seated.plan.slot, [2, 1]);
    /// // The second unit closes first: slot 1 ends with the first unit in that order, slot 2 with the second.
    /// assert_eq!(seated.looked, 1 + 2);
    /// sheet.add_rule(1, 2, 0, 1);
    /// assert_eq!(sheet.seat()?, None);
    /// # Ok(())
    /// # }
    /// ```
    pub fn seat(&self) -> Result<Option<Seated>, Refusal> {
        let mut own = OwnRooms::new(self);
        let OwnRooms { table, plan, earliest, latest, .. } = &mut own;
        let reply = entry::seat(self.lists(), entry::SeatRooms { table, plan, earliest, latest });
        unless_refused(reply.number, reply.line)?;
        Ok((reply.planned == 1).then(|| Seated { plan: own.into_plan(self.span), looked: reply.looked }))
    }

    /// Plans the sheet and prints the answer page.
    pub fn page(&self) -> Result<Vec<u8>, Refusal> {
        let mut own = OwnRooms::new(self);
        let mut page = vec![0; MAX_PAGE];
        let reply = entry::print(self.lists(), own.lend(), &mut page, 0);
        unless_refused(reply.number, reply.line)?;
        page.truncate(reply.place);
        Ok(page)
    }

    /// The sheet's text: the span, the units and the rules, and no notes. [`Sheet::read`] gives the sheet back.
    pub fn write(&self) -> Result<Vec<u8>, Refusal> {
        self.write_by(entry::write_sheet)
    }

    /// The sheet's text in the partner's form. [`Sheet::read_partner`] gives the sheet back.
    ///
    /// The partner has no carried place, and limits have no least count: a sheet with a unit that may be carried is refused by 17, and one
    /// with a low above 0 by 18.
    ///
    /// ```
    /// let mut sheet = tugrokt::Sheet::new(7);
    /// sheet.add_unit(4017, 3, 4);
    /// assert_eq!(sheet.write_partner(), Ok(b"(day 7)\n(job 4017 (start 3) (hours 2))\n".to_vec()));
    /// sheet.add_unit(212, 6, 8);
    /// // The second unit may be carried.
    /// assert_eq!(sheet.write_partner(), Err(tugrokt::Refusal { question: 17, line: 2 }));
    /// ```
    pub fn write_partner(&self) -> Result<Vec<u8>, Refusal> {
        self.write_by(entry::write_partner)
    }

    fn write_by(&self, writes: fn(entry::Lists, &mut [u8], usize) -> entry::Writing) -> Result<Vec<u8>, Refusal> {
        let mut page = vec![0; MAX_TEXT];
        let reply = writes(self.lists(), &mut page, 0);
        unless_refused(reply.number, reply.line)?;
        page.truncate(reply.place);
        Ok(page)
    }
}

/// The answer page to a text, byte for byte as the planner's program prints it: a plan or that the sheet fits, as was asked, none with its ring,
/// or the line of a refusal.
///
/// ```
/// use tugrokt::{answer, House, Query};
/// assert_eq!(answer(House::Ours, Query::Fits, b"(sheet 1)\n"), b"(answer fits 0)\n(slot 1 (range 0 0))\n");
/// assert_eq!(answer(House::Partner, Query::Plan, b"(sheet 1)\n"), b"(refused 3 (line 1))\n");
/// ```
pub fn answer(house: House, query: Query, text: &[u8]) -> Vec<u8> {
    let answers = match (house, query) {
        (House::Ours, Query::Plan) => entry::answer,
        (House::Ours, Query::Fits) => entry::answer_fits,
        (House::Partner, Query::Plan) => entry::answer_partner,
        (House::Partner, Query::Fits) => entry::answer_fits_partner,
    };
    let mut page = vec![0; MAX_PAGE];
    // The page is as long as the longest answer, so that none is refused by 15.
    let reply = answers(text, &mut page, 0);
    page.truncate(reply.place);
    page
}

/// One sheet of two: the units of the first and then those of the second, and one rule for each stretch, in the order in which the stretches
/// first appear, with the largest low and the smallest high of all rules on it, also of those that stand in one text. A plan is lawful for it
/// exactly when it keeps to all windows and all rules of both.
///
/// A refusal by one of reading's questions is of the first text or, where the first is a sheet, of the second. All others name a line of the
/// second: different spans (19), a loader number that is in both (20), more than 300 units together (9), a stretch whose rules leave no count
/// (21), more than 60 stretches (10).
///
/// ```
/// let (one, two) = (b"(sheet 4)\n(unit 12 (window 1 3))\n", b"(sheet 4)\n(note)\n(unit 12 (window 1 4))\n");
/// assert_eq!(tugrokt::merge(one, two), Err(tugrokt::Refusal { question: 20, line: 3 }));
/// ```
pub fn merge(one: &[u8], two: &[u8]) -> Result<Sheet, Refusal> {
    Sheet::filled_by(|lists| entry::merge(one, two, lists))
}

/// The line of the unit with this loader number, without its line feed, as it stands in whichever of two texts that [`merge`] takes holds it: a
/// part of that text, and no copy. Where neither holds such a unit, 27 refuses the call.
///
/// ```
/// let (one, two) = (b"(sheet 4)\n(unit 4017 (window 1 3))\n", b"(sheet 4)\n(unit 40 (window 1 4))\n");
/// assert_eq!(tugrokt::line_of(one, two, 40), Ok(&two[10..32]));
/// assert_eq!(tugrokt::line_of(one, two, 401), Err(tugrokt::Refusal { question: 27, line: 0 }));
/// ```
pub fn line_of<'a>(one: &'a [u8], two: &'a [u8], loader: u16) -> Result<&'a [u8], Refusal> {
    let entry::Line { number, line, sheet, start, length } = entry::line_of(one, two, loader);
    unless_refused(number, line)?;
    let text = if sheet == 1 { one } else { two };
    Ok(&text[start..start + length])
}

/// Rooms that are long enough for one sheet.
struct OwnRooms {
    table: Vec<i16>,
    plan: Vec<u16>,
    earliest: Vec<u16>,
    latest: Vec<u16>,
    ring: Vec<u16>,
}

impl OwnRooms {
    fn new(sheet: &Sheet) -> OwnRooms {
        // A span that is no span is refused before any room is asked for.
        let w = boundaries(sheet.span.min(MAX_SLOTS));
        let units = vec![0; sheet.first.len()];
        OwnRooms {
            table: vec![0; w * w],
            plan: units.clone(),
            earliest: units.clone(),
            latest: units,
            ring: vec![0; w],
        }
    }

    fn lend(&mut self) -> entry::Rooms<'_> {
        entry::Rooms {
            table: &mut self.table,
            plan: &mut self.plan,
            earliest: &mut self.earliest,
            latest: &mut self.latest,
            ring: &mut self.ring,
        }
    }

    /// What a ring of this length leaves.
    fn into_ring(mut self, length: usize) -> Vec<u16> {
        self.ring.truncate(length);
        self.ring
    }

    /// What a plan leaves.
    fn into_plan(self, span: usize) -> Plan {
        let OwnRooms { table, plan, earliest, latest, .. } = self;
        Plan { slot: plan, earliest, latest, counts: Counts { table, span } }
    }
}
