//! The questions that planning, deciding, seating, printing and writing ask of lists, rooms and pages, in their order (docs/RULES.md, "The
//! order of the questions").

use crate::house::House;
use crate::reading::Refusal;
use crate::sheet::{carried_place, Rule, Sheet, Unit, MAX_COUNT, MAX_LOADER, MAX_RULES, MAX_SLOTS, MAX_UNITS};

/// The lists as they are handed over: any span, any lengths.
#[derive(Clone, Debug, Default, PartialEq, Eq)]
pub struct Lists {
    pub span: usize,
    pub loader: Vec<u16>,
    pub first: Vec<u16>,
    pub last: Vec<u16>,
    pub from: Vec<u16>,
    pub to: Vec<u16>,
    pub low: Vec<u16>,
    pub high: Vec<u16>,
}

/// The calls that answer a sheet's lists.
#[derive(Clone, Copy, Debug, PartialEq, Eq)]
pub enum Call {
    Plan,
    Decide,
    Seat,
}

impl Call {
    pub const ALL: [Call; 3] = [Call::Plan, Call::Decide, Call::Seat];

    /// Does it seat units and narrow windows, and take room for them?
    pub fn seats(self) -> bool {
        self != Call::Decide
    }

    /// Does it show a ring where there is no plan, and take room for it?
    pub fn shows_ring(self) -> bool {
        self != Call::Seat
    }
}

/// The lengths of the rooms lent to planning; deciding and seating are lent some of them.
#[derive(Clone, Copy, Debug, PartialEq, Eq)]
pub struct Lengths {
    pub table: usize,
    pub plan: usize,
    pub earliest: usize,
    pub latest: usize,
    pub ring: usize,
}

impl Lengths {
    /// What question 12 asks for, and no place more.
    pub fn exact(sheet: &Sheet) -> Lengths {
        let (w, n) = (sheet.boundaries(), sheet.units.len());
        Lengths { table: w * w, plan: n, earliest: n, latest: n, ring: w }
    }
}

impl From<&Sheet> for Lists {
    fn from(sheet: &Sheet) -> Lists {
        Lists {
            span: sheet.span,
            loader: sheet.loaders(),
            first: sheet.units.iter().map(|u| u.first).collect(),
            last: sheet.units.iter().map(|u| u.last).collect(),
            from: sheet.rules.iter().map(|r| r.from).collect(),
            to: sheet.rules.iter().map(|r| r.to).collect(),
            low: sheet.rules.iter().map(|r| r.low).collect(),
            high: sheet.rules.iter().map(|r| r.high).collect(),
        }
    }
}

impl Lists {
    /// The sheet that lists of fitting lengths give.
    pub fn sheet(&self) -> Sheet {
        let units = (0..self.first.len()).map(|i| Unit { loader: self.loader[i], first: self.first[i], last: self.last[i] });
        let rules = (0..self.from.len()).map(|i| Rule {
            from: self.from[i],
            to: self.to[i],
            low: self.low[i],
            high: self.high[i],
        });
        Sheet { span: self.span, units: units.collect(), rules: rules.collect() }
    }

    /// Adds units that may sit in slot 1 up to this number, with loader numbers that no unit has yet.
    pub fn add_units(&mut self, length: usize) {
        self.first.resize(length, 1);
        self.last.resize(length, 1);
        let mut numbers = (1..).filter(|k| !self.loader.contains(k)).take(length.saturating_sub(self.loader.len())).collect();
        self.loader.append(&mut numbers);
    }

    /// Adds rules that ask for nothing on slot 1 up to this number.
    pub fn add_rules(&mut self, length: usize) {
        self.from.resize(length, 1);
        self.to.resize(length, 1);
        self.low.resize(length, 0);
        self.high.resize(length, MAX_COUNT);
    }
}

/// Question 7 of a unit: only the last slot may be the carried place.
pub fn is_window(first: u16, last: u16, span: usize) -> bool {
    1 <= first && first as usize <= span && first <= last && last as usize <= carried_place(span)
}

/// Question 7 of a rule.
pub fn is_stretch(from: u16, to: u16, span: usize) -> bool {
    1 <= from && from <= to && to as usize <= span
}

/// Question 8.
pub fn is_count(low: u16, high: u16) -> bool {
    low <= high && high <= MAX_COUNT
}

/// Question 16.
pub fn is_new(loader: u16, earlier: &[u16]) -> bool {
    1 <= loader && loader <= MAX_LOADER && !earlier.contains(&loader)
}

/// The first question of those before 12 that is answered no, or 0.
pub fn lists_refusal(lists: &Lists) -> usize {
    let (n, k) = (lists.first.len(), lists.from.len());
    if lists.loader.len() != n || lists.last.len() != n || lists.to.len() != k || lists.low.len() != k || lists.high.len() != k {
        return 13;
    }
    if lists.span < 1 || lists.span > MAX_SLOTS {
        return 6;
    }
    if n > MAX_UNITS {
        return 9;
    }
    if k > MAX_RULES {
        return 10;
    }
    let units_lie = (0..n).all(|i| is_window(lists.first[i], lists.last[i], lists.span));
    let rules_lie = (0..k).all(|i| is_stretch(lists.from[i], lists.to[i], lists.span));
    if !units_lie || !rules_lie {
        return 7;
    }
    if !(0..n).all(|i| is_new(lists.loader[i], &lists.loader[..i])) {
        return 16;
    }
    if !(0..k).all(|i| is_count(lists.low[i], lists.high[i])) {
        return 8;
    }
    0
}

/// The first question that is answered no, or 0. A call asks 12 of the rooms that it takes, and of no other.
pub fn refusal(call: Call, lists: &Lists, rooms: &Lengths) -> usize {
    let number = lists_refusal(lists);
    if number != 0 {
        return number;
    }
    let needed = Lengths::exact(&lists.sheet());
    let seats_fit = rooms.plan >= needed.plan && rooms.earliest >= needed.earliest && rooms.latest >= needed.latest;
    let enough =
        rooms.table >= needed.table && (!call.seats() || seats_fit) && (!call.shows_ring() || rooms.ring >= needed.ring);
    if enough { 0 } else { 12 }
}

/// The same of planning, and of printing before its 15.
pub fn planning_refusal(lists: &Lists, rooms: &Lengths) -> usize {
    refusal(Call::Plan, lists, rooms)
}

/// Questions 17 and 18, with the first place at fault in its list, from 1.
pub fn partner_refusal(sheet: &Sheet) -> Option<Refusal> {
    if let Some(i) = sheet.units.iter().position(|u| u.last as usize > sheet.span) {
        return Some(Refusal { number: 17, line: i + 1 });
    }
    sheet.rules.iter().position(|r| r.low > 0).map(|i| Refusal { number: 18, line: i + 1 })
}

/// What writing asks of lists before 15.
pub fn outgoing_refusal(house: House, lists: &Lists) -> Option<Refusal> {
    match (lists_refusal(lists), house) {
        (0, House::Ours) => None,
        (0, House::Partner) => partner_refusal(&lists.sheet()),
        (number, _) => Some(Refusal { number, line: 0 }),
    }
}

/// The text that writing puts on a page of this length from this place on, or the refusal.
pub fn written(house: House, lists: &Lists, page_length: usize, place: usize) -> Result<Vec<u8>, Refusal> {
    if let Some(refusal) = outgoing_refusal(house, lists) {
        return Err(refusal);
    }
    let text = lists.sheet().text_for(house);
    let holds = place.checked_add(text.len()).is_some_and(|end| end <= page_length);
    if holds { Ok(text) } else { Err(Refusal { number: 15, line: 0 }) }
}
