//! The planner's open entries, one safe function for each, with every room lent by the caller.
//!
//! The entries ask nothing of their caller: any lists, any rooms and any numbers get an answer. So the only duty here is the
//! one that Rust's references already meet, that slices are valid and those lent for writing do not overlap.
//!
//! A refused call changes nothing that it was lent.

use crate::border;
pub use crate::border::{Line, Planning, Printing, Reading, Seating, Writing};

/// The lists that planning, deciding, seating and writing take. Lists that belong together have equal length, or the call is refused (13).
#[derive(Clone, Copy, Debug)]
pub struct Lists<'a> {
    /// The number of slots, 1 to 48.
    pub span: usize,
    /// Each unit's loader number, 1 to 9999 and on no earlier unit, or the call is refused (16).
    pub loader: &'a [u16],
    /// The first slot of each unit's window.
    pub first: &'a [u16],
    /// The last slot of each unit's window. Only this may be the carried place, span + 1.
    pub last: &'a [u16],
    /// The first slot of each rule's stretch.
    pub from: &'a [u16],
    /// The last slot of each rule's stretch.
    pub to: &'a [u16],
    /// The least number of units in each rule's stretch.
    pub low: &'a [u16],
    /// The greatest number of units in each rule's stretch.
    pub high: &'a [u16],
}

impl<'a> Lists<'a> {
    /// The first units and the first rules alone, of lists that are long enough.
    pub(crate) fn fronts(self, units: usize, rules: usize) -> Lists<'a> {
        Lists {
            span: self.span,
            loader: &self.loader[..units],
            first: &self.first[..units],
            last: &self.last[..units],
            from: &self.from[..rules],
            to: &self.to[..rules],
            low: &self.low[..rules],
            high: &self.high[..rules],
        }
    }
}

/// The rooms that planning fills. For a span of p and n units the table needs (p+2)² places, the ring p+2, the others n.
#[derive(Debug)]
pub struct Rooms<'a> {
    /// Row by row, the greatest count of each stretch, and minus the least.
    pub table: &'a mut [i16],
    /// Each unit's slot: the carried place, span + 1, for a unit that is carried over.
    pub plan: &'a mut [u16],
    /// The first slot of each unit's narrowed window.
    pub earliest: &'a mut [u16],
    /// The last slot of each unit's narrowed window.
    pub latest: &'a mut [u16],
    /// The boundaries of a ring, where there is no plan.
    pub ring: &'a mut [u16],
}

/// The rooms that deciding fills, as long as planning's.
#[derive(Debug)]
pub struct DecideRooms<'a> {
    /// As [`Rooms::table`].
    pub table: &'a mut [i16],
    /// As [`Rooms::ring`].
    pub ring: &'a mut [u16],
}

/// The rooms that seating fills, as long as planning's. What the table holds before the call is not looked at.
#[derive(Debug)]
pub struct SeatRooms<'a> {
    /// As [`Rooms::table`].
    pub table: &'a mut [i16],
    /// As [`Rooms::plan`].
    pub plan: &'a mut [u16],
    /// As [`Rooms::earliest`].
    pub earliest: &'a mut [u16],
    /// As [`Rooms::latest`].
    pub latest: &'a mut [u16],
}

/// The lists that reading and merging fill.
#[derive(Debug)]
pub struct ListRooms<'a> {
    /// As [`Lists::loader`].
    pub loader: &'a mut [u16],
    /// As [`Lists::first`].
    pub first: &'a mut [u16],
    /// As [`Lists::last`].
    pub last: &'a mut [u16],
    /// As [`Lists::from`].
    pub from: &'a mut [u16],
    /// As [`Lists::to`].
    pub to: &'a mut [u16],
    /// As [`Lists::low`].
    pub low: &'a mut [u16],
    /// As [`Lists::high`].
    pub high: &'a mut [u16],
}

/// An entry that reads.
type Reads = unsafe extern "C" fn(
    *const u8, usize,
    *mut u16, usize, *mut u16, usize, *mut u16, usize,
    *mut u16, usize, *mut u16, usize, *mut u16, usize, *mut u16, usize,
) -> Reading;

fn read_by(reads: Reads, text: &[u8], lists: ListRooms) -> Reading {
    let ListRooms { loader, first, last, from, to, low, high } = lists;
    // SAFETY: each pointer comes from a reference with the length beside it, and the entry has no further demand.
    unsafe {
        reads(
            text.as_ptr(),
            text.len(),
            loader.as_mut_ptr(),
            loader.len(),
            first.as_mut_ptr(),
            first.len(),
            last.as_mut_ptr(),
            last.len(),
            from.as_mut_ptr(),
            from.len(),
            to.as_mut_ptr(),
            to.len(),
            low.as_mut_ptr(),
            low.len(),
            high.as_mut_ptr(),
            high.len(),
        )
    }
}

/// Reads a sheet into the front of the lists.
pub fn read(text: &[u8], lists: ListRooms) -> Reading {
    read_by(border::tugrokt_read, text, lists)
}

/// Reads a partner's sheet into the front of the same lists.
pub fn read_partner(text: &[u8], lists: ListRooms) -> Reading {
    read_by(border::tugrokt_read_partner, text, lists)
}

/// Plans from lists.
pub fn plan(lists: Lists, rooms: Rooms) -> Planning {
    let Lists { span, loader, first, last, from, to, low, high } = lists;
    let Rooms { table, plan, earliest, latest, ring } = rooms;
    // SAFETY: each pointer comes from a reference with the length beside it, and the entry has no further demand.
    unsafe {
        border::tugrokt_plan(
            span,
            loader.as_ptr(),
            loader.len(),
            first.as_ptr(),
            first.len(),
            last.as_ptr(),
            last.len(),
            from.as_ptr(),
            from.len(),
            to.as_ptr(),
            to.len(),
            low.as_ptr(),
            low.len(),
            high.as_ptr(),
            high.len(),
            table.as_mut_ptr(),
            table.len(),
            plan.as_mut_ptr(),
            plan.len(),
            earliest.as_mut_ptr(),
            earliest.len(),
            latest.as_mut_ptr(),
            latest.len(),
            ring.as_mut_ptr(),
            ring.len(),
        )
    }
}

/// Decides from lists whether there is a plan, and fills the table: a sheet fits where the reply's number and length are both 0.
pub fn decide(lists: Lists, rooms: DecideRooms) -> Planning {
    let Lists { span, loader, first, last, from, to, low, high } = lists;
    let DecideRooms { table, ring } = rooms;
    // SAFETY: each pointer comes from a reference with the length beside it, and the entry has no further demand.
    unsafe {
        border::tugrokt_decide(
            span,
            loader.as_ptr(),
            loader.len(),
            first.as_ptr(),
            first.len(),
            last.as_ptr(),
            last.len(),
            from.as_ptr(),
            from.len(),
            to.as_ptr(),
            to.len(),
            low.as_ptr(),
            low.len(),
            high.as_ptr(),
            high.len(),
            table.as_mut_ptr(),
            table.len(),
            ring.as_mut_ptr(),
            ring.len(),
        )
    }
}

/// Seats the units of a sheet that fits and narrows their windows, with the table worked out from the lists again. The reply says how many
/// units it looked at (see [`crate::Seated::looked`]).
pub fn seat(lists: Lists, rooms: SeatRooms) -> Seating {
    let Lists { span, loader, first, last, from, to, low, high } = lists;
    let SeatRooms { table, plan, earliest, latest } = rooms;
    // SAFETY: each pointer comes from a reference with the length beside it, and the entry has no further demand.
    unsafe {
        border::tugrokt_seat(
            span,
            loader.as_ptr(),
            loader.len(),
            first.as_ptr(),
            first.len(),
            last.as_ptr(),
            last.len(),
            from.as_ptr(),
            from.len(),
            to.as_ptr(),
            to.len(),
            low.as_ptr(),
            low.len(),
            high.as_ptr(),
            high.len(),
            table.as_mut_ptr(),
            table.len(),
            plan.as_mut_ptr(),
            plan.len(),
            earliest.as_mut_ptr(),
            earliest.len(),
            latest.as_mut_ptr(),
            latest.len(),
        )
    }
}

/// Plans from lists and prints the answer on the page from `place` on.
pub fn print(lists: Lists, rooms: Rooms, page: &mut [u8], place: usize) -> Printing {
    let Lists { span, loader, first, last, from, to, low, high } = lists;
    let Rooms { table, plan, earliest, latest, ring } = rooms;
    // SAFETY: each pointer comes from a reference with the length beside it, and the entry has no further demand.
    unsafe {
        border::tugrokt_print(
            span,
            loader.as_ptr(),
            loader.len(),
            first.as_ptr(),
            first.len(),
            last.as_ptr(),
            last.len(),
            from.as_ptr(),
            from.len(),
            to.as_ptr(),
            to.len(),
            low.as_ptr(),
            low.len(),
            high.as_ptr(),
            high.len(),
            table.as_mut_ptr(),
            table.len(),
            plan.as_mut_ptr(),
            plan.len(),
            earliest.as_mut_ptr(),
            earliest.len(),
            latest.as_mut_ptr(),
            latest.len(),
            ring.as_mut_ptr(),
            ring.len(),
            page.as_mut_ptr(),
            page.len(),
            place,
        )
    }
}

/// An entry that writes.
type Writes = unsafe extern "C" fn(
    usize,
    *const u16, usize, *const u16, usize, *const u16, usize,
    *const u16, usize, *const u16, usize, *const u16, usize, *const u16, usize,
    *mut u8, usize, usize,
) -> Writing;

fn write_by(writes: Writes, lists: Lists, page: &mut [u8], place: usize) -> Writing {
    let Lists { span, loader, first, last, from, to, low, high } = lists;
    // SAFETY: each pointer comes from a reference with the length beside it, and the entry has no further demand.
    unsafe {
        writes(
            span,
            loader.as_ptr(),
            loader.len(),
            first.as_ptr(),
            first.len(),
            last.as_ptr(),
            last.len(),
            from.as_ptr(),
            from.len(),
            to.as_ptr(),
            to.len(),
            low.as_ptr(),
            low.len(),
            high.as_ptr(),
            high.len(),
            page.as_mut_ptr(),
            page.len(),
            place,
        )
    }
}

/// Writes the lists as a sheet's text on the page from `place` on.
pub fn write_sheet(lists: Lists, page: &mut [u8], place: usize) -> Writing {
    write_by(border::tugrokt_write_sheet, lists, page, place)
}

/// The same in the partner's form: no unit may be carried (17), and every low is 0 (18).
pub fn write_partner(lists: Lists, page: &mut [u8], place: usize) -> Writing {
    write_by(border::tugrokt_write_partner, lists, page, place)
}

/// Merges two sheets into the front of the lists: the units of the first and then those of the second, and one rule for each stretch, in the
/// order in which the stretches first appear, with the largest low and the smallest high of all rules on it.
pub fn merge(one: &[u8], two: &[u8], lists: ListRooms) -> Reading {
    let ListRooms { loader, first, last, from, to, low, high } = lists;
    // SAFETY: each pointer comes from a reference with the length beside it, and the entry has no further demand.
    unsafe {
        border::tugrokt_merge(
            one.as_ptr(),
            one.len(),
            two.as_ptr(),
            two.len(),
            loader.as_mut_ptr(),
            loader.len(),
            first.as_mut_ptr(),
            first.len(),
            last.as_mut_ptr(),
            last.len(),
            from.as_mut_ptr(),
            from.len(),
            to.as_mut_ptr(),
            to.len(),
            low.as_mut_ptr(),
            low.len(),
            high.as_mut_ptr(),
            high.len(),
        )
    }
}

/// Where the line of the unit with this loader number stands in the two texts that merging takes. [`crate::line_of`] gives the line itself.
pub fn line_of(one: &[u8], two: &[u8], loader: u16) -> Line {
    // SAFETY: each pointer comes from a reference with the length beside it, and the entry has no further demand.
    unsafe { border::tugrokt_line_of(one.as_ptr(), one.len(), two.as_ptr(), two.len(), loader) }
}

/// An entry that answers a text.
type Answers = unsafe extern "C" fn(*const u8, usize, *mut u8, usize, usize) -> Writing;

fn answer_by(answers: Answers, text: &[u8], page: &mut [u8], place: usize) -> Writing {
    // SAFETY: each pointer comes from a reference with the length beside it, and the entry has no further demand.
    unsafe { answers(text.as_ptr(), text.len(), page.as_mut_ptr(), page.len(), place) }
}

/// Answers a sheet's text on the page from `place` on: its plan, or why there is none, or the line of its refusal, `(refused 7 (line 3))`,
/// byte for byte as the program prints it. The call itself is refused by 15 alone, and no answer is longer than [`crate::MAX_PAGE`].
pub fn answer(text: &[u8], page: &mut [u8], place: usize) -> Writing {
    answer_by(border::tugrokt_answer, text, page, place)
}

/// The same, with the least and the greatest count of each slot in place of a plan.
pub fn answer_fits(text: &[u8], page: &mut [u8], place: usize) -> Writing {
    answer_by(border::tugrokt_answer_fits, text, page, place)
}

/// Answers a partner's text with its plan.
pub fn answer_partner(text: &[u8], page: &mut [u8], place: usize) -> Writing {
    answer_by(border::tugrokt_answer_partner, text, page, place)
}

/// Answers a partner's text with the least and the greatest count of each slot.
pub fn answer_fits_partner(text: &[u8], page: &mut [u8], place: usize) -> Writing {
    answer_by(border::tugrokt_answer_fits_partner, text, page, place)
}
