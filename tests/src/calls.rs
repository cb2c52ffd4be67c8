//! Calls of the planner's open entries with marked rooms, and what must stand in every place afterwards.

use crate::house::House;
use crate::merging::{Found, Pair};
use crate::questions::{planning_refusal, refusal, written, Call, Lengths, Lists};
use crate::reading::{fits_into, read_into, Refusal};
use crate::sheet::{Sheet, Solved};
use tugrokt::entry::{self, DecideRooms, Line, Planning, Printing, Reading, SeatRooms, Seating, Writing};

/// Marks that no answer has, other ones in neighbouring places.
pub fn marked_u16(length: usize) -> Vec<u16> {
    (0..length).map(|i| 40_000 + (i * 7 % 20_000) as u16).collect()
}

pub fn marked_i16(length: usize) -> Vec<i16> {
    (0..length).map(|i| -20_000 + (i * 7 % 10_000) as i16).collect()
}

pub fn marked_u8(length: usize) -> Vec<u8> {
    (0..length).map(|i| 128 + (i * 7 % 128) as u8).collect()
}

pub fn lent(lists: &Lists) -> entry::Lists<'_> {
    entry::Lists {
        span: lists.span,
        loader: &lists.loader,
        first: &lists.first,
        last: &lists.last,
        from: &lists.from,
        to: &lists.to,
        low: &lists.low,
        high: &lists.high,
    }
}

/// The same as a sheet of the package.
pub fn owned(lists: &Lists) -> tugrokt::Sheet {
    let Lists { span, loader, first, last, from, to, low, high } = lists.clone();
    tugrokt::Sheet { span, loader, first, last, from, to, low, high }
}

/// The rooms of planning. Deciding and seating are lent those that they take.
#[derive(Clone, Debug, PartialEq, Eq)]
pub struct Rooms {
    pub table: Vec<i16>,
    pub plan: Vec<u16>,
    pub earliest: Vec<u16>,
    pub latest: Vec<u16>,
    pub ring: Vec<u16>,
}

impl Rooms {
    pub fn marked(l: &Lengths) -> Rooms {
        Rooms {
            table: marked_i16(l.table),
            plan: marked_u16(l.plan),
            earliest: marked_u16(l.earliest),
            latest: marked_u16(l.latest),
            ring: marked_u16(l.ring),
        }
    }

    pub fn lend(&mut self) -> entry::Rooms<'_> {
        entry::Rooms {
            table: &mut self.table,
            plan: &mut self.plan,
            earliest: &mut self.earliest,
            latest: &mut self.latest,
            ring: &mut self.ring,
        }
    }

    pub fn lengths(&self) -> Lengths {
        let Rooms { table, plan, earliest, latest, ring } = self;
        Lengths { table: table.len(), plan: plan.len(), earliest: earliest.len(), latest: latest.len(), ring: ring.len() }
    }

    /// What the rooms become where there is a plan.
    fn with_plan(mut self, call: Call, solved: &Solved) -> Rooms {
        self.table[..solved.table.len()].copy_from_slice(&solved.table);
        if call.seats() {
            let n = solved.plan.len();
            self.plan[..n].copy_from_slice(&solved.plan);
            self.earliest[..n].copy_from_slice(&solved.earliest);
            self.latest[..n].copy_from_slice(&solved.latest);
        }
        self
    }

    /// What they become where there is none, with this ring for a call that shows one.
    fn with_none(mut self, call: Call, sheet: &Sheet, ring: &[u16]) -> Rooms {
        self.table[..sheet.boundaries().pow(2)].fill(0);
        if call.shows_ring() {
            self.ring[..ring.len()].copy_from_slice(ring);
        }
        self
    }
}

/// Says where two values differ.
pub fn differ<T: PartialEq + std::fmt::Debug>(name: &str, got: &T, expected: &T) -> Option<String> {
    (got != expected).then(|| format!("{name}:\n     got {got:?}\nexpected {expected:?}"))
}

/// Compares every place of every room.
pub fn rooms_fault(got: &Rooms, expected: &Rooms) -> Option<String> {
    differ("table", &got.table, &expected.table)
        .or_else(|| differ("plan", &got.plan, &expected.plan))
        .or_else(|| differ("earliest", &got.earliest, &expected.earliest))
        .or_else(|| differ("latest", &got.latest, &expected.latest))
        .or_else(|| differ("ring", &got.ring, &expected.ring))
}

/// What a call replies.
#[derive(Clone, Copy, Debug, PartialEq, Eq)]
pub enum Reply {
    Planning(Planning),
    Seating(Seating),
}

impl Reply {
    /// With a plan there is a number of looks, and with a ring its length.
    fn expected(call: Call, number: usize, looked: Option<usize>, length: usize) -> Reply {
        match call {
            Call::Plan | Call::Decide => Reply::Planning(Planning { number, line: 0, length }),
            Call::Seat => Reply::Seating(Seating { number, line: 0, planned: looked.is_some() as usize, looked: looked.unwrap_or(0) }),
        }
    }

    pub fn number(self) -> usize {
        match self {
            Reply::Planning(reply) => reply.number,
            Reply::Seating(reply) => reply.number,
        }
    }
}

/// What one call replied and left.
#[derive(Clone, Debug, PartialEq, Eq)]
pub struct Called {
    pub reply: Reply,
    pub rooms: Rooms,
}

/// Makes a call in rooms that hold this before.
pub fn made(call: Call, lists: &Lists, before: &Rooms) -> Called {
    let mut rooms = before.clone();
    let lists = lent(lists);
    let Rooms { table, plan, earliest, latest, ring } = &mut rooms;
    let reply = match call {
        Call::Plan => Reply::Planning(entry::plan(lists, entry::Rooms { table, plan, earliest, latest, ring })),
        Call::Decide => Reply::Planning(entry::decide(lists, DecideRooms { table, ring })),
        Call::Seat => Reply::Seating(entry::seat(lists, SeatRooms { table, plan, earliest, latest })),
    };
    Called { reply, rooms }
}

/// The ring of a reply, and nothing of one that shows none. Says what is wrong with it.
fn ring_of<'a>(called: &'a Called, sheet: &Sheet) -> Result<&'a [u16], String> {
    let Reply::Planning(reply) = called.reply else { return Ok(&[]) };
    let ring = called.rooms.ring.get(..reply.length);
    let ring = ring.ok_or_else(|| format!("{reply:?} in a room of {} places", called.rooms.ring.len()))?;
    sheet.ring_fault(ring).map_or(Ok(ring), |fault| Err(format!("{ring:?} is no ring: {fault}")))
}

/// Says what is wrong with what a call replied and left, against the model. `solved` is the model's answer to the lists' sheet, which is
/// not looked at if the call is to be refused.
pub fn called_fault(call: Call, lists: &Lists, before: &Rooms, solved: Option<&Solved>, called: &Called) -> Option<String> {
    let number = refusal(call, lists, &before.lengths());
    let (length, expected) = if number != 0 {
        (0, before.clone())
    } else if let Some(solved) = solved {
        (0, before.clone().with_plan(call, solved))
    } else {
        let sheet = lists.sheet();
        match ring_of(called, &sheet) {
            Err(fault) => return Some(fault),
            Ok(ring) => (ring.len(), before.clone().with_none(call, &sheet, ring)),
        }
    };
    let looked = solved.filter(|_| number == 0).map(|solved| lists.sheet().looked(&solved.plan));
    differ("reply", &called.reply, &Reply::expected(call, number, looked, length)).or_else(|| rooms_fault(&called.rooms, &expected))
}

/// Plans, decides and seats in rooms that hold this before, and says what is wrong, against the model and of the calls against each other:
/// those that are not refused leave the same in each room that they share.
pub fn calls_fault(lists: &Lists, before: &Rooms, solved: Option<&Solved>) -> Option<String> {
    let [planned, decided, seated] = Call::ALL.map(|call| made(call, lists, before));
    for (call, called) in Call::ALL.into_iter().zip([&planned, &decided, &seated]) {
        if let Some(fault) = called_fault(call, lists, before, solved, called) {
            return Some(format!("{call:?}: {fault}"));
        }
    }
    let answered = |a: &Called, b: &Called| a.reply.number() == 0 && b.reply.number() == 0;
    if answered(&planned, &decided) {
        let expected = Rooms { table: planned.rooms.table.clone(), ring: planned.rooms.ring.clone(), ..before.clone() };
        let expected = Called { reply: planned.reply, rooms: expected };
        if let Some(fault) = differ("decided beside planned", &decided, &expected) {
            return Some(fault);
        }
    }
    if answered(&planned, &seated) {
        let expected = Rooms { ring: before.ring.clone(), ..planned.rooms.clone() };
        if let Some(fault) = rooms_fault(&seated.rooms, &expected) {
            return Some(format!("seated beside planned: {fault}"));
        }
    }
    None
}

/// The same in marked rooms of these lengths.
pub fn planning_fault(lists: &Lists, lengths: &Lengths, solved: Option<&Solved>) -> Option<String> {
    calls_fault(lists, &Rooms::marked(lengths), solved)
}

/// What one call of print left.
#[derive(Clone, Debug, PartialEq, Eq)]
pub struct Printed {
    pub reply: Printing,
    pub rooms: Rooms,
    pub page: Vec<u8>,
}

/// Prints in marked rooms of these lengths onto a marked page of this length, from this place on.
pub fn print(lists: &Lists, lengths: &Lengths, page_length: usize, place: usize) -> Printed {
    let (mut rooms, mut page) = (Rooms::marked(lengths), marked_u8(page_length));
    let reply = entry::print(lent(lists), rooms.lend(), &mut page, place);
    Printed { reply, rooms, page }
}

/// Is this what a refused call leaves?
pub fn refused_print_fault(printed: &Printed, number: usize, lengths: &Lengths, place: usize) -> Option<String> {
    differ("reply", &printed.reply, &Printing { number, line: 0, length: 0, place })
        .or_else(|| differ("page", &printed.page, &marked_u8(printed.page.len())))
        .or_else(|| rooms_fault(&printed.rooms, &Rooms::marked(lengths)))
}

/// Prints, and says what is wrong: with all questions answered yes, with a page that is just long enough, and with one that is
/// a byte too short. `before` is the place to print from, `extra` what the longer page has beyond the answer.
pub fn printing_fault(
    lists: &Lists,
    lengths: &Lengths,
    solved: Option<&Solved>,
    before: usize,
    extra: usize,
) -> Option<String> {
    let refusal = planning_refusal(lists, lengths);
    if refusal != 0 {
        let printed = print(lists, lengths, before + extra, before);
        return refused_print_fault(&printed, refusal, lengths, before);
    }
    let sheet = lists.sheet();
    let long = print(lists, lengths, before + tugrokt::MAX_PAGE + extra, before);
    let (length, expected_rooms, expected_page) = match solved {
        Some(solved) => (0, Rooms::marked(lengths).with_plan(Call::Plan, solved), crate::page::of_plan(&sheet, solved)),
        None => {
            let Some(ring) = long.rooms.ring.get(..long.reply.length) else {
                return Some(format!("{:?} in a room of {} places", long.reply, long.rooms.ring.len()));
            };
            if let Some(fault) = sheet.ring_fault(ring) {
                return Some(format!("{ring:?} is no ring: {fault}"));
            }
            (ring.len(), Rooms::marked(lengths).with_none(Call::Plan, &sheet, ring), crate::page::of_ring(&sheet, ring))
        }
    };
    let end = before + expected_page.len();
    let good = |printed: &Printed| {
        let mut page = marked_u8(printed.page.len());
        page[before..end].copy_from_slice(&expected_page);
        differ("reply", &printed.reply, &Printing { number: 0, line: 0, length, place: end })
            .or_else(|| differ("page", &String::from_utf8_lossy(&printed.page), &String::from_utf8_lossy(&page)))
            .or_else(|| rooms_fault(&printed.rooms, &expected_rooms))
    };
    good(&long)
        .or_else(|| good(&print(lists, lengths, end, before)))
        .or_else(|| refused_print_fault(&print(lists, lengths, end - 1, before), 15, lengths, before))
}

/// Has a call fill marked lists of these lengths, and says what is wrong with what it replied and left.
fn filled_fault(
    expected: Result<Sheet, Refusal>,
    units: [usize; 3],
    rules: [usize; 4],
    fills: impl FnOnce(entry::ListRooms) -> Reading,
) -> Option<String> {
    let marked = || [units[0], units[1], units[2], rules[0], rules[1], rules[2], rules[3]].map(marked_u16);
    let mut rooms = marked();
    let mut expected_rooms = marked();
    let [loader, first, last, from, to, low, high] = &mut rooms;
    let reply = fills(entry::ListRooms { loader, first, last, from, to, low, high });
    let expected = match expected {
        Err(Refusal { number, line }) => Reading { number, line, span: 0, units: 0, rules: 0 },
        Ok(sheet) => {
            let lists = Lists::from(&sheet);
            let all = [&lists.loader, &lists.first, &lists.last, &lists.from, &lists.to, &lists.low, &lists.high];
            for (room, list) in expected_rooms.iter_mut().zip(all) {
                room[..list.len()].copy_from_slice(list);
            }
            Reading { number: 0, line: 0, span: sheet.span, units: sheet.units.len(), rules: sheet.rules.len() }
        }
    };
    differ("reply", &reply, &expected).or_else(|| differ("lists", &rooms, &expected_rooms))
}

/// Reads a house's text into marked lists of these lengths, and says what is wrong.
pub fn reading_fault(house: House, text: &[u8], units: [usize; 3], rules: [usize; 4]) -> Option<String> {
    filled_fault(read_into(house, text, units, rules), units, rules, |lists| match house {
        House::Ours => entry::read(text, lists),
        House::Partner => entry::read_partner(text, lists),
    })
}

/// Merges two texts into marked lists of these lengths, and says what is wrong. `merged` is the model's answer before 12.
pub fn merging_fault(one: &[u8], two: &[u8], merged: &Result<Pair, Refusal>, units: [usize; 3], rules: [usize; 4]) -> Option<String> {
    let expected = merged.as_ref().map_err(|refusal| *refusal).and_then(|pair| fits_into(pair.merged.clone(), units, rules));
    filled_fault(expected, units, rules, |lists| entry::merge(one, two, lists))
}

/// Asks for the line of a loader in two texts, and says what is wrong, also with the part that the package hands back: it lies where it is
/// found, in the text that holds it.
pub fn line_fault(one: &[u8], two: &[u8], merged: &Result<Pair, Refusal>, loader: u16) -> Option<String> {
    let expected = merged.as_ref().map_err(|refusal| *refusal).and_then(|pair| pair.line_of(loader as usize));
    let (reply, part) = match &expected {
        Err(Refusal { number, line }) => {
            let refusal = tugrokt::Refusal { question: *number, line: *line };
            (Line { number: *number, line: *line, sheet: 0, start: 0, length: 0 }, Err(refusal))
        }
        Ok(Found { text, spot }) => {
            let part = &[one, two][text - 1][spot.bytes.clone()];
            (Line { number: 0, line: 0, sheet: *text, start: spot.bytes.start, length: spot.bytes.len() }, Ok(part.as_ptr_range()))
        }
    };
    differ("reply", &entry::line_of(one, two, loader), &reply)
        .or_else(|| differ("part", &tugrokt::line_of(one, two, loader).map(<[u8]>::as_ptr_range), &part))
        .map(|fault| format!("loader {loader}: {fault}"))
}

/// What one call of writing left.
#[derive(Clone, Debug, PartialEq, Eq)]
pub struct Written {
    pub reply: Writing,
    pub page: Vec<u8>,
}

/// Writes in a house's form onto a page that holds this before, from this place on.
pub fn write_onto(house: House, lists: &Lists, mut page: Vec<u8>, place: usize) -> Written {
    let reply = match house {
        House::Ours => entry::write_sheet(lent(lists), &mut page, place),
        House::Partner => entry::write_partner(lent(lists), &mut page, place),
    };
    Written { reply, page }
}

/// The same onto a marked page of this length, and says what is wrong: refused, page and place are as they were; else the text stands from
/// the place on, and nothing else has changed.
pub fn writing_fault(house: House, lists: &Lists, page_length: usize, place: usize) -> Option<String> {
    let mut page = marked_u8(page_length);
    let got = write_onto(house, lists, page.clone(), place);
    let reply = match written(house, lists, page_length, place) {
        Err(Refusal { number, line }) => Writing { number, line, place },
        Ok(text) => {
            let end = place + text.len();
            page[place..end].copy_from_slice(&text);
            Writing { number: 0, line: 0, place: end }
        }
    };
    differ("reply", &got.reply, &reply)
        .or_else(|| differ("page", &String::from_utf8_lossy(&got.page), &String::from_utf8_lossy(&page)))
        .or_else(|| differ("page's bytes", &got.page, &page))
}
