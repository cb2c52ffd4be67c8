//! One wave on two sheets, listed in another order or with wider windows and looser rules, and what the answers to both must share. Nothing
//! here says what an answer must be: the planner's answers are compared with each other.

use std::collections::BTreeMap;

use crate::calls::{differ, made, Called, Reply, Rooms};
use crate::damage::with_notes;
use crate::house::House;
use crate::page::{parse, Page, SlotLine};
use crate::program::{run, Asked};
use crate::questions::{Call, Lengths, Lists};
use crate::random::Random;
use crate::sheet::{Rule, Sheet, Unit, MAX_COUNT};
use tugrokt::entry::Planning;

/// The same units and the same rules, each listed in any order.
pub fn shuffled(r: &mut Random, sheet: &Sheet) -> Sheet {
    let mut sheet = sheet.clone();
    r.shuffle(&mut sheet.units);
    r.shuffle(&mut sheet.rules);
    sheet
}

/// The same lines with few, some or all windows wider and rules looser, by one or by any number.
pub fn loosened(r: &mut Random, sheet: &Sheet) -> Sheet {
    let often = *r.pick(&[5, 30, 100]);
    let mut part = |room: u16| match r.chance(often) {
        true if r.chance(50) => room.min(1),
        true => r.between(0, room as usize) as u16,
        false => 0,
    };
    let end = sheet.carried_place() as u16;
    let wider = |u: &Unit| Unit { first: u.first - part(u.first - 1), last: u.last + part(end - u.last), ..*u };
    let units = sheet.units.iter().map(wider).collect();
    let looser = |rule: &Rule| Rule { low: rule.low - part(rule.low), high: rule.high + part(MAX_COUNT - rule.high), ..*rule };
    let rules = sheet.rules.iter().map(looser).collect();
    Sheet { units, rules, ..*sheet }
}

/// The closing slot that a loader's unit has on the sheet, and what it has in the answer. The seat of a carried unit is the carried place.
#[derive(Clone, Copy, Debug, PartialEq, Eq)]
pub struct Loader {
    pub closing: u16,
    pub seat: u16,
    pub narrowed: (u16, u16),
}

/// An answer with a plan, as far as it is compared.
#[derive(Clone, Debug, PartialEq, Eq)]
pub struct Answer {
    /// Greatest counts, and least ones with a minus: the whole table, or the ranges on the slot lines of both pages.
    pub bounds: Vec<i16>,
    /// How many units have each slot, the carried place last.
    pub counts: Vec<usize>,
    /// By loader number.
    pub loaders: BTreeMap<u16, Loader>,
    /// The program's page with the word `fits`.
    pub fits: Option<String>,
}

/// An answer, or nothing for the answer none. An error is a reply or page that is neither.
pub type Asking = Result<Option<Answer>, String>;

impl Answer {
    /// The seats of loaders whose closing slot no other has.
    fn alone(&self) -> Vec<(u16, u16)> {
        let closing = |slot: u16| self.loaders.values().filter(|l| l.closing == slot).count();
        self.loaders.iter().filter(|(_, l)| closing(l.closing) == 1).map(|(&loader, l)| (loader, l.seat)).collect()
    }

    /// Closing slot and seat of each loader, without the loaders: each pair is there as often as loaders have it.
    fn seats_by_closing(&self) -> Vec<(u16, u16)> {
        let mut all: Vec<_> = self.loaders.values().map(|l| (l.closing, l.seat)).collect();
        all.sort();
        all
    }

    fn narrowed(&self) -> Vec<(u16, (u16, u16))> {
        self.loaders.iter().map(|(&loader, l)| (loader, l.narrowed)).collect()
    }

    /// How many loaders have another seat than in this answer to the same units.
    pub fn other_seats(&self, other: &Answer) -> usize {
        self.loaders.iter().filter(|(loader, l)| other.loaders[loader].seat != l.seat).count()
    }

    /// With seats and narrowed windows by line, as the sheet lists its units.
    fn new(sheet: &Sheet, bounds: Vec<i16>, counts: Vec<usize>, lines: impl Iterator<Item = (u16, (u16, u16))>) -> Answer {
        let of_unit = |(unit, (seat, narrowed)): (&Unit, _)| (unit.loader, Loader { closing: unit.last, seat, narrowed });
        Answer { bounds, counts, loaders: sheet.units.iter().zip(lines).map(of_unit).collect(), fits: None }
    }
}

/// What planning answers in marked rooms. Deciding must leave the same table, and a plan no mark.
pub fn planned(sheet: &Sheet) -> Asking {
    let (lists, before) = (Lists::from(sheet), Rooms::marked(&Lengths::exact(sheet)));
    let [Called { reply, rooms }, decided] = [Call::Plan, Call::Decide].map(|call| made(call, &lists, &before));
    let apart = differ("deciding's reply", &decided.reply, &reply).or_else(|| differ("its table", &decided.rooms.table, &rooms.table));
    apart.map_or(Ok(()), Err)?;
    match reply {
        Reply::Planning(Planning { number: 0, length: 0, .. }) => {}
        Reply::Planning(Planning { number: 0, .. }) => return Ok(None),
        _ => return Err(format!("{reply:?}")),
    }
    let marks = [(&rooms.plan, &before.plan), (&rooms.earliest, &before.earliest), (&rooms.latest, &before.latest)];
    let marked = marks.iter().any(|(room, mark)| room.iter().zip(*mark).any(|(a, b)| a == b));
    if marked || rooms.table.iter().zip(&before.table).any(|(a, b)| a == b) {
        return Err(format!("a mark is left: {rooms:?}"));
    }
    let counts = (1..=sheet.carried_place()).map(|slot| rooms.plan.iter().filter(|&&seat| seat as usize == slot).count()).collect();
    let narrowed = rooms.earliest.into_iter().zip(rooms.latest);
    Ok(Some(Answer::new(sheet, rooms.table, counts, rooms.plan.into_iter().zip(narrowed))))
}

/// What the program's pages say, the one of the plan and the one with the word `fits`. Unit lines must stand in the order of the sheet.
pub fn of_pages(sheet: &Sheet, plan: &str, fits: &str) -> Asking {
    let (units, slots, ranges) = match (parse(plan.as_bytes()), parse(fits.as_bytes())) {
        (Some(Page::None { .. }), Some(Page::None { .. })) => return Ok(None),
        (Some(Page::Plan { units, slots }), Some(Page::Fits { units: n, ranges }))
            if units.iter().map(|u| u.loader).eq(sheet.loaders()) && n == units.len() && [slots.len(), ranges.len()] == [sheet.span; 2] =>
        {
            (units, slots, ranges)
        }
        _ => return Err(format!("no answer to this sheet:\n{plan}{fits}")),
    };
    let on_slots = slots.iter().map(|&SlotLine { least, greatest, .. }| (least, greatest));
    let bounds = on_slots.chain(ranges).flat_map(|(least, greatest)| [-(least as i16), greatest as i16]).collect();
    let carried = units.iter().filter(|u| u.slot.is_none()).count();
    let counts = slots.iter().map(|line| line.count as usize).chain([carried]).collect();
    let end = sheet.carried_place() as u16;
    let lines = units.iter().map(|u| (u.slot.unwrap_or(end), (u.first, u.last)));
    Ok(Some(Answer { fits: Some(fits.into()), ..Answer::new(sheet, bounds, counts, lines) }))
}

/// What the program answers to the sheet's text, notes strewn in.
pub fn printed(r: &mut Random, sheet: &Sheet) -> Asking {
    let text = with_notes(r, House::Ours, sheet);
    let [plan, fits] = [Asked::Plan, Asked::Fits].map(|asked| String::from_utf8_lossy(&run(asked, &text, &[], None)).into_owned());
    of_pages(sheet, &plan, &fits)
}

/// Says what is wrong with the answers to one wave listed in two orders. Seats may differ among loaders with equal closing slots. Rings may
/// differ too.
pub fn shuffled_fault(one: Option<&Answer>, two: Option<&Answer>) -> Option<String> {
    let (one, two) = match (one, two) {
        (Some(one), Some(two)) => (one, two),
        _ => return differ("is there a plan", &two.is_some(), &one.is_some()),
    };
    differ("bounds", &two.bounds, &one.bounds)
        .or_else(|| differ("counts", &two.counts, &one.counts))
        .or_else(|| differ("narrowed windows", &two.narrowed(), &one.narrowed()))
        .or_else(|| differ("seats of loaders alone in their closing slot", &two.alone(), &one.alone()))
        .or_else(|| differ("seats by closing slot", &two.seats_by_closing(), &one.seats_by_closing()))
        .or_else(|| differ("fits", &two.fits, &one.fits))
}

/// Says what is wrong with the answer to a sheet and the one to the same sheet loosened: a plan stays, and no bound falls.
pub fn loosened_fault(strict: Option<&Answer>, loose: Option<&Answer>) -> Option<String> {
    let strict = strict?;
    let Some(loose) = loose else { return Some("the plan is lost".into()) };
    let fallen = strict.bounds.iter().zip(&loose.bounds).position(|(strict, loose)| loose < strict);
    differ("number of bounds", &loose.bounds.len(), &strict.bounds.len())
        .or_else(|| fallen.map(|i| format!("bound {i} fell from {} to {}", strict.bounds[i], loose.bounds[i])))
}
