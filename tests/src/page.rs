//! The answer page: formatters, and a parser that takes a page apart again.

use crate::sheet::{Sheet, Solved};

/// The page of a plan.
pub fn of_plan(sheet: &Sheet, solved: &Solved) -> Vec<u8> {
    let mut page = format!("(answer plan {})\n", sheet.units.len());
    for i in 0..sheet.units.len() {
        let (loader, first, last) = (sheet.units[i].loader, solved.earliest[i], solved.latest[i]);
        let seat = sheet.slot_at(solved.plan[i]).map_or("(carried)".to_string(), |slot| format!("(slot {slot})"));
        page += &format!("(unit {loader} {seat} (between {first} {last}))\n");
    }
    for slot in 1..=sheet.span {
        let count = solved.plan.iter().filter(|&&s| s as usize == slot).count();
        let (least, greatest) = range(sheet, solved, slot);
        page += &format!("(slot {slot} (count {count}) (range {least} {greatest}))\n");
    }
    page.into_bytes()
}

/// The page of a sheet that fits.
pub fn of_fits(sheet: &Sheet, solved: &Solved) -> Vec<u8> {
    let mut page = format!("(answer fits {})\n", sheet.units.len());
    for slot in 1..=sheet.span {
        let (least, greatest) = range(sheet, solved, slot);
        page += &format!("(slot {slot} (range {least} {greatest}))\n");
    }
    page.into_bytes()
}

/// The least and the greatest count of a slot.
fn range(sheet: &Sheet, solved: &Solved, slot: usize) -> (i16, i16) {
    let w = sheet.boundaries();
    (-solved.table[slot * w + slot - 1], solved.table[(slot - 1) * w + slot])
}

/// The page of no plan, with this ring.
pub fn of_ring(sheet: &Sheet, ring: &[u16]) -> Vec<u8> {
    let mut page = String::from("(answer none)\n");
    for (a, b) in Sheet::steps(ring) {
        let limit = sheet.limit(a, b);
        page += &if a < b {
            format!("(at-most {limit} (slots {} {b}))\n", a + 1)
        } else {
            format!("(at-least {} (slots {} {a}))\n", -limit, b + 1)
        };
    }
    page += &format!("(shortfall {})\n", -sheet.ring_sum(ring));
    page.into_bytes()
}

#[derive(Clone, Debug, PartialEq, Eq)]
pub struct UnitLine {
    pub loader: u16,
    /// Nothing for a carried unit.
    pub slot: Option<u16>,
    pub first: u16,
    pub last: u16,
}

#[derive(Clone, Debug, PartialEq, Eq)]
pub struct SlotLine {
    pub count: u16,
    pub least: u16,
    pub greatest: u16,
}

/// A page taken apart.
#[derive(Clone, Debug, PartialEq, Eq)]
pub enum Page {
    Plan { units: Vec<UnitLine>, slots: Vec<SlotLine> },
    /// The number of units, and the least and the greatest count of each slot.
    Fits { units: usize, ranges: Vec<(u16, u16)> },
    /// The boundaries that the lines step through, and the shortfall.
    None { ring: Vec<u16>, shortfall: u64 },
    Refused { number: usize, line: usize },
}

/// The numbers of a line whose other words are these.
fn numbers(line: &str, words: &str) -> Option<Vec<u64>> {
    let apart = |s: &str| s.replace(['(', ')'], " ").split_whitespace().map(str::to_string).collect::<Vec<_>>();
    let (found, expected) = (apart(line), apart(words));
    if found.len() != expected.len() {
        return None;
    }
    let mut all = Vec::new();
    for (f, e) in found.iter().zip(&expected) {
        if e == "#" {
            all.push(f.parse().ok()?);
        } else if f != e {
            return None;
        }
    }
    Some(all)
}

fn unit_line(line: &str) -> Option<UnitLine> {
    let (u, slot) = match numbers(line, "unit # (slot #) (between # #)") {
        Some(mut u) => {
            let slot = u.remove(1) as u16;
            (u, Some(slot))
        }
        None => (numbers(line, "unit # (carried) (between # #)")?, None),
    };
    Some(UnitLine { loader: u[0] as u16, slot, first: u[1] as u16, last: u[2] as u16 })
}

/// Takes a page apart by its words. How it is laid out is checked by formatting it again.
pub fn parse(page: &[u8]) -> Option<Page> {
    let text = std::str::from_utf8(page).ok()?.strip_suffix('\n')?;
    let mut lines = text.split('\n');
    let head = lines.next()?;
    if let Some(n) = numbers(head, "refused # (line #)") {
        return lines.next().is_none().then_some(Page::Refused { number: n[0] as usize, line: n[1] as usize });
    }
    if let Some(n) = numbers(head, "answer plan #") {
        let mut units = Vec::new();
        for _ in 0..n[0] {
            units.push(unit_line(lines.next()?)?);
        }
        let mut slots = Vec::new();
        for line in lines {
            let i = slots.len() as u64 + 1;
            let s = numbers(line, "slot # (count #) (range # #)").filter(|s| s[0] == i)?;
            slots.push(SlotLine { count: s[1] as u16, least: s[2] as u16, greatest: s[3] as u16 });
        }
        return Some(Page::Plan { units, slots });
    }
    if let Some(n) = numbers(head, "answer fits #") {
        let mut ranges = Vec::new();
        for line in lines {
            let i = ranges.len() as u64 + 1;
            let s = numbers(line, "slot # (range # #)").filter(|s| s[0] == i)?;
            ranges.push((s[1] as u16, s[2] as u16));
        }
        return Some(Page::Fits { units: n[0] as usize, ranges });
    }
    numbers(head, "answer none")?;
    let mut steps: Vec<(u16, u16)> = Vec::new();
    for line in lines.by_ref() {
        if let Some(n) = numbers(line, "at-most # (slots # #)") {
            steps.push(((n[1] as u16).checked_sub(1)?, n[2] as u16));
        } else if let Some(n) = numbers(line, "at-least # (slots # #)") {
            steps.push((n[2] as u16, (n[1] as u16).checked_sub(1)?));
        } else {
            let n = numbers(line, "shortfall #")?;
            let joined = (0..steps.len()).all(|i| steps[i].1 == steps[(i + 1) % steps.len()].0);
            let last = lines.next().is_none();
            let ring = steps.iter().map(|s| s.0).collect();
            return (joined && last).then_some(Page::None { ring, shortfall: n[0] });
        }
    }
    None
}

/// Is this the whole answer page of the sheet? Any ring is taken. Says what is wrong.
pub fn fault(sheet: &Sheet, solved: Option<&Solved>, page: &[u8]) -> Option<String> {
    answer_fault(sheet, solved.map(|solved| of_plan(sheet, solved)), page)
}

/// The same of the page that says whether the sheet fits.
pub fn fits_fault(sheet: &Sheet, solved: Option<&Solved>, page: &[u8]) -> Option<String> {
    answer_fault(sheet, solved.map(|solved| of_fits(sheet, solved)), page)
}

/// Is this the page expected or, where none is, that of a ring?
fn answer_fault(sheet: &Sheet, expected: Option<Vec<u8>>, page: &[u8]) -> Option<String> {
    let expected = match expected {
        Some(expected) => expected,
        None => match parse(page) {
            Some(Page::None { ring, .. }) => {
                if let Some(fault) = sheet.ring_fault(&ring) {
                    return Some(format!("{fault}:\n{}", String::from_utf8_lossy(page)));
                }
                of_ring(sheet, &ring)
            }
            _ => return Some(format!("no plan, but:\n{}", String::from_utf8_lossy(page))),
        },
    };
    (expected != page).then(|| {
        format!("expected:\n{}got:\n{}", String::from_utf8_lossy(&expected), String::from_utf8_lossy(page))
    })
}
