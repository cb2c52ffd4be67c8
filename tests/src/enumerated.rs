//! Answers by definition: every assignment of slots to units is tried, the carried place among them. For small sheets only.

use crate::sheet::{Sheet, Solved};

/// The number of units in the stretch a+1 to b.
pub fn count(plan: &[u16], a: usize, b: usize) -> usize {
    plan.iter().filter(|&&s| a < s as usize && s as usize <= b).count()
}

pub fn is_lawful(sheet: &Sheet, plan: &[u16]) -> bool {
    plan.len() == sheet.units.len()
        && sheet.units.iter().zip(plan).all(|(u, &s)| u.first <= s && s <= u.last)
        && sheet.rules.iter().all(|r| {
            let c = count(plan, r.from as usize - 1, r.to as usize);
            r.low as usize <= c && c <= r.high as usize
        })
}

/// All lawful plans.
pub fn lawful_plans(sheet: &Sheet) -> Vec<Vec<u16>> {
    let mut plans = Vec::new();
    let mut plan: Vec<u16> = sheet.units.iter().map(|u| u.first).collect();
    loop {
        if is_lawful(sheet, &plan) {
            plans.push(plan.clone());
        }
        // The next assignment: the last unit that can move on does, and those after it start again.
        let Some(i) = (0..plan.len()).rev().find(|&i| plan[i] < sheet.units[i].last) else {
            return plans;
        };
        plan[i] += 1;
        for j in i + 1..plan.len() {
            plan[j] = sheet.units[j].first;
        }
    }
}

/// The seats' property: if unit j sits in a later slot than unit i, and j's window was already open in i's slot, then i's
/// window closes earlier than j's, or at the same slot with i the earlier line.
pub fn seats_are_due(sheet: &Sheet, plan: &[u16]) -> bool {
    (0..plan.len()).all(|i| {
        (0..plan.len()).all(|j| {
            let (ui, uj) = (sheet.units[i], sheet.units[j]);
            !(plan[i] < plan[j] && uj.first <= plan[i]) || ui.last < uj.last || (ui.last == uj.last && i < j)
        })
    })
}

/// The plans that "The printed plan" leaves.
pub fn printed_plans(sheet: &Sheet, lawful: &[Vec<u16>]) -> Vec<Vec<u16>> {
    let ends = 0..sheet.boundaries();
    let most: Vec<usize> = ends.clone().map(|b| lawful.iter().map(|p| count(p, 0, b)).max().unwrap_or(0)).collect();
    let early = |p: &[u16]| ends.clone().all(|b| count(p, 0, b) == most[b]);
    lawful.iter().filter(|p| early(p) && seats_are_due(sheet, p)).cloned().collect()
}

/// Is there a ring? By trying every closed list of boundaries that starts at its lowest.
pub fn has_ring(sheet: &Sheet) -> bool {
    fn extend(sheet: &Sheet, ring: &mut Vec<u16>) -> bool {
        if ring.len() >= 2 && sheet.ring_fault(ring).is_none() {
            return true;
        }
        for b in ring[0] + 1..sheet.boundaries() as u16 {
            if !ring.contains(&b) {
                ring.push(b);
                if extend(sheet, ring) {
                    return true;
                }
                ring.pop();
            }
        }
        false
    }
    (0..sheet.boundaries() as u16).any(|b| extend(sheet, &mut vec![b]))
}

/// The answer: nothing if there is no lawful plan.
pub fn solve(sheet: &Sheet) -> Option<Solved> {
    let lawful = lawful_plans(sheet);
    if lawful.is_empty() {
        return None;
    }
    let printed = printed_plans(sheet, &lawful);
    assert_eq!(printed.len(), 1, "counts and property leave {} plans of {sheet:?}", printed.len());
    let slots = |i: usize| lawful.iter().map(move |p| p[i]);
    let units = 0..sheet.units.len();
    let w = sheet.boundaries();
    let mut table = vec![0i16; w * w];
    for a in 0..w {
        for b in a + 1..w {
            let counts = || lawful.iter().map(|p| count(p, a, b) as i16);
            table[a * w + b] = counts().max().unwrap();
            table[b * w + a] = -counts().min().unwrap();
        }
    }
    Some(Solved {
        plan: printed[0].clone(),
        earliest: units.clone().map(|i| slots(i).min().unwrap()).collect(),
        latest: units.map(|i| slots(i).max().unwrap()).collect(),
        table,
    })
}
