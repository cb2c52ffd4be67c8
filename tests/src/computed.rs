//! Answers for sheets of any size, by textbook algorithms in 64 bits: Floyd and Warshall for the table, earliest deadline
//! first for the seats, and Bellman and Ford to decide each slot of each unit.

use crate::sheet::{Sheet, Solved};

/// The closure of the limits, or nothing if there is a negative cycle.
pub fn closure(sheet: &Sheet) -> Option<Vec<i64>> {
    let w = sheet.boundaries();
    let mut d = sheet.limits();
    for m in 0..w {
        for a in 0..w {
            for b in 0..w {
                d[a * w + b] = d[a * w + b].min(d[a * w + m] + d[m * w + b]);
            }
        }
        if (0..w).any(|a| d[a * w + a] < 0) {
            return None;
        }
    }
    Some(d)
}

/// The greatest size of a sum in the pass (docs/RULES.md, "The pass"), up to the stop.
pub fn greatest_sum(sheet: &Sheet) -> i64 {
    let w = sheet.boundaries();
    let mut d = sheet.limits();
    let mut greatest = 0;
    for m in 0..w {
        for a in 0..w {
            for b in 0..w {
                let sum = d[a * w + m] + d[m * w + b];
                greatest = greatest.max(sum.abs());
                d[a * w + b] = d[a * w + b].min(sum);
            }
        }
        if (0..w).any(|a| d[a * w + a] < 0) {
            break;
        }
    }
    greatest
}

/// Do these limits have a feasible potential? Bellman and Ford from everywhere at once.
pub fn is_feasible(limits: &[i64], w: usize) -> bool {
    negative_cycle(limits, w).is_none()
}

/// A boundary behind which the predecessors run into a negative cycle, with every boundary's predecessor. What still moves in
/// round w has w predecessors behind it, and there are only w boundaries.
fn negative_cycle(limits: &[i64], w: usize) -> Option<(usize, Vec<usize>)> {
    let mut potential = vec![0i64; w];
    let mut before = vec![0; w];
    let mut moved = 0;
    for _ in 0..w {
        let mut quiet = true;
        for a in 0..w {
            let row = &limits[a * w..(a + 1) * w];
            for b in 0..w {
                if potential[a] + row[b] < potential[b] {
                    potential[b] = potential[a] + row[b];
                    before[b] = a;
                    moved = b;
                    quiet = false;
                }
            }
        }
        if quiet {
            return None;
        }
    }
    Some((moved, before))
}

/// Some ring of a sheet that has no plan.
pub fn ring(sheet: &Sheet) -> Option<Vec<u16>> {
    let w = sheet.boundaries();
    let (mut at, before) = negative_cycle(&sheet.limits(), w)?;
    for _ in 0..w {
        at = before[at];
    }
    let start = at;
    let mut ring = vec![start as u16];
    at = before[at];
    while at != start {
        ring.push(at as u16);
        at = before[at];
    }
    ring.reverse();
    let lowest = (0..ring.len()).min_by_key(|&i| ring[i]).unwrap();
    ring.rotate_left(lowest);
    Some(ring)
}

/// Seats by deadline: each slot takes, of the units that are open and not seated, those that close first; the carried place is the last.
pub fn seats(sheet: &Sheet, by_end: &[i64]) -> Vec<u16> {
    let mut plan = vec![0; sheet.units.len()];
    for slot in 1..=sheet.carried_place() {
        let mut open: Vec<(u16, usize)> = (0..plan.len())
            .filter(|&i| plan[i] == 0 && sheet.units[i].first as usize <= slot)
            .map(|i| (sheet.units[i].last, i))
            .collect();
        open.sort();
        for &(_, i) in &open[..(by_end[slot] - by_end[slot - 1]) as usize] {
            plan[i] = slot as u16;
        }
    }
    plan
}

/// Has the sheet a lawful plan in which this unit sits in this slot? Its window is cut to the slot.
fn may_sit(sheet: &Sheet, limits: &[i64], inside: &[i64], unit: usize, slot: usize) -> bool {
    let w = sheet.boundaries();
    let window = sheet.units[unit];
    let mut cut = limits.to_vec();
    for a in 0..slot {
        for b in slot..w {
            if !(a < window.first as usize && window.last as usize <= b) {
                // One window more lies inside a+1 to b.
                cut[b * w + a] = cut[b * w + a].min(-(inside[a * w + b] + 1));
            }
        }
    }
    is_feasible(&cut, w)
}

pub fn solve(sheet: &Sheet) -> Option<Solved> {
    let table = closure(sheet)?;
    let w = sheet.boundaries();
    let limits = sheet.limits();
    let inside: Vec<i64> = (0..w * w).map(|i| sheet.windows_inside(i / w, i % w) as i64).collect();
    let by_end: Vec<i64> = (0..w).map(|b| table[b]).collect();
    let mut earliest: Vec<u16> = Vec::new();
    let mut latest: Vec<u16> = Vec::new();
    for (i, u) in sheet.units.iter().enumerate() {
        // Units with one window have one answer.
        if let Some(j) = sheet.units[..i].iter().position(|v| v.window() == u.window()) {
            earliest.push(earliest[j]);
            latest.push(latest[j]);
            continue;
        }
        let may = |slot: &u16| may_sit(sheet, &limits, &inside, i, *slot as usize);
        earliest.push((u.first..=u.last).find(may).expect("a sheet with a plan seats each unit"));
        latest.push((u.first..=u.last).rev().find(may).expect("a sheet with a plan seats each unit"));
    }
    Some(Solved { plan: seats(sheet, &by_end), earliest, latest, table: table.iter().map(|&x| x as i16).collect() })
}
