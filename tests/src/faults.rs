//! Faults of lists, by the question that they fail, and at random.

use crate::questions::Lists;
use crate::random::Random;
use crate::sheet::carried_place;

pub type Fault = (usize, fn(&mut Lists));

/// Faults of each kind, for lists with two units and two rules.
pub const OF_LISTS: [Fault; 34] = [
    (13, |l| l.loader.push(7)),
    (13, |l| l.loader.truncate(1)),
    (13, |l| l.loader.clear()),
    (13, |l| l.last.push(1)),
    (13, |l| l.first.push(1)),
    (13, |l| l.to.push(1)),
    (13, |l| l.low.truncate(1)),
    (13, |l| l.high.push(1)),
    (13, |l| l.from.clear()),
    (6, |l| l.span = 0),
    (6, |l| l.span = 49),
    (6, |l| l.span = usize::MAX),
    (6, |l| l.span = 1 << 32),
    (9, |l| l.add_units(301)),
    (10, |l| l.add_rules(61)),
    (7, |l| l.first[0] = 0),
    (7, |l| l.first[1] = l.last[1] + 1),
    (7, |l| l.last[1] = 49),
    (7, |l| l.last[1] = carried_place(l.span) as u16 + 1),
    (7, |l| (l.first[0], l.last[0]) = (carried_place(l.span) as u16, carried_place(l.span) as u16)),
    (7, |l| l.to[0] = carried_place(l.span) as u16),
    (7, |l| l.last[0] = 65_535),
    (7, |l| l.from[0] = 0),
    (7, |l| l.from[1] = l.to[1] + 1),
    (7, |l| l.to[1] = 50),
    (16, |l| l.loader[0] = 0),
    (16, |l| l.loader[1] = 0),
    (16, |l| l.loader[0] = 10_000),
    (16, |l| l.loader[1] = 65_535),
    (16, |l| l.loader[1] = l.loader[0]),
    (8, |l| l.high[1] = 301),
    (8, |l| l.high[0] = 65_535),
    (8, |l| l.low[0] = l.high[0].saturating_add(1)),
    (8, |l| l.low[1] = 65_535),
];

/// The kinds of faults at random.
pub const KINDS: usize = 13;

/// A fault of one of the kinds somewhere in the lists of a sheet with this span: often none, and then another sheet.
pub fn at_random(r: &mut Random, kind: usize, old_span: usize, lists: &mut Lists) {
    let value = *r.pick(&[0, 1, 5, 6, 7, 48, 49, 50, 299, 300, 301, 302, 9_999, 10_000, 32_767, 32_768, 65_535]);
    // The last slot, the carried place, or one too far.
    let end = r.between(old_span, carried_place(old_span) + 1) as u16;
    let Lists { span, loader, first, last, from, to, low, high } = lists;
    match kind {
        0 => *span = *r.pick(&[0, 1, 2, 47, 48, 49, 255, 256, 65_536, usize::MAX - 1]),
        1 => {
            let list = r.below(7);
            let list: &mut Vec<u16> = [loader, first, last, from, to, low, high].into_iter().nth(list).unwrap();
            if r.chance(50) {
                list.pop();
            } else {
                list.push(value);
            }
        }
        2 => lists.add_units(*r.pick(&[299, 300, 301, 302, 400])),
        3 => lists.add_rules(*r.pick(&[59, 60, 61, 62, 100])),
        4 if !loader.is_empty() => {
            let at = r.below(loader.len());
            loader[at] = value;
        }
        5 if !loader.is_empty() => {
            // A number comes again, often on the last unit.
            let at = if r.chance(50) { loader.len() - 1 } else { r.below(loader.len()) };
            loader[at] = *r.pick(loader);
        }
        6 if !last.is_empty() && first.len() == last.len() => {
            let at = r.below(last.len());
            first[at] = if r.chance(50) { first[at] } else { end };
            last[at] = end;
        }
        7 if !to.is_empty() => {
            let at = r.below(to.len());
            to[at] = end;
        }
        k => {
            let list = if k == 8 { r.below(2) } else { r.below(4) + 2 };
            let list: &mut Vec<u16> = [first, last, from, to, low, high].into_iter().nth(list).unwrap();
            if !list.is_empty() {
                let at = r.below(list.len());
                list[at] = value;
            }
        }
    }
}
