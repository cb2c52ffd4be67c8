//! Random pairs of sheets, mostly of one span and with rules on shared stretches, and of texts: such as can be merged, and such as fail each
//! question of merging, also several at once.

use crate::damage::{any_text, damage, with_notes};
use crate::house::House;
use crate::random::{loaders, sheet_around, Random};
use crate::reading::MAX_BYTES;
use crate::sheet::{Rule, Sheet, Unit, MAX_COUNT, MAX_RULES, MAX_SLOTS, MAX_UNITS};

/// Two sizes of at most `most` whose sum is this.
fn split(r: &mut Random, sum: usize, most: usize) -> (usize, usize) {
    let one = r.between(sum.saturating_sub(most), sum.min(most));
    (one, sum - one)
}

/// Different stretches of a span, at most so many, in any order.
fn stretches(r: &mut Random, span: usize, most: usize) -> Vec<(u16, u16)> {
    let span = span as u16;
    let mut all: Vec<(u16, u16)> = (1..=span).flat_map(|from| (from..=span).map(move |to| (from, to))).collect();
    r.shuffle(&mut all);
    all.truncate(most);
    all
}

/// A rule on a stretch around the count that all rules there leave, or one beside it, which may leave none.
fn rule_on((from, to): (u16, u16), r: &mut Random, crossing: bool) -> Rule {
    let middle = (from as i64 * 7 + to as i64 * 3) % 9 + if crossing && r.chance(12) { r.between(0, 8) as i64 - 4 } else { 0 };
    let low = (middle - r.below(4) as i64).max(0);
    let high = (middle + r.below(4) as i64).max(low).min(MAX_COUNT as i64);
    Rule { from, to, low: low as u16, high: high as u16 }
}

/// The rules of two sheets of this span.
fn rules(r: &mut Random, span: usize) -> [Vec<Rule>; 2] {
    let crossing = r.chance(25);
    let mut both = [vec![], vec![]];
    if r.chance(25) {
        // About as many stretches as one sheet may have, each in one sheet or in both, and now and then twice in one.
        let all = r.between(MAX_RULES - 2, MAX_RULES + 4);
        for stretch in stretches(r, span, all) {
            let times = *r.pick(&[[1, 0], [1, 0], [0, 1], [0, 1], [0, 1], [1, 1], [2, 0], [0, 2]]);
            for (rules, times) in both.iter_mut().zip(times) {
                rules.extend((0..times).map(|_| rule_on(stretch, r, crossing)));
            }
        }
    } else {
        // Any number of rules on few stretches or on many.
        let all = if r.chance(70) { r.between(1, 6) } else { r.between(1, 80) };
        let pool = stretches(r, span, all);
        let most = if r.chance(70) { 8 } else { MAX_RULES };
        for rules in &mut both {
            rules.extend((0..r.between(0, most)).map(|_| rule_on(*r.pick(&pool), r, crossing)));
        }
    }
    for rules in &mut both {
        r.shuffle(rules);
        rules.truncate(MAX_RULES);
    }
    both
}

/// Two sheets of one span or, now and then, of two, with different loader numbers or with some in both.
pub fn sheets(r: &mut Random) -> (Sheet, Sheet) {
    let span = if r.chance(30) { MAX_SLOTS } else { r.between(1, MAX_SLOTS) };
    let (n, m) = match r.below(10) {
        0 | 1 => {
            let sum = r.between(MAX_UNITS - 2, MAX_UNITS + 3);
            split(r, sum, MAX_UNITS)
        }
        2 => (r.between(0, MAX_UNITS), r.between(0, MAX_UNITS)),
        _ => (r.between(0, 8), r.between(0, 8)),
    };
    let all = loaders(r, n + m);
    let [of_one, of_two] = rules(r, span);
    let widest = r.between(1, span);
    let one = sheet_around(r, span, n, 0, widest, 0, 0).numbered(&all[..n]);
    let two = sheet_around(r, span, m, 0, widest, 0, 0).numbered(&all[n..]);
    let (one, mut two) = (Sheet { rules: of_one, ..one }, Sheet { rules: of_two, ..two });
    if r.chance(12) {
        // Some numbers of the first come again, on any units of the second.
        let mut again = one.loaders();
        r.shuffle(&mut again);
        again.truncate(r.between(1, 3));
        let mut places: Vec<usize> = (0..m).collect();
        r.shuffle(&mut places);
        for (at, loader) in places.into_iter().zip(again) {
            two.units[at] = Unit { loader, ..two.units[at] };
        }
    }
    if r.chance(5) && span < MAX_SLOTS {
        // Windows and stretches lie in a longer span too.
        two.span = r.between(span + 1, MAX_SLOTS);
    }
    if r.chance(50) { (one, two) } else { (two, one) }
}

/// Makes a text about as long as is read, by a note somewhere between its lines.
fn lengthen(r: &mut Random, text: &mut Vec<u8>) {
    let wanted = MAX_BYTES + r.below(3) - 1;
    let Some(more) = wanted.checked_sub(text.len() + b"(note )\n".len()) else { return };
    let mut ends: Vec<usize> = (0..text.len()).filter(|&i| text[i] == b'\n').map(|i| i + 1).collect();
    ends.push(0);
    let at = *r.pick(&ends);
    text.splice(at..at, [b"(note ".to_vec(), vec![b'x'; more], b")\n".to_vec()].concat());
}

/// The texts of two sheets, notes strewn in; some are damaged, some no sheet at all.
pub fn texts(r: &mut Random) -> (Vec<u8>, Vec<u8>) {
    let (one, two) = sheets(r);
    let mut texts = [one, two].map(|sheet| with_notes(r, House::Ours, &sheet));
    for text in &mut texts {
        match r.below(100) {
            0 | 1 => lengthen(r, text),
            2 => *text = any_text(r, House::Ours),
            3..=10 => damage(r, House::Ours, text),
            _ => (),
        }
    }
    let [one, two] = texts;
    (one, two)
}
