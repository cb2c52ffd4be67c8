//! Random texts of either house: sheets with notes, and texts with faults of every kind, also several at once.

use crate::house::House;
use crate::random::{any_sheet, small_sheet, Random};
use crate::sheet::{carried_place, Sheet, MAX_SLOTS};

/// The inside of a note: words and brackets that go at most `depth` deeper.
fn note_inside(r: &mut Random, depth: usize, text: &mut Vec<u8>) {
    for _ in 0..r.below(5) {
        if depth > 0 && r.chance(40) {
            text.push(b'(');
            note_inside(r, depth - 1, text);
            text.push(b')');
        } else {
            for _ in 0..r.below(6) {
                let b = r.between(32, 126) as u8;
                text.push(if b == b'(' || b == b')' { b' ' } else { b });
            }
        }
    }
}

/// A note line without its line feed.
pub fn note(r: &mut Random) -> Vec<u8> {
    if r.chance(10) {
        return b"(note)".to_vec();
    }
    let mut text = b"(note ".to_vec();
    if r.chance(10) {
        let deep = r.between(1, 15);
        text.extend(vec![b'('; deep]);
        text.extend(vec![b')'; deep]);
    } else {
        note_inside(r, 5, &mut text);
    }
    text.push(b')');
    text
}

/// A note that opens this many brackets at once, its own included.
pub fn note_of_depth(depth: usize) -> Vec<u8> {
    let mut text = b"(note ".to_vec();
    text.extend(vec![b'('; depth - 1]);
    text.extend(vec![b')'; depth]);
    text
}

fn lines(text: &[u8]) -> Vec<Vec<u8>> {
    text.split_inclusive(|&b| b == b'\n').map(<[u8]>::to_vec).collect()
}

/// How a unit's line begins.
fn unit_head(house: House) -> &'static [u8] {
    match house {
        House::Ours => b"(unit ",
        House::Partner => b"(job ",
    }
}

/// How a rule's line begins.
fn rule_head(house: House) -> &'static [u8] {
    match house {
        House::Ours => b"(rule ",
        House::Partner => b"(limit ",
    }
}

/// The sheet's text with notes strewn in, and the order of units and rules mixed.
pub fn with_notes(r: &mut Random, house: House, sheet: &Sheet) -> Vec<u8> {
    let mut all = lines(&sheet.text_for(house));
    // Units and rules keep their own order but may alternate.
    let (mut units, mut rules): (Vec<_>, Vec<_>) = all.drain(1..).partition(|l| l.starts_with(unit_head(house)));
    units.reverse();
    rules.reverse();
    let mixed = r.chance(40);
    while !units.is_empty() || !rules.is_empty() {
        let from_units = rules.is_empty() || (!units.is_empty() && (!mixed || r.chance(50)));
        all.extend(if from_units { units.pop() } else { rules.pop() });
    }
    if r.chance(60) {
        for _ in 0..r.between(1, 6) {
            let mut line = note(r);
            line.push(b'\n');
            let at = r.between(0, all.len());
            all.insert(at, line);
        }
    }
    let text = all.concat();
    if text.len() > crate::reading::MAX_BYTES { sheet.text_for(house) } else { text }
}

/// A text that reads.
pub fn valid(r: &mut Random, house: House) -> Vec<u8> {
    let sheet = if r.chance(80) { small_sheet(r) } else { any_sheet(r) };
    with_notes(r, house, &sheet.kept_by(house))
}

/// A number that is often at a limit or past it, sometimes no number at all.
fn odd_number(r: &mut Random) -> String {
    const ODD: [&str; 25] = [
        "0", "1", "2", "3", "4", "5", "47", "48", "49", "299", "300", "301", "9999", "10000", "65535", "65536", "70000",
        "00", "05", "007", "0017", "", "-1", "99999999999999999999", "4294967296",
    ];
    if r.chance(50) { r.between(0, 6).to_string() } else { r.pick(&ODD).to_string() }
}

/// A line of some form whose numbers may be anything; a unit may have no loader number, and a few lines are the other house's.
pub fn odd_line(r: &mut Random, house: House) -> Vec<u8> {
    let house = if r.chance(4) { house.other() } else { house };
    let mut n = || odd_number(r);
    let forms = match house {
        House::Ours => [
            format!("(sheet {})", n()),
            format!("(unit {} (window {} {}))", n(), n(), n()),
            format!("(rule (slots {} {}) (count {} {}))", n(), n(), n(), n()),
            format!("(unit (window {} {}))", n(), n()),
        ],
        House::Partner => [
            format!("(day {})", n()),
            format!("(job {} (start {}) (hours {}))", n(), n(), n()),
            format!("(limit (from {}) (hours {}) (most {}))", n(), n(), n()),
            format!("(job (start {}) (hours {}))", n(), n()),
        ],
    };
    let mut line = forms[*r.pick(&[0, 1, 1, 1, 2, 2, 3])].clone().into_bytes();
    match r.below(12) {
        0 => line = note(r),
        1 => line = note_of_depth(r.between(14, 18)),
        2 => line = b"(noted)".to_vec(),
        3 => line = b"(note".to_vec(),
        4 => line = b"(note(x))".to_vec(),
        5 => line.clear(),
        _ => (),
    }
    line
}

/// A text of lines of all forms in any order.
pub fn soup(r: &mut Random, house: House) -> Vec<u8> {
    let mut text = Vec::new();
    if r.chance(70) {
        text.extend(Sheet::new(r.between(1, 8), &[], &[]).text_for(house));
    }
    for _ in 0..r.below(8) {
        text.extend(odd_line(r, house));
        if !r.chance(3) {
            text.push(b'\n');
        }
    }
    text
}

/// A unit's loader number becomes another unit's, or one at a limit, or goes.
fn renumber(r: &mut Random, house: House, lines: &mut [Vec<u8>]) {
    let head = unit_head(house);
    let units: Vec<usize> = (0..lines.len()).filter(|&i| lines[i].starts_with(head)).collect();
    // The number with the space behind it.
    let end = |line: &[u8]| line[head.len()..].iter().position(|&b| b == b' ').map_or(line.len(), |i| head.len() + i + 1);
    let Some(&last) = units.last() else { return };
    let at = if r.chance(50) { last } else { *r.pick(&units) };
    let other = &lines[*r.pick(&units)];
    let number = match r.below(10) {
        0 => b"0 ".to_vec(),
        1 => b"9999 ".to_vec(),
        2 => b"10000 ".to_vec(),
        3 => b"0017 ".to_vec(),
        4 => vec![],
        _ => other[head.len()..end(other)].to_vec(),
    };
    let old = head.len()..end(&lines[at]);
    lines[at].splice(old, number);
}

/// The span that a sheet line gives.
fn span_of(house: House, line: &[u8]) -> Option<usize> {
    let head = match house {
        House::Ours => "(sheet ",
        House::Partner => "(day ",
    };
    std::str::from_utf8(line).ok()?.strip_prefix(head)?.strip_suffix(")\n")?.parse().ok()
}

/// A window or a stretch of the text ends with the last slot, the carried place, or one place too far, and may begin there.
pub fn reach_the_end(r: &mut Random, house: House, text: &mut Vec<u8>) {
    // What stands before the two numbers, how many brackets close up to their end, and what stands between them.
    let (heads, closing, between): ([&[u8]; 2], usize, &str) = match house {
        House::Ours => ([b" (window ", b" (slots "], 1, " "),
        House::Partner => ([b" (start ", b" (from "], 2, ") (hours "),
    };
    let Some(span) = lines(text).iter().find_map(|line| span_of(house, line)).filter(|&span| span <= MAX_SLOTS) else { return };
    let starts: Vec<usize> = (0..text.len())
        .filter_map(|at| heads.iter().find(|head| text[at..].starts_with(head)).map(|head| at + head.len()))
        .collect();
    if starts.is_empty() {
        return;
    }
    let start = *r.pick(&starts);
    let end = (start..text.len()).filter(|&at| text[at] == b')').nth(closing - 1).unwrap_or(text.len());
    let last = r.between(span, carried_place(span) + 1);
    let first = if r.chance(50) { 1 } else { r.between(span, last) };
    let second = match house {
        House::Ours => last,
        House::Partner => last + 1 - first,
    };
    text.splice(start..end, format!("{first}{between}{second}").into_bytes());
}

/// The greatest count of a rule becomes one at its limit, or past it.
fn raise_high(r: &mut Random, house: House, lines: &mut [Vec<u8>]) {
    let rules: Vec<usize> = (0..lines.len()).filter(|&i| lines[i].starts_with(rule_head(house))).collect();
    if rules.is_empty() {
        return;
    }
    let line = &mut lines[*r.pick(&rules)];
    let Some(last) = line.iter().rposition(u8::is_ascii_digit) else { return };
    let start = line[..last].iter().rposition(|b| !b.is_ascii_digit()).map_or(0, |i| i + 1);
    line.splice(start..=last, r.pick(&["0", "299", "300", "301", "302", "9999"]).bytes());
}

/// One fault in one place.
pub fn damage(r: &mut Random, house: House, text: &mut Vec<u8>) {
    const ODD: &[u8] = b"\r\t\x7f\x00\x1f\x80\xff\n  ()00123459noteshuirwdjm-/:@";
    let at = r.below(text.len().max(1)).min(text.len());
    match r.below(21) {
        0..=2 if at < text.len() => text[at] = *r.pick(ODD),
        3 if at < text.len() => text[at] = r.below(256) as u8,
        4 if at < text.len() => text[at] = text[at].wrapping_add(1),
        5 | 6 if at < text.len() => {
            text.remove(at);
        }
        7 | 8 if at < text.len() => {
            let b = text[at];
            text.insert(at, b);
        }
        9 => text.insert(at, *r.pick(ODD)),
        10 => text.truncate(at),
        11 => {
            if text.last() == Some(&b'\n') {
                text.pop();
            }
        }
        12 => {
            // Two lines change places.
            let mut all = lines(text);
            if all.len() > 1 {
                let (i, j) = (r.below(all.len()), r.below(all.len()));
                all.swap(i, j);
                *text = all.concat();
            }
        }
        13 => {
            // A line twice.
            let mut all = lines(text);
            if !all.is_empty() {
                let i = r.below(all.len());
                let line = all[i].clone();
                all.insert(r.between(0, all.len()), line);
                *text = all.concat();
            }
        }
        14 => {
            // A line of another kind.
            let mut all = lines(text);
            let mut line = odd_line(r, house);
            line.push(b'\n');
            all.insert(r.between(0, all.len()), line);
            *text = all.concat();
        }
        15 | 16 => {
            let mut all = lines(text);
            renumber(r, house, &mut all);
            *text = all.concat();
        }
        17 | 18 => reach_the_end(r, house, text),
        19 => {
            let mut all = lines(text);
            raise_high(r, house, &mut all);
            *text = all.concat();
        }
        _ => {
            // A number becomes another.
            let digits: Vec<usize> = (0..text.len()).filter(|&i| text[i].is_ascii_digit()).collect();
            if !digits.is_empty() {
                let start = *r.pick(&digits);
                let end = (start..text.len()).find(|&i| !text[i].is_ascii_digit()).unwrap_or(text.len());
                text.splice(start..end, odd_number(r).into_bytes());
            }
        }
    }
}

/// A text that reads or does not: valid, damaged once or several times, a soup of forms, or bytes at random; now and then one of the other
/// house.
pub fn any_text(r: &mut Random, house: House) -> Vec<u8> {
    let of = if r.chance(2) { house.other() } else { house };
    let mut text = match r.below(20) {
        0 => (0..r.below(40)).map(|_| r.below(256) as u8).collect(),
        1..=6 => soup(r, of),
        _ => valid(r, of),
    };
    if !r.chance(10) {
        let times = if r.chance(60) { 1 } else { r.between(2, 5) };
        for _ in 0..times {
            damage(r, of, &mut text);
        }
    }
    text
}
