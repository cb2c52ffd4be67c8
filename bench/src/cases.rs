//! The sheets that are measured.

use model::house::House;
use model::random::{largest_sheet, paper_sheet, Random, Reach};
use model::sheet::{Sheet, Unit};

pub struct Case {
    pub name: String,
    pub texts: Vec<Vec<u8>>,
    pub sheets: Vec<plain::Sheet>,
    pub limits: Vec<Vec<i16>>,
    /// The sheets as a partner can have them, without carried units and lows, and their texts.
    pub partner_texts: Vec<Vec<u8>>,
    pub partner_sheets: Vec<plain::Sheet>,
    /// Each sheet as two, with half of its units and half of its rules each, and the loader number whose line is asked for: the last unit's.
    pub pairs: Vec<[Vec<u8>; 2]>,
    pub wanted: Vec<u16>,
}

/// Sheets as in Chabert and Demassey, section 4, by their number of units, rules and slots; the largest sheets, loose, tight, and with no plan by
/// one unit; the largest tight sheets again, with loader numbers that share few remainders, and such with windows past the wave; sheets whose
/// narrowing has much to do; the largest tight sheets with notes to the longest texts; and the smallest.
pub const NAMES: [&str; 16] = [
    "paper-10", "paper-16", "paper-24", "paper-32", "largest-loose", "largest-tight", "largest-none", "loaders", "carried", "narrowing", "distinct",
    "chain-2", "chain-4", "staircase", "longest", "smallest",
];

/// The dearest sheet that a search for costly narrowing found.
const NARROWING: &[u8] = include_bytes!("../sheets/narrowing.txt");

pub fn make(name: &str) -> Case {
    let of_paper = |n| (0..50).map(|i| paper_sheet(&mut Random::of_case(1, i), n, Reach::InsideWave)).collect();
    let reaching = |slack, reach| (0..5).map(|i| largest_sheet(&mut Random::of_case(2, i), slack, 48, reach).numbered(&spread(i))).collect::<Vec<_>>();
    let largest = |slack| reaching(slack, Reach::InsideWave);
    let sheets: Vec<Sheet> = match name {
        "paper-10" => of_paper(10),
        "paper-16" => of_paper(16),
        "paper-24" => of_paper(24),
        "paper-32" => of_paper(32),
        "largest-loose" => largest(3),
        "largest-tight" | "longest" => largest(0),
        "largest-none" => largest(0).into_iter().map(none_by_one).collect(),
        "loaders" => largest(0).into_iter().map(|sheet| sheet.numbered(&of_few_remainders())).collect(),
        "carried" => reaching(0, Reach::PastWave),
        "narrowing" => vec![model::reading::read(House::Ours, NARROWING).expect("a sheet")],
        "distinct" => (0..5).map(distinct).collect(),
        "chain-2" => vec![chain(2)],
        "chain-4" => vec![chain(4)],
        "staircase" => vec![staircase()],
        "smallest" => vec![Sheet::new(1, &[], &[])],
        _ => panic!("no case {name}; --list has them"),
    };
    let partner_texts: Vec<Vec<u8>> = sheets.iter().map(|sheet| sheet.kept_by(House::Partner).text_for(House::Partner)).collect();
    let partner_sheets: Vec<plain::Sheet> = partner_texts.iter().map(|text| plain::read_partner(text).expect("a partner's sheet")).collect();
    let text = |sheet: &Sheet| if name == "longest" { with_notes(sheet) } else { sheet.text() };
    let texts: Vec<Vec<u8>> = sheets.iter().map(text).collect();
    let pairs = sheets.iter().map(|sheet| halves(sheet).map(|half| text(&half))).collect();
    let wanted = sheets.iter().map(|sheet| sheet.units.last().map_or(1, |unit| unit.loader)).collect();
    let sheets: Vec<plain::Sheet> = texts.iter().map(|text| plain::read(text).expect("a sheet")).collect();
    let limits = sheets.iter().map(|sheet| plain::limits(sheet, &plain::windows_inside(sheet))).collect();
    Case { name: name.into(), texts, sheets, limits, partner_texts, partner_sheets, pairs, wanted }
}

/// The first half of a sheet's units and rules, and the rest.
fn halves(sheet: &Sheet) -> [Sheet; 2] {
    let (units, rules) = (sheet.units.split_at(sheet.units.len() / 2), sheet.rules.split_at(sheet.rules.len() / 2));
    [(units.0, rules.0), (units.1, rules.1)].map(|(units, rules)| Sheet { span: sheet.span, units: units.to_vec(), rules: rules.to_vec() })
}

/// A sheet's text with notes of equal length between its lines, up to the longest text that is read.
fn with_notes(sheet: &Sheet) -> Vec<u8> {
    let text = sheet.text();
    let lines: Vec<&[u8]> = text.split_inclusive(|&b| b == b'\n').collect();
    let room = tugrokt::MAX_BYTES - text.len();
    let length = room / lines.len();
    let note = |length: usize| format!("(note {})\n", "x".repeat(length - "(note )\n".len())).into_bytes();
    // What is left over goes to the last.
    let longest = room - length * (lines.len() - 1);
    let notes = (1..=lines.len()).map(|i| note(if i < lines.len() { length } else { longest }));
    let text: Vec<u8> = lines.iter().zip(notes).flat_map(|(line, note)| [line.to_vec(), note].concat()).collect();
    assert_eq!(text.len(), tugrokt::MAX_BYTES);
    text
}

/// 300 loader numbers of four digits, in any order.
fn spread(i: usize) -> Vec<u16> {
    let mut all: Vec<u16> = (1_000..=9_999).collect();
    Random::of_case(4, i).shuffle(&mut all);
    all.truncate(300);
    all
}

/// 300 loader numbers that share as few remainders by 256 as can be, in any order. The planner chains numbers by that remainder and
/// compares each with those before it in its chain, so no other numbers cost it more: 40 have each remainder from 1 to 15.
fn of_few_remainders() -> Vec<u16> {
    let mut all: Vec<u16> = (1..=8).flat_map(|remainder| (remainder..=9_999).step_by(256)).take(300).collect();
    Random::new(5).shuffle(&mut all);
    all
}

/// A tight sheet, one of whose rules wants one unit more: of all rules that leave no plan so, the one with the longest ring.
fn none_by_one(sheet: Sheet) -> Sheet {
    let changed = (0..sheet.rules.len()).filter(|&i| sheet.rules[i].high < 300).map(|i| {
        let mut changed = sheet.clone();
        changed.rules[i].low += 1;
        changed.rules[i].high += 1;
        changed
    });
    changed.max_by_key(ring_length).expect("a rule below 300")
}

fn ring_length(sheet: &Sheet) -> usize {
    match answer(sheet) {
        plain::Answer::Plan { .. } => 0,
        plain::Answer::None { ring } => ring.len(),
    }
}

fn answer(sheet: &Sheet) -> plain::Answer {
    plain::plan(&plain::read(&sheet.text()).expect("a sheet"))
}

/// 300 different windows, and tight rules.
fn distinct(i: usize) -> Sheet {
    let r = &mut Random::of_case(3, i);
    let mut sheet = largest_sheet(r, 0, 48, Reach::InsideWave).numbered(&spread(i));
    let plain::Answer::Plan { plan, .. } = answer(&sheet) else { panic!("a sheet with a plan") };
    let mut taken = vec![];
    for (unit, &slot) in sheet.units.iter_mut().zip(&plan) {
        loop {
            let first = r.between(1, slot as usize) as u16;
            let last = r.between(slot as usize, 48) as u16;
            if !taken.contains(&(first, last)) {
                taken.push((first, last));
                *unit = Unit { first, last, ..*unit };
                break;
            }
        }
    }
    sheet
}

/// Windows of one width, each a slot later than the one before, at most one unit a slot, and one unit that may go anywhere: a
/// unit that is held to its first slots pushes all others.
fn chain(width: u16) -> Sheet {
    let mut windows: Vec<(u16, u16)> = (1..=49 - width).map(|s| (s, s + width - 1)).collect();
    windows.push((1, 48));
    let rules: Vec<(u16, u16, u16, u16)> = (1..=48).map(|s| (s, s, 0, 1)).collect();
    Sheet::new(48, &windows, &rules)
}

/// Windows that all start at the first slot and close one after the other, six to a slot, and rules on neighbouring stretches.
fn staircase() -> Sheet {
    let windows: Vec<(u16, u16)> = (0..300).map(|i| (1 + (i % 7) as u16, 8 + (i * 41 / 300) as u16)).collect();
    let mut rules: Vec<(u16, u16, u16, u16)> = (1..=44).map(|s| (s, s + 4, 0, 35)).collect();
    rules.extend((1..=16).map(|s| (3 * s - 2, 3 * s, 0, 22)));
    Sheet::new(48, &windows, &rules).numbered(&spread(0))
}
