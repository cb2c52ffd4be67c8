//! A reader of sheets, ours and the partner's, straight from docs/RULES.md: a line is split by hand, and each question is asked of it in
//! turn.

use std::ops::Range;

use crate::house::House;
use crate::questions::{is_count, is_new};
use crate::sheet::{Rule, Sheet, Unit, MAX_RULES, MAX_SLOTS, MAX_UNITS};

/// The greatest length of a text (question 1), and the greatest depth of a note (question 11).
pub const MAX_BYTES: usize = 16_000;
pub const MAX_DEPTH: usize = 16;

#[derive(Clone, Copy, Debug, PartialEq, Eq)]
pub struct Refusal {
    pub number: usize,
    pub line: usize,
}

/// The refusal, as the program prints it.
pub fn refusal_page(r: Refusal) -> Vec<u8> {
    format!("(refused {} (line {}))\n", r.number, r.line).into_bytes()
}

/// A line's form, its numbers as their digits.
enum Form<'a> {
    Sheet(&'a [u8]),
    Unit([&'a [u8]; 3]),
    /// A partner's limit has one number less.
    Rule(Vec<&'a [u8]>),
}

/// The numbers of a line that is `words[0] number words[1] number .. words[last]`.
fn numbers<'a>(mut line: &'a [u8], words: &[&str]) -> Option<Vec<&'a [u8]>> {
    let mut found = Vec::new();
    for (i, word) in words.iter().enumerate() {
        if i > 0 {
            let digits = line.iter().take_while(|b| b.is_ascii_digit()).count();
            if digits == 0 {
                return None;
            }
            found.push(&line[..digits]);
            line = &line[digits..];
        }
        line = line.strip_prefix(word.as_bytes())?;
    }
    line.is_empty().then_some(found)
}

fn form(house: House, line: &[u8]) -> Option<Form<'_>> {
    let (sheet, unit, rule): (&[&str], &[&str], &[&str]) = match house {
        House::Ours => (&["(sheet ", ")"], &["(unit ", " (window ", " ", "))"], &["(rule (slots ", " ", ") (count ", " ", "))"]),
        House::Partner => (&["(day ", ")"], &["(job ", " (start ", ") (hours ", "))"], &["(limit (from ", ") (hours ", ") (most ", "))"]),
    };
    if let Some(n) = numbers(line, sheet) {
        return Some(Form::Sheet(n[0]));
    }
    if let Some(n) = numbers(line, unit) {
        return Some(Form::Unit([n[0], n[1], n[2]]));
    }
    numbers(line, rule).map(Form::Rule)
}

/// Is the line taken for a note?
fn is_note(line: &[u8]) -> bool {
    line.starts_with(b"(note ") || line.starts_with(b"(note)")
}

/// Question 11: brackets matched, the outer one closing at the end of the line, at most 16 deep.
fn note_closes(line: &[u8]) -> bool {
    let mut depth = 0;
    for (i, &b) in line.iter().enumerate() {
        match b {
            b'(' => depth += 1,
            b')' => depth -= 1,
            _ => (),
        }
        if depth > MAX_DEPTH {
            return false;
        }
        if depth == 0 {
            return i + 1 == line.len();
        }
    }
    false
}

/// Question 4, and the number.
fn number(digits: &[u8]) -> Option<u16> {
    if digits.len() > 4 || (digits.len() > 1 && digits[0] == b'0') {
        return None;
    }
    std::str::from_utf8(digits).ok()?.parse().ok()
}

fn all_numbers(digits: &[&[u8]]) -> Option<Vec<u16>> {
    digits.iter().map(|d| number(d)).collect()
}

/// What a line that is taken gives.
enum Gives {
    Nothing,
    Span,
    Unit,
    Rule,
}

/// What the lines so far have given.
struct Reader {
    house: House,
    span: Option<usize>,
    units: Vec<Unit>,
    rules: Vec<Rule>,
}

impl Reader {
    /// Asks one line its questions; the number of the first that is answered no.
    fn take(&mut self, line: &[u8], fed: bool) -> Result<Gives, usize> {
        let ask = |yes: bool, question: usize| if yes { Ok(()) } else { Err(question) };
        ask(line.iter().all(|b| (32..=126).contains(b)), 2)?;
        if is_note(line) {
            ask(note_closes(line), 11)?;
            return ask(fed, 3).map(|()| Gives::Nothing);
        }
        ask(fed, 3)?;
        match form(self.house, line).ok_or(3usize)? {
            Form::Sheet(digits) => {
                let span = number(digits).ok_or(4usize)?;
                ask(self.span.is_none(), 5)?;
                ask((1..=MAX_SLOTS).contains(&(span as usize)), 6)?;
                self.span = Some(span as usize);
                Ok(Gives::Span)
            }
            Form::Unit(digits) => {
                let n = all_numbers(&digits).ok_or(4usize)?;
                let span = self.span.ok_or(5usize)?;
                let (first, last) = self.house.window(n[1], n[2], span).ok_or(7usize)?;
                let (loader, earlier) = (n[0], self.units.iter().map(|u| u.loader).collect::<Vec<_>>());
                ask(is_new(loader, &earlier), 16)?;
                ask(self.units.len() < MAX_UNITS, 9)?;
                self.units.push(Unit { loader, first, last });
                Ok(Gives::Unit)
            }
            Form::Rule(digits) => {
                let n = all_numbers(&digits).ok_or(4usize)?;
                let span = self.span.ok_or(5usize)?;
                let (from, to) = self.house.stretch(n[0], n[1], span).ok_or(7usize)?;
                let (low, high) = self.house.count(&n[2..]);
                ask(is_count(low, high), 8)?;
                ask(self.rules.len() < MAX_RULES, 10)?;
                self.rules.push(Rule { from, to, low, high });
                Ok(Gives::Rule)
            }
        }
    }
}

/// Where a line stands in its text: its number, from 1, and its bytes without the line feed.
#[derive(Clone, Debug, PartialEq, Eq)]
pub struct Spot {
    pub number: usize,
    pub bytes: Range<usize>,
}

/// A sheet with the lines that give it: that of its span, and of each unit and each rule.
#[derive(Clone, Debug, PartialEq, Eq)]
pub struct Located {
    pub sheet: Sheet,
    pub span: Spot,
    pub units: Vec<Spot>,
    pub rules: Vec<Spot>,
}

/// The sheet of a house's text, or the refusal, up to question 12.
pub fn read(house: House, text: &[u8]) -> Result<Sheet, Refusal> {
    locate(house, text).map(|located| located.sheet)
}

/// The same, with the lines that give it.
pub fn locate(house: House, text: &[u8]) -> Result<Located, Refusal> {
    if text.len() > MAX_BYTES {
        return Err(Refusal { number: 1, line: 0 });
    }
    let mut reader = Reader { house, span: None, units: vec![], rules: vec![] };
    let (mut spans, mut units, mut rules) = (vec![], vec![], vec![]);
    let (mut start, mut number) = (0, 0);
    while start < text.len() {
        number += 1;
        let (end, fed) = match text[start..].iter().position(|&b| b == b'\n') {
            Some(length) => (start + length, true),
            None => (text.len(), false),
        };
        let spot = Spot { number, bytes: start..end };
        match reader.take(&text[start..end], fed).map_err(|question| Refusal { number: question, line: number })? {
            Gives::Nothing => (),
            Gives::Span => spans.push(spot),
            Gives::Unit => units.push(spot),
            Gives::Rule => rules.push(spot),
        }
        start = end + fed as usize;
    }
    match (reader.span, spans.pop()) {
        (Some(span), Some(spot)) => Ok(Located { sheet: Sheet { span, units: reader.units, rules: reader.rules }, span: spot, units, rules }),
        _ => Err(Refusal { number: 5, line: 0 }),
    }
}

/// Does a sheet fit into lists of these lengths, three for units and four for rules? (Question 12.)
pub fn fits_into(sheet: Sheet, units: [usize; 3], rules: [usize; 4]) -> Result<Sheet, Refusal> {
    let enough = units.iter().all(|&l| l >= sheet.units.len()) && rules.iter().all(|&l| l >= sheet.rules.len());
    if enough { Ok(sheet) } else { Err(Refusal { number: 12, line: 0 }) }
}

/// Reading into lists of these lengths.
pub fn read_into(house: House, text: &[u8], units: [usize; 3], rules: [usize; 4]) -> Result<Sheet, Refusal> {
    fits_into(read(house, text)?, units, rules)
}
