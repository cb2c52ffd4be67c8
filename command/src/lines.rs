//! The lines of a text: by number, by the unit or rule that they give, and as a person can see them.

use std::ops::Range;
use tugrokt::{House, Sheet};

/// The lines of a text, each without its line feed. Bytes after the last line feed are a line too.
pub fn lines(text: &[u8]) -> impl Iterator<Item = &[u8]> {
    text.split_inclusive(|&byte| byte == b'\n').map(|line| line.strip_suffix(b"\n").unwrap_or(line))
}

/// Where the line of this number, from 1, stands in the text, without its line feed.
pub fn range(text: &[u8], number: usize) -> Option<Range<usize>> {
    let whole = text.split_inclusive(|&byte| byte == b'\n');
    let start: usize = whole.take(number.checked_sub(1)?).map(<[u8]>::len).sum();
    let length = lines(&text[start..]).next()?.len();
    Some(start..start + length)
}

/// The line of this number, from 1, without its line feed.
pub fn line(text: &[u8], number: usize) -> Option<&[u8]> {
    range(text, number).map(|range| &text[range])
}

/// The numbers of the lines that give a sheet's units and rules, in the order of its lists.
#[derive(Debug, PartialEq, Eq)]
pub struct Numbers {
    pub units: Vec<usize>,
    pub rules: Vec<usize>,
}

/// How the lines begin that give a unit, and those that give a rule.
pub fn beginnings(house: House) -> [&'static [u8]; 2] {
    match house {
        House::Ours => [b"(unit ", b"(rule "],
        House::Partner => [b"(job ", b"(limit "],
    }
}

/// What a house calls a unit, and what a rule.
pub fn entry_words(house: House) -> [&'static str; 2] {
    match house {
        House::Ours => ["unit", "rule"],
        House::Partner => ["job", "limit"],
    }
}

/// The numbers of the lines that begin so.
fn beginning(text: &[u8], letters: &[u8]) -> Vec<usize> {
    (1..).zip(lines(text)).filter(|(_, line)| line.starts_with(letters)).map(|(number, _)| number).collect()
}

/// Where a sheet's units and rules stand in its text. The first letters of a line tell its kind where the text was read: nothing is said of a
/// text that does not have as many of each as the sheet.
pub fn numbers(house: House, text: &[u8], sheet: &Sheet) -> Option<Numbers> {
    let [units, rules] = beginnings(house).map(|letters| beginning(text, letters));
    (units.len() == sheet.loader.len() && rules.len() == sheet.from.len()).then_some(Numbers { units, rules })
}

/// Whether a byte is one that lines may have.
pub fn is_plain(byte: u8) -> bool {
    (32..=126).contains(&byte)
}

/// How a byte of a line is shown: a name in angle brackets, unless it is a printable one of ASCII.
fn mark(byte: u8) -> String {
    match byte {
        b'\t' => "<tab>".to_string(),
        b'\r' => "<cr>".to_string(),
        b'\n' => "<lf>".to_string(),
        0 => "<nul>".to_string(),
        _ if is_plain(byte) => char::from(byte).to_string(),
        _ => format!("<0x{byte:02x}>"),
    }
}

/// Bytes with all that is invisible made visible.
pub fn visible(line: &[u8]) -> String {
    line.iter().map(|&byte| mark(byte)).collect()
}

/// How each byte of a whole line is shown. Spaces at its end cannot be seen either.
fn marks(line: &[u8]) -> Vec<String> {
    let end = line.trim_ascii_end().len();
    let space = |i: usize| i >= end && line[i] == b' ';
    (0..line.len()).map(|i| if space(i) { "<space>".to_string() } else { mark(line[i]) }).collect()
}

/// The columns that are shown of a line, apart from what marks a cut.
const COLUMNS: usize = 120;
/// What marks a cut.
const CUT: &str = "..";

/// What is shown of a line.
#[derive(Debug, PartialEq, Eq)]
pub struct Excerpt {
    pub shown: String,
    /// Carets below all that is shown for bytes that no line may have. It ends with the last caret, and is empty where there is none.
    pub carets: String,
}

/// A line made visible, cut around a place of interest where it is long.
pub fn excerpt(line: &[u8], place: usize) -> Excerpt {
    let marks = marks(line);
    let part = part(&marks, place);
    let [front, back] = [part.start > 0, part.end < line.len()].map(|cut| if cut { CUT } else { "" });
    let caret = |i: usize| (if is_plain(line[i]) { " " } else { "^" }).repeat(marks[i].len());
    let carets = " ".repeat(front.len()) + &part.clone().map(caret).collect::<String>();
    Excerpt { shown: format!("{front}{}{back}", marks[part].concat()), carets: carets.trim_end().to_string() }
}

/// The part of a line that is shown: as much as the columns hold, with the place in the middle unless an end of the line is near.
fn part(marks: &[String], place: usize) -> Range<usize> {
    let width = |mark: &String| mark.len();
    let (before, behind) = marks.split_at(place.min(marks.len()));
    let back: usize = behind.iter().map(width).sum();
    let start = before.len() - fitting(before.iter().rev().map(width), COLUMNS.saturating_sub(back).max(COLUMNS / 2));
    start..start + fitting(marks[start..].iter().map(width), COLUMNS)
}

/// How many of these widths together fit.
fn fitting(widths: impl Iterator<Item = usize>, room: usize) -> usize {
    widths.scan(0, |sum, width| {
        *sum += width;
        Some(*sum)
    }).take_while(|&sum| sum <= room).count()
}

#[cfg(test)]
mod tests {
    use super::*;

    #[test]
    fn lines_by_number() {
        let text = b"one\n\nthree";
        assert_eq!([0, 1, 2, 3, 4].map(|number| line(text, number)), [None, Some(&b"one"[..]), Some(b""), Some(b"three"), None]);
        assert_eq!(range(text, 3), Some(5..10));
        assert_eq!((line(b"", 1), line(b"\n", 1), line(b"\n", 2)), (None, Some(&b""[..]), None));
        assert_eq!(lines(b"a\n\n").collect::<Vec<_>>(), [&b"a"[..], b""]);
    }

    #[test]
    fn units_and_rules_by_number() {
        let text = b"(note (unit 1 (window 1 1)))\n(sheet 4)\n(rule (slots 1 1) (count 0 1))\n(unit 7 (window 1 5))\n(note)\n(unit 3 (window 1 1))\n";
        let sheet = Sheet::read(text).unwrap();
        assert_eq!(numbers(House::Ours, text, &sheet), Some(Numbers { units: vec![4, 6], rules: vec![3] }));
        assert_eq!(numbers(House::Partner, text, &sheet), None);
        let theirs = b"(day 4)\n(limit (from 1) (hours 1) (most 1))\n(job 7 (start 1) (hours 2))\n";
        let sheet = Sheet::read_partner(theirs).unwrap();
        assert_eq!(numbers(House::Partner, theirs, &sheet), Some(Numbers { units: vec![3], rules: vec![2] }));
    }

    #[test]
    fn what_is_invisible() {
        assert_eq!(visible(b"a b\t\r\0\x1b\xe2~\x7f "), "a b<tab><cr><nul><0x1b><0xe2>~<0x7f> ");
        let seen = excerpt(b"(unit 1\t(window 1 2))\r", 0);
        assert_eq!(seen.shown, "(unit 1<tab>(window 1 2))<cr>");
        assert_eq!(seen.carets, "       ^^^^^             ^^^^");
        assert_eq!(excerpt(b" (sheet 4)  ", 0), Excerpt { shown: " (sheet 4)<space><space>".to_string(), carets: String::new() });
    }

    #[test]
    fn a_long_line_is_cut() {
        let line = (0..2_000).map(|i| format!("{i:07};")).collect::<String>().into_bytes();
        for place in [0, 1, 59, 60, 61, 62, 8_000, 15_939, 15_940, 15_998, 15_999, 16_000, 17_000] {
            let Excerpt { shown, carets } = excerpt(&line, place);
            let kept = shown.trim_matches('.').as_bytes();
            let start = line.windows(COLUMNS).position(|part| part == kept).unwrap();
            assert_eq!(start, place.saturating_sub(COLUMNS / 2).min(line.len() - COLUMNS));
            assert_eq!((shown.starts_with(CUT), shown.ends_with(CUT)), (start > 0, start + COLUMNS < line.len()));
            assert_eq!(carets, "");
        }
        assert_eq!(excerpt(&line[..COLUMNS], 3).shown.as_bytes(), &line[..COLUMNS]);
    }

    #[test]
    fn a_foreign_byte_of_a_long_line_is_seen() {
        let line = [&[b'x'; 300][..], b"\xff", &[b'x'; 300]].concat();
        let seen = excerpt(&line, 300);
        assert!(seen.shown.contains("<0xff>"));
        assert_eq!(seen.shown.find("<0xff>"), seen.carets.find("^^^^^^"));
        for line in [[0xff; 16_000], [b' '; 16_000]] {
            assert!([0, 9_000, 16_000].iter().all(|&place| excerpt(&line, place).shown.len() <= COLUMNS + 2 * CUT.len()));
        }
    }
}
