//! Hints for the usual slips.
//!
//! A hint is a sentence with a repair of the text. It is given only where the library, asked again with the repaired text, gets past the question that it
//! answered no: so the reader itself confirms every hint, and there is no second reader that could disagree with it.

use crate::lines::{self, beginnings, entry_words, lines, visible};
use std::ops::Range;
use tugrokt::told::{self, Place, Refusal};
use tugrokt::{House, Sheet, MAX_BYTES, MAX_COUNT, MAX_RULES, MAX_SLOTS, MAX_UNITS};

/// How far a call got before it was refused: through the lines, the whole text, and on the way to the partner the units and then the rules.
#[derive(Clone, Copy, Debug, PartialEq, Eq, PartialOrd, Ord)]
pub enum Reach {
    Nothing,
    /// To this line, and there to the question of this place among those of a line.
    Line(usize, usize),
    Whole,
    Unit(usize),
    Rule(usize),
}

/// The questions of a line in their order; but a repair that makes a line a note leads from 3 to 11, so that 11 counts as the later one.
const OF_A_LINE: [usize; 11] = [2, 3, 11, 4, 5, 6, 7, 16, 8, 9, 10];

impl Reach {
    /// How far a refused call got.
    pub fn of(refusal: &Refusal) -> Reach {
        match (refusal.place(), refusal.question()) {
            (Place::Line(line), question) => Reach::Line(line, OF_A_LINE.iter().position(|&q| q == question).unwrap_or(0)),
            (Place::Unit(index), _) => Reach::Unit(index),
            (Place::Rule(index), _) => Reach::Rule(index),
            (Place::Whole, 5) => Reach::Whole,
            (Place::Whole, _) => Reach::Nothing,
        }
    }

    /// Through all questions of a line.
    fn through(line: usize) -> Reach {
        Reach::Line(line, OF_A_LINE.len())
    }

    /// The same question, where lines were put in or left out before its line.
    fn moved(self, down: isize) -> Reach {
        match self {
            Reach::Line(line, question) => Reach::Line(line.saturating_add_signed(down), question),
            other => other,
        }
    }
}

/// A hint that the library confirmed.
#[derive(Debug)]
#[cfg_attr(not(test), expect(dead_code, reason = "tests hold every hint against the library again, by its text"))]
pub struct Hint {
    /// The name of the slip, in [`ALL`].
    pub id: &'static str,
    /// What to do.
    pub says: String,
    /// The repaired text.
    pub text: Vec<u8>,
    /// What the library gets past, reading the repaired text.
    pub past: Reach,
    /// The repaired line, where it may be shown and the library takes it.
    pub line: Option<Vec<u8>>,
    /// The place in the line that the hint is about.
    pub at: usize,
}

/// A slip, by a name that stays, with the questions that it can be refused by and the repairs that are tried, in this order.
pub struct Slip {
    pub id: &'static str,
    questions: &'static [usize],
    guesses: fn(&Case) -> Vec<Guess>,
}

/// A hint that is still to be confirmed.
struct Guess {
    says: String,
    text: Vec<u8>,
    past: Reach,
    line: Option<Vec<u8>>,
    at: usize,
}

impl Guess {
    /// The same without showing the line, where the repair is one of several that are possible.
    fn unseen(self) -> Guess {
        Guess { line: None, ..self }
    }

    /// The same about this place in the line.
    fn at(self, at: usize) -> Guess {
        Guess { at, ..self }
    }
}

/// A refused text, and the line that is to blame.
pub struct Case<'a> {
    house: House,
    text: &'a [u8],
    refusal: &'a Refusal,
    /// The line's number, or 0 where it is the whole text.
    pub number: usize,
    range: Range<usize>,
}

impl<'a> Case<'a> {
    /// A unit or a rule is found on its line by the lists of the text.
    pub fn of(house: House, text: &'a [u8], refusal: &'a Refusal) -> Case<'a> {
        let numbers = || read(house, text).ok().and_then(|sheet| lines::numbers(house, text, &sheet));
        let number = match refusal.place() {
            Place::Line(number) => Some(number),
            Place::Unit(index) => numbers().and_then(|n| n.units.get(index).copied()),
            Place::Rule(index) => numbers().and_then(|n| n.rules.get(index).copied()),
            Place::Whole => None,
        };
        let found = number.and_then(|number| lines::range(text, number).map(|range| (number, range)));
        let (number, range) = found.unwrap_or((0, 0..0));
        Case { house, text, refusal, number, range }
    }

    /// The line, without its line feed.
    pub fn line(&self) -> &'a [u8] {
        &self.text[self.range.clone()]
    }

    /// Whether the line has its line feed.
    fn is_fed(&self) -> bool {
        self.range.end < self.text.len()
    }

    /// What is before the line, and what is after its line feed.
    fn around(&self) -> [&'a [u8]; 2] {
        [&self.text[..self.range.start], self.text.get(self.range.end + 1..).unwrap_or(&[])]
    }

    /// The sheet that the lines before this one are. They were taken, and so are a sheet where they have a span.
    fn sheet_before(&self) -> Option<Sheet> {
        read(self.house, self.around()[0]).ok()
    }

    /// The numbers of the line, which can be told by their digits where it is one of the forms.
    fn numbers(&self) -> Vec<usize> {
        digits(self.line()).into_iter().filter_map(|range| std::str::from_utf8(&self.line()[range]).ok()?.parse().ok()).collect()
    }

    /// Asks the library again, of another text.
    fn ask(&self, text: &[u8]) -> Result<(), Refusal> {
        let sheet = read(self.house, text)?;
        if matches!(self.refusal.place(), Place::Unit(_) | Place::Rule(_)) { told::write_partner(&sheet).map(drop) } else { Ok(()) }
    }

    /// The guess as a hint of this name, if the library confirms it.
    fn confirmed(&self, id: &'static str, guess: Guess) -> Option<Hint> {
        let reached = self.ask(&guess.text).err().map(|refusal| Reach::of(&refusal));
        let gets_past = |goal| reached.is_none_or(|reached| reached > goal);
        let Guess { says, text, past, line, at } = guess;
        let line = line.filter(|_| gets_past(Reach::through(self.number)));
        gets_past(past).then_some(Hint { id, says, text, past, line, at })
    }

    /// The guess that another text is meant.
    fn text_anew(&self, text: Vec<u8>, says: impl Into<String>) -> Guess {
        Guess { says: says.into(), text, past: Reach::of(self.refusal), line: None, at: 0 }
    }

    /// The guess that another line is meant. It has its line feed, of which the sentence then speaks too.
    fn line_anew(&self, line: Vec<u8>, says: impl Into<String>) -> Guess {
        let [before, after] = self.around();
        let also = if self.is_fed() { "" } else { "; the last line also needs its line feed" };
        let text = [before, &line, b"\n", after].concat();
        Guess { line: Some(line), ..self.text_anew(text, says.into() + also) }
    }

    /// The guess that the line's numbers are to be others. Which ones, only the writer knows.
    fn numbers_anew(&self, numbers: &[usize], says: impl Into<String>) -> Guess {
        self.line_anew(with_numbers(self.line(), numbers), says).unseen()
    }

    /// The guess that this line should not be there.
    fn line_out(&self, says: impl Into<String>) -> Guess {
        Guess { past: Reach::through(self.number.saturating_sub(1)), ..self.text_anew(self.around().concat(), says) }
    }

    /// Whether the line gives a unit, and whether it gives a rule, by its first letters.
    fn gives(&self) -> [bool; 2] {
        beginnings(self.house).map(|letters| self.line().starts_with(letters))
    }
}

/// Reads a text of a house.
fn read(house: House, text: &[u8]) -> Result<Sheet, Refusal> {
    match house {
        House::Ours => told::read(text),
        House::Partner => told::read_partner(text),
    }
}

/// The hint for a refused text, if there is one that the library confirms: the first, in the order of [`ALL`].
pub fn hint(house: House, text: &[u8], refusal: &Refusal) -> Option<Hint> {
    let case = Case::of(house, text, refusal);
    let of_question = ALL.iter().filter(|slip| slip.questions.contains(&refusal.question()));
    let mut tried = of_question.flat_map(|slip| (slip.guesses)(&case).into_iter().map(move |guess| (slip.id, guess)));
    tried.find_map(|(id, guess)| case.confirmed(id, guess))
}

/// All slips, in the order in which they are tried.
pub const ALL: &[Slip] = &[
    Slip { id: "too-long", questions: &[1], guesses: too_long },
    Slip { id: "utf-16", questions: &[2], guesses: utf_16 },
    Slip { id: "byte-order-mark", questions: &[2], guesses: byte_order_mark },
    Slip { id: "carriage-returns", questions: &[2], guesses: carriage_returns },
    Slip { id: "carriage-returns-alone", questions: &[2], guesses: carriage_returns_alone },
    Slip { id: "tab", questions: &[2], guesses: tab },
    Slip { id: "no-break-space", questions: &[2], guesses: no_break_space },
    Slip { id: "typographic", questions: &[2], guesses: typographic },
    Slip { id: "control-byte", questions: &[2], guesses: control_byte },
    Slip { id: "not-ascii", questions: &[2], guesses: not_ascii },
    Slip { id: "several-foreign", questions: &[2], guesses: several_foreign },
    Slip { id: "empty-line", questions: &[3], guesses: empty_line },
    Slip { id: "no-line-feed", questions: &[3], guesses: no_line_feed },
    Slip { id: "other-house", questions: &[3], guesses: other_house },
    Slip { id: "comment", questions: &[3], guesses: comment },
    Slip { id: "leading-space", questions: &[3], guesses: leading_space },
    Slip { id: "trailing-space", questions: &[3, 11], guesses: trailing_space },
    Slip { id: "two-spaces", questions: &[3], guesses: two_spaces },
    Slip { id: "capitals", questions: &[3], guesses: capitals },
    Slip { id: "note-without-space", questions: &[3], guesses: note_without_space },
    Slip { id: "bracket-missing", questions: &[3], guesses: bracket_missing },
    Slip { id: "bracket-too-many", questions: &[3], guesses: bracket_too_many },
    Slip { id: "two-forms", questions: &[3, 11], guesses: two_forms },
    Slip { id: "comment-behind", questions: &[3, 11], guesses: comment_behind },
    Slip { id: "words-behind", questions: &[3], guesses: words_behind },
    Slip { id: "comma", questions: &[3], guesses: comma },
    Slip { id: "dash", questions: &[3], guesses: dash },
    Slip { id: "sign-or-point", questions: &[3], guesses: sign_or_point },
    Slip { id: "no-loader-number", questions: &[3], guesses: no_loader_number },
    Slip { id: "as-the-form", questions: &[3], guesses: as_the_form },
    Slip { id: "how-many-numbers", questions: &[3], guesses: how_many_numbers },
    Slip { id: "wrong-word", questions: &[3], guesses: wrong_word },
    Slip { id: "words-alone", questions: &[3], guesses: words_alone },
    Slip { id: "note-not-closed", questions: &[11], guesses: bracket_missing },
    Slip { id: "note-closed-too-often", questions: &[11], guesses: bracket_too_many },
    Slip { id: "text-behind-note", questions: &[11], guesses: text_behind_note },
    Slip { id: "note-too-deep", questions: &[11], guesses: note_too_deep },
    Slip { id: "leading-zero", questions: &[4], guesses: leading_zero },
    Slip { id: "too-many-digits", questions: &[4], guesses: too_many_digits },
    Slip { id: "second-span", questions: &[5], guesses: second_span },
    Slip { id: "span-too-late", questions: &[5], guesses: span_too_late },
    Slip { id: "empty-text", questions: &[5], guesses: empty_text },
    Slip { id: "no-span", questions: &[5], guesses: no_span },
    Slip { id: "span-zero", questions: &[6], guesses: span_zero },
    Slip { id: "span-too-long", questions: &[6], guesses: span_too_long },
    Slip { id: "slot-zero", questions: &[7], guesses: slot_zero },
    Slip { id: "no-hours", questions: &[7], guesses: no_hours },
    Slip { id: "first-after-last", questions: &[7], guesses: first_after_last },
    Slip { id: "window-begins-carried", questions: &[7], guesses: window_begins_carried },
    Slip { id: "rule-reaches-carried", questions: &[7], guesses: rule_reaches_carried },
    Slip { id: "past-the-span", questions: &[7], guesses: past_the_span },
    Slip { id: "past-the-day", questions: &[7], guesses: past_the_day },
    Slip { id: "loader-zero", questions: &[16], guesses: loader_zero },
    Slip { id: "loader-again", questions: &[16], guesses: loader_again },
    Slip { id: "high-too-large", questions: &[8], guesses: high_too_large },
    Slip { id: "low-above-high", questions: &[8], guesses: low_above_high },
    Slip { id: "too-many-units", questions: &[9], guesses: too_many_units },
    Slip { id: "too-many-rules", questions: &[10], guesses: too_many_rules },
    Slip { id: "may-be-carried", questions: &[17], guesses: may_be_carried },
    Slip { id: "has-a-low", questions: &[18], guesses: has_a_low },
];

/// A guess, if there is one.
fn one(guess: Option<Guess>) -> Vec<Guess> {
    guess.into_iter().collect()
}

/// Something of the text that a sentence names, cut where it is long.
fn named(bytes: &[u8]) -> String {
    const LONGEST: usize = 24;
    let shown = visible(&bytes[..bytes.len().min(LONGEST)]);
    if bytes.len() > LONGEST { shown + ".." } else { shown }
}

/// A number with the word that it counts.
fn counted(number: usize, word: &str) -> String {
    if number == 1 { format!("one {word}") } else { format!("{number} {word}s") }
}

/// The same with the verb.
fn counted_are(number: usize, word: &str) -> String {
    counted(number, word) + if number == 1 { " is" } else { " are" }
}

// 1: the length of the text.

/// The bytes that the longest sheet of a house has without notes (docs/RULES.md).
fn most_without_notes(house: House) -> &'static str {
    match house {
        House::Ours => "10,331",
        House::Partner => "12,309",
    }
}

/// What is too much is cut off.
fn too_long(case: &Case) -> Vec<Guess> {
    let says = format!("the text has more than 16,000 bytes: leave out notes; without them no sheet needs more than {}", most_without_notes(case.house));
    one(case.text.get(..MAX_BYTES).map(|text| case.text_anew(text.to_vec(), says)))
}

// 2: foreign bytes.

/// A text without the carriage returns that stand at the ends of its lines.
fn unix(text: &[u8]) -> Vec<u8> {
    let ends = |i: usize| text[i] == b'\r' && text.get(i + 1).is_none_or(|&next| next == b'\n');
    (0..text.len()).filter(|&i| !ends(i)).map(|i| text[i]).collect()
}

/// The guess that a text with another coding is meant, and the one that it has other line ends too.
fn coded_anew(case: &Case, text: Option<Vec<u8>>, says: &str) -> Vec<Guess> {
    let Some(text) = text.filter(|_| case.number == 1) else { return Vec::new() };
    let ended = case.text_anew(unix(&text), format!("{says}, with Unix line ends"));
    vec![case.text_anew(text, says), ended]
}

/// The text is written in UTF-8.
fn utf_16(case: &Case) -> Vec<Guess> {
    coded_anew(case, decoded(case.text), "the file is UTF-16: save it as plain ASCII")
}

/// A text in UTF-16, with a byte order mark or without, in UTF-8.
fn decoded(text: &[u8]) -> Option<Vec<u8>> {
    let unit: fn([u8; 2]) -> u16 = match text {
        [0xff, 0xfe, ..] | [_, 0, ..] => u16::from_le_bytes,
        [0xfe, 0xff, ..] | [0, _, ..] => u16::from_be_bytes,
        _ => return None,
    };
    let units = text.chunks_exact(2).map(|pair| unit([pair[0], pair[1]]));
    let characters = char::decode_utf16(units).map(|character| character.unwrap_or(char::REPLACEMENT_CHARACTER));
    Some(characters.filter(|&character| character != '\u{feff}').collect::<String>().into_bytes())
}

/// The mark is left out.
fn byte_order_mark(case: &Case) -> Vec<Guess> {
    let text = case.text.strip_prefix(b"\xef\xbb\xbf").map(<[u8]>::to_vec);
    coded_anew(case, text, "the file begins with a byte order mark: save it without one, as plain ASCII")
}

/// All carriage returns at ends of lines are left out.
fn carriage_returns(case: &Case) -> Vec<Guess> {
    let says = "the lines end with a carriage return before the line feed: save the file with Unix line ends";
    one(case.line().ends_with(b"\r").then(|| case.text_anew(unix(case.text), says)))
}

/// Each carriage return becomes a line feed, where all of the line end a form.
fn carriage_returns_alone(case: &Case) -> Vec<Guess> {
    let ends_forms = case.line().split_inclusive(|&byte| byte == b'\r').all(|part| part.ends_with(b")\r") || !part.ends_with(b"\r"));
    let fed = |&byte: &u8| if byte == b'\r' { b'\n' } else { byte };
    let says = "the lines end with carriage returns: save the file with Unix line ends, line feeds alone";
    one((ends_forms && case.line().contains(&b'\r')).then(|| case.text_anew(case.text.iter().map(fed).collect(), says)))
}

/// The characters of a line in UTF-8, or else in the coding of Western Europe.
fn characters(line: &[u8]) -> String {
    std::str::from_utf8(line).map_or_else(|_| line.iter().map(|&byte| western(byte)).collect(), str::to_string)
}

/// A byte in Windows-1252, as far as its quotes and dashes differ from Latin-1.
fn western(byte: u8) -> char {
    match byte {
        0x85 => '…',
        0x91 => '‘',
        0x92 => '’',
        0x93 => '“',
        0x94 => '”',
        0x96 => '–',
        0x97 => '—',
        _ => char::from(byte),
    }
}

/// A kind of foreign characters: what it is called, and what is written for a character that is of the kind.
struct Foreign {
    name: &'static str,
    plain: fn(char) -> Option<&'static str>,
}

const TAB: Foreign = Foreign { name: "a tab", plain: |c| (c == '\t').then_some(" ") };
const NO_BREAK_SPACE: Foreign = Foreign { name: "a no-break space", plain: plain_space };
const TYPOGRAPHIC: Foreign = Foreign { name: "typographic quotes or dashes", plain: plain_sign };
const CONTROL: Foreign = Foreign { name: "a control byte", plain: |c| (c.is_ascii_control() && c != '\t').then_some("") };
const LETTER: Foreign = Foreign { name: "a character that is not ASCII", plain: |c| (!c.is_ascii()).then_some("?") };
/// In this order a character is of the first kind that it fits.
const FOREIGN: [Foreign; 5] = [TAB, NO_BREAK_SPACE, TYPOGRAPHIC, CONTROL, LETTER];

/// A plain space for others, and nothing for those without width.
fn plain_space(character: char) -> Option<&'static str> {
    match character {
        '\u{200b}' | '\u{feff}' | '\u{2060}' => Some(""),
        _ => (!character.is_ascii() && character.is_whitespace()).then_some(" "),
    }
}

/// The sign of ASCII for one of typography.
fn plain_sign(character: char) -> Option<&'static str> {
    match character {
        '‘' | '’' | '‚' | '′' => Some("'"),
        '“' | '”' | '„' | '″' | '«' | '»' => Some("\""),
        '\u{2010}'..='\u{2015}' | '−' => Some("-"),
        '…' => Some("..."),
        _ => None,
    }
}

/// A line with all characters of these kinds made plain.
fn plain(line: &[u8], kinds: &[Foreign]) -> Vec<u8> {
    let made = |character: char| kinds.iter().find_map(|kind| (kind.plain)(character)).map_or_else(|| character.to_string(), str::to_string);
    characters(line).chars().map(made).collect::<String>().into_bytes()
}

/// The guess that the line is meant with all characters of one kind made plain, if it has some.
fn made_plain(case: &Case, kind: Foreign, says: impl Into<String>) -> Vec<Guess> {
    let line = plain(case.line(), &[kind]);
    one((line != case.line()).then(|| case.line_anew(line, says)))
}

/// A tab may stand in a run of spaces, or at an end of the line, where no space may stand.
fn tab(case: &Case) -> Vec<Guess> {
    let words = case.line().split(|&byte| byte == b' ' || byte == b'\t').filter(|word| !word.is_empty());
    let line = words.collect::<Vec<_>>().join(&b' ');
    let says = "the line has a tab: write one space between words, and none at the ends";
    one(case.line().contains(&b'\t').then(|| case.line_anew(line, says)))
}

/// Other spaces become plain ones.
fn no_break_space(case: &Case) -> Vec<Guess> {
    made_plain(case, NO_BREAK_SPACE, "the line has a no-break space: write a plain one")
}

/// Signs of typography become those of ASCII.
fn typographic(case: &Case) -> Vec<Guess> {
    made_plain(case, TYPOGRAPHIC, "the line has typographic quotes or dashes: write the plain ones of ASCII")
}

/// Control bytes are left out.
fn control_byte(case: &Case) -> Vec<Guess> {
    let found = case.line().iter().find(|&&byte| byte.is_ascii_control() && byte != b'\t');
    let says = |&byte: &u8| format!("leave out the control byte {}", visible(&[byte]));
    found.map_or(Vec::new(), |byte| made_plain(case, CONTROL, says(byte)))
}

/// Each character becomes a question mark. How it is best written in ASCII, only the writer knows.
fn not_ascii(case: &Case) -> Vec<Guess> {
    let found = characters(case.line()).chars().find(|character| !character.is_ascii());
    let says = |character| format!("U+{:04X} is not ASCII: write it in plain letters", u32::from(character));
    found.map_or(Vec::new(), |character| made_plain(case, LETTER, says(character)).into_iter().map(Guess::unseen).collect())
}

/// All kinds are made plain together.
fn several_foreign(case: &Case) -> Vec<Guess> {
    let line = characters(case.line());
    let kind = |character: char| FOREIGN.iter().position(|kind| (kind.plain)(character).is_some());
    let names = (0..FOREIGN.len()).filter(|&i| line.chars().any(|c| kind(c) == Some(i))).map(|i| FOREIGN[i].name);
    let says = format!("the line has {}: save the file as plain ASCII, with Unix line ends", names.collect::<Vec<_>>().join(", "));
    vec![case.line_anew(plain(case.line(), &FOREIGN), says).unseen()]
}

// 3: lines that are no form.

/// The line is left out.
fn empty_line(case: &Case) -> Vec<Guess> {
    let is_empty = case.number > 0 && case.line().iter().all(|&byte| byte == b' ');
    one(is_empty.then(|| case.line_out("the line is empty: leave it out")))
}

/// The line feed is put behind the text.
fn no_line_feed(case: &Case) -> Vec<Guess> {
    let says = "the last line needs a line feed at its end";
    one((!case.is_fed()).then(|| case.text_anew([case.text, b"\n"].concat(), says).at(case.line().len())))
}

/// The library turns the line into the form of this house.
fn other_house(case: &Case) -> Vec<Guess> {
    let says = match case.house {
        House::Ours => "this is a form of the partner's: tugrokt from-partner turns such a sheet into ours, and tugrokt plan --partner plans it",
        House::Partner => "this is a form of ours, and not the partner's: tugrokt to-partner turns such a sheet into theirs",
    };
    one(translated(case).map(|line| case.line_anew(line, says).unseen()))
}

/// A line of the other house in the form of this one, with what the partner cannot have left out.
fn translated(case: &Case) -> Option<Vec<u8>> {
    let (other, span): (_, &[u8]) = match case.house {
        House::Ours => (House::Partner, b"(day 48)\n"),
        House::Partner => (House::Ours, b"(sheet 48)\n"),
    };
    let line = [case.line(), b"\n"].concat();
    let of_span = || read(other, &[span, &line].concat()).ok().filter(|sheet| sheet.loader.len() + sheet.from.len() == 1);
    let mut sheet = read(other, &line).ok().or_else(of_span)?;
    let text = if case.house == House::Ours { told::write(&sheet) } else {
        sheet.last.iter_mut().for_each(|last| *last = (*last).min(MAX_SLOTS as u16));
        sheet.low.fill(0);
        told::write_partner(&sheet)
    };
    lines(&text.ok()?).last().map(<[u8]>::to_vec)
}

/// What is behind the sign that begins a comment in some other language.
fn behind_sign(line: &[u8]) -> Option<&[u8]> {
    let signs: [&[u8]; 6] = [b"#", b";", b"//", b"/*", b"--", b"%"];
    let line = line.trim_ascii();
    let sign = signs.iter().find(|sign| line.starts_with(sign))?;
    Some(line[sign.len()..].trim_ascii_start())
}

/// A note of these words, whose brackets are written otherwise where they do not match.
fn note_of(words: &[u8]) -> Vec<u8> {
    let other = |&byte: &u8| match byte {
        b'(' => b'[',
        b')' => b']',
        _ => byte,
    };
    let words: Vec<u8> = if outer_end(&[b"(", words, b")"].concat()) == Some(words.len() + 1) { words.to_vec() } else { words.iter().map(other).collect() };
    if words.is_empty() { b"(note)".to_vec() } else { [b"(note ", &words[..], b")"].concat() }
}

/// The line becomes a note.
fn comment(case: &Case) -> Vec<Guess> {
    one(behind_sign(case.line()).map(|words| case.line_anew(note_of(words), "a comment is written as a note, (note ..)")))
}

/// Spaces in front are left out.
fn leading_space(case: &Case) -> Vec<Guess> {
    let line = case.line().trim_ascii_start();
    one((line != case.line()).then(|| case.line_anew(line.to_vec(), "the line begins with a space: leave it out")))
}

/// Spaces at the end are left out.
fn trailing_space(case: &Case) -> Vec<Guess> {
    let line = case.line().trim_ascii_end();
    one((line != case.line()).then(|| case.line_anew(line.to_vec(), "the line ends with a space: leave it out").at(line.len())))
}

/// Each run of spaces becomes one.
fn two_spaces(case: &Case) -> Vec<Guess> {
    let at = case.line().windows(2).position(|pair| pair == b"  ");
    let words = || case.line().split(|&byte| byte == b' ').filter(|word| !word.is_empty()).collect::<Vec<_>>().join(&b' ');
    one(at.map(|at| case.line_anew(words(), "two spaces stand where the form has one").at(at)))
}

/// The words of a note may have capitals, and only its first word counts.
fn capitals(case: &Case) -> Vec<Guess> {
    let line = case.line();
    let first = line.iter().position(|byte| !byte.is_ascii_alphabetic() && *byte != b'(').unwrap_or(line.len());
    let lower = |end: usize| [&line[..end].to_ascii_lowercase(), &line[end..]].concat();
    let says = "the words of a form have small letters";
    let has = |end: usize| line[..end].iter().any(u8::is_ascii_uppercase);
    [first, line.len()].into_iter().filter(|&end| has(end)).map(|end| case.line_anew(lower(end), says)).collect()
}

/// A space is put in.
fn note_without_space(case: &Case) -> Vec<Guess> {
    let words = case.line().strip_prefix(b"(note").filter(|words| words.first().is_some_and(|byte| !byte.is_ascii_alphanumeric()));
    one(words.map(|words| case.line_anew([b"(note ", words].concat(), "behind the word note stands a space")))
}

/// How many brackets a line opens, and how many it closes.
fn brackets(line: &[u8]) -> (usize, usize) {
    let count = |bracket: u8| line.iter().filter(|&&byte| byte == bracket).count();
    (count(b'('), count(b')'))
}

/// Closing brackets are put at the end.
fn bracket_missing(case: &Case) -> Vec<Guess> {
    let (opened, closed) = brackets(case.line());
    let missing = opened.saturating_sub(closed);
    let says = format!("{} not closed", counted_are(missing, "bracket"));
    let line = [case.line(), &b")".repeat(missing)].concat();
    one((missing > 0).then(|| case.line_anew(line, says).at(case.line().len())))
}

/// Closing brackets at the end are left out.
fn bracket_too_many(case: &Case) -> Vec<Guess> {
    let (opened, closed) = brackets(case.line());
    let more = closed.saturating_sub(opened);
    let line = case.line().strip_suffix(&b")".repeat(more)[..]).filter(|_| more > 0);
    let says = format!("{} too many", counted_are(more, "closing bracket"));
    one(line.map(|line| case.line_anew(line.to_vec(), says).at(line.len())))
}

/// Where the bracket closes that the line begins with.
fn outer_end(line: &[u8]) -> Option<usize> {
    let mut open = 0_usize;
    let closes = |byte: &u8| {
        match byte {
            b'(' => open += 1,
            b')' => open = open.saturating_sub(1),
            _ => {}
        }
        open == 0
    };
    line.iter().position(closes)
}

/// The form that a line begins with, and what is behind it, if anything is.
fn form_and_rest<'a>(case: &Case<'a>) -> Option<(&'a [u8], &'a [u8])> {
    let line = case.line();
    let end = outer_end(line).filter(|_| line.starts_with(b"("))?;
    let (form, rest) = line.split_at(end + 1);
    Some((form, rest.trim_ascii())).filter(|(_, rest)| !rest.is_empty())
}

/// The second form gets a line of its own.
fn two_forms(case: &Case) -> Vec<Guess> {
    let two = form_and_rest(case).filter(|(_, rest)| rest.starts_with(b"("));
    let says = "a line has one form: begin a new line behind it";
    one(two.map(|(form, rest)| case.line_anew([form, b"\n", rest].concat(), says).unseen().at(form.len())))
}

/// The comment becomes a note on the next line.
fn comment_behind(case: &Case) -> Vec<Guess> {
    let two = form_and_rest(case).and_then(|(form, rest)| Some((form, behind_sign(rest)?)));
    let says = "a comment is written as a note, on a line of its own: (note ..)";
    one(two.map(|(form, words)| case.line_anew([form, b"\n", &note_of(words)].concat(), says).unseen().at(form.len())))
}

/// All that is behind the form is left out.
fn words_behind(case: &Case) -> Vec<Guess> {
    let says = "nothing may stand behind the form: leave it out, or write a note on a line of its own";
    one(form_and_rest(case).map(|(form, _)| case.line_anew(form.to_vec(), says).at(form.len())))
}

/// Commas become spaces.
fn comma(case: &Case) -> Vec<Guess> {
    let line = case.line();
    let parts = line.split(|&byte| byte == b',' || byte == b';').map(<[u8]>::trim_ascii).collect::<Vec<_>>();
    one((parts.len() > 1).then(|| case.line_anew(parts.join(&b' '), "between numbers stands one space, and no comma")))
}

/// What some write between the first and the last number of a stretch.
const BETWEEN: [&[u8]; 6] = [b" - ", b" to ", b"..", b"-", b":", b"/"];

/// Each sign between two numbers becomes a space.
fn dash(case: &Case) -> Vec<Guess> {
    let line = case.line();
    let is_digit = |i: Option<usize>| i.and_then(|i| line.get(i)).is_some_and(u8::is_ascii_digit);
    let sign_at = |i: usize| BETWEEN.iter().find(|sign| line[i..].starts_with(sign) && is_digit(i.checked_sub(1)) && is_digit(Some(i + sign.len())));
    let (mut anew, mut i) = (Vec::new(), 0);
    while i < line.len() {
        let sign = sign_at(i);
        anew.push(if sign.is_some() { b' ' } else { line[i] });
        i += sign.map_or(1, |sign| sign.len());
    }
    one((anew != line).then(|| case.line_anew(anew, "between two numbers stands one space")))
}

/// Signs, points and what is behind a point are left out. The number is then another, so the line is not shown.
fn sign_or_point(case: &Case) -> Vec<Guess> {
    let is_part = |byte: &u8| byte.is_ascii_digit() || b"+-.".contains(byte);
    // A part that has digits is a number with its signs.
    let kept = |part: &[u8]| digits(part).first().map_or(part.to_vec(), |run| part[run.clone()].to_vec());
    let line = case.line().chunk_by(|a, b| is_part(a) == is_part(b)).map(kept).collect::<Vec<_>>().concat();
    one((line != case.line()).then(|| case.line_anew(line, "a number is written with digits alone, without a sign or a point").unseen()))
}

/// A form: its words, each with how many numbers follow it. The first is outside, and each of the others has brackets of its own.
type Form = &'static [(&'static str, usize)];

/// The forms of a house but the note: the span, the unit, the rule.
fn forms(house: House) -> [Form; 3] {
    match house {
        House::Ours => [&[("sheet", 1)], &[("unit", 1), ("window", 2)], &[("rule", 0), ("slots", 2), ("count", 2)]],
        House::Partner => [&[("day", 1)], &[("job", 1), ("start", 1), ("hours", 1)], &[("limit", 0), ("from", 1), ("hours", 1), ("most", 1)]],
    }
}

/// An example of each form of a house.
pub fn examples(house: House) -> [&'static str; 4] {
    match house {
        House::Ours => ["(sheet 4)", "(unit 4017 (window 1 2))", "(rule (slots 1 2) (count 0 1))", "(note ..)"],
        House::Partner => ["(day 4)", "(job 4017 (start 1) (hours 2))", "(limit (from 1) (hours 2) (most 1))", "(note ..)"],
    }
}

/// What the numbers behind a word are.
fn meaning(word: &str) -> &'static str {
    match word {
        "sheet" | "day" => "one number, the slots that there are",
        "unit" | "job" => "one number, the loader's",
        "window" | "slots" => "two numbers, the first slot and the last",
        "count" => "two numbers, the fewest and the most",
        "rule" | "limit" => "no number",
        _ => "one number",
    }
}

/// A word of a line with the numbers that follow it, all as they stand there.
type Group<'a> = (&'a [u8], Vec<&'a [u8]>);

/// The words and numbers of a line, whatever brackets, quotes and spaces are between them. Nothing where there is any other sign, since a
/// sign may change a number.
fn groups(line: &[u8]) -> Option<Vec<Group<'_>>> {
    let mut groups: Vec<Group> = Vec::new();
    let kind = |byte: u8| (byte.is_ascii_alphabetic(), byte.is_ascii_digit());
    for part in line.chunk_by(|&a, &b| kind(a) == kind(b)) {
        match kind(part[0]) {
            (true, _) => groups.push((part, Vec::new())),
            (_, true) => groups.last_mut()?.1.push(part),
            _ if part.iter().all(|byte| b" ()[]{}<>,;:='\"".contains(byte)) => {}
            _ => return None,
        }
    }
    Some(groups)
}

/// A form with these numbers.
fn written<'a>(form: Form, numbers: impl Iterator<Item = Vec<&'a [u8]>>) -> Vec<u8> {
    let part = |(word, numbers): (&str, Vec<&[u8]>)| [&[word.as_bytes()], &numbers[..]].concat().join(&b' ');
    let parts: Vec<Vec<u8>> = form.iter().map(|(word, _)| *word).zip(numbers).map(part).collect();
    let inner = parts[1..].iter().map(|part| [b" (", &part[..], b")"].concat()).collect::<Vec<_>>().concat();
    [b"(", &parts[0][..], &inner, b")"].concat()
}

/// Whether a line has the words of a form, in capitals or not.
fn has_words(form: Form, groups: &[Group]) -> bool {
    form.len() == groups.len() && form.iter().zip(groups).all(|((word, _), group)| group.0.eq_ignore_ascii_case(word.as_bytes()))
}

/// Whether the words of a line are followed by as many numbers as those of a form.
fn has_counts(form: Form, groups: &[Group]) -> bool {
    form.len() == groups.len() && form.iter().zip(groups).all(|((_, count), group)| group.1.len() == *count)
}

/// The words and numbers of the line, and the form of its house that they fit.
fn fitting<'a>(case: &Case<'a>, fits: impl Fn(Form, &[Group]) -> bool) -> Option<(Form, Vec<Group<'a>>)> {
    let groups = groups(case.line())?;
    forms(case.house).into_iter().find(|form| fits(form, &groups)).map(|form| (form, groups))
}

/// A loader number that no line has.
fn free_loader(case: &Case) -> usize {
    let [unit, _] = beginnings(case.house);
    let is_free = |number: &usize| {
        let beginning = [unit, number.to_string().as_bytes(), b" "].concat();
        !lines(case.text).any(|line| line.starts_with(&beginning))
    };
    (1..).find(is_free).unwrap_or(1)
}

/// A number that is free is put in.
fn no_loader_number(case: &Case) -> Vec<Guess> {
    let is_unit = |form: Form| form == forms(case.house)[1];
    let lacks = |form: Form, groups: &[Group]| is_unit(form) && has_words(form, groups) && groups[0].1.is_empty() && has_counts(&form[1..], &groups[1..]);
    let number = free_loader(case).to_string();
    let says = format!("a unit has its loader number: {}", examples(case.house)[1]);
    one(fitting(case, lacks).map(|(form, groups)| {
        let others = groups.into_iter().skip(1).map(|group| group.1);
        case.line_anew(written(form, std::iter::once(vec![number.as_bytes()]).chain(others)), says).unseen()
    }))
}

/// The words and numbers of the line are written as the form has them.
fn as_the_form(case: &Case) -> Vec<Guess> {
    let found = fitting(case, |form, groups| has_words(form, groups) && has_counts(form, groups));
    one(found.map(|(form, groups)| {
        let line = written(form, groups.into_iter().map(|group| group.1));
        let says = format!("brackets and spaces stand exactly so: {}", named_whole(&line));
        case.line_anew(line, says).unseen()
    }))
}

/// A form that a sentence names, with its numbers where they are short.
fn named_whole(line: &[u8]) -> String {
    lines::excerpt(line, 0).shown
}

/// Numbers are repeated or left out.
fn how_many_numbers(case: &Case) -> Vec<Guess> {
    one(fitting(case, has_words).and_then(|(form, groups)| {
        let ((word, _), _) = form.iter().zip(&groups).find(|((_, count), group)| group.1.len() != *count)?;
        let numbers = form.iter().zip(&groups).map(|((_, count), group)| filled(*count, &group.1));
        Some(case.line_anew(written(form, numbers), format!("behind {word} stands {}", meaning(word))).unseen())
    }))
}

/// So many numbers: those that there are, and then the last of them again.
fn filled<'a>(count: usize, numbers: &[&'a [u8]]) -> Vec<&'a [u8]> {
    (0..count).map(|i| numbers.get(i).or(numbers.last()).copied().unwrap_or(b"1")).collect()
}

/// The words of the form are put in place of those of the line.
fn wrong_word(case: &Case) -> Vec<Guess> {
    let is_like = |form: Form, groups: &[Group]| has_counts(form, groups) && resembles(form, groups);
    one(fitting(case, is_like).and_then(|(form, groups)| {
        let ((word, _), (wrong, _)) = form.iter().zip(&groups).find(|((word, _), group)| !group.0.eq_ignore_ascii_case(word.as_bytes()))?;
        let says = format!("write {word} in place of {}", named(wrong));
        Some(case.line_anew(written(form, groups.into_iter().map(|group| group.1)), says))
    }))
}

/// Whether words of a line may stand for those of a form: one is the same, or the first begins alike.
fn resembles(form: Form, groups: &[Group]) -> bool {
    let same = form.iter().zip(groups).any(|((word, _), group)| group.0.eq_ignore_ascii_case(word.as_bytes()));
    same || groups[0].0[0].eq_ignore_ascii_case(&form[0].0.as_bytes()[0])
}

/// The line becomes a note.
fn words_alone(case: &Case) -> Vec<Guess> {
    let has_brackets = brackets(case.line()) != (0, 0);
    one((!has_brackets && !case.line().is_empty()).then(|| case.line_anew(note_of(case.line()), "words stand in a note, (note ..)")))
}

// 11: the brackets of notes.

/// The outer bracket goes to the end of the line, where there may be one already.
fn text_behind_note(case: &Case) -> Vec<Guess> {
    let Some((form, rest)) = form_and_rest(case) else { return Vec::new() };
    let says = "the note's outer bracket closes before the line ends: put the rest inside it";
    let inside = [&form[..form.len() - 1], b" ", rest].concat();
    let closed = [&inside[..], b")"].concat();
    [closed, inside].map(|line| case.line_anew(line, says).at(form.len())).into()
}

/// How deep the brackets of a note may go.
const DEEPEST: usize = 16;

/// A line without the brackets that go too deep, and where the first of them stands.
fn flattened(line: &[u8]) -> (Vec<u8>, Option<usize>) {
    let (mut open, mut kept, mut first) = (0_usize, Vec::new(), None);
    for (i, &byte) in line.iter().enumerate() {
        let depth = if byte == b'(' { open + 1 } else { open };
        match byte {
            b'(' => open += 1,
            b')' => open = open.saturating_sub(1),
            _ => {}
        }
        if depth > DEEPEST && matches!(byte, b'(' | b')') {
            first = first.or(Some(i));
        } else {
            kept.push(byte);
        }
    }
    (kept, first)
}

/// Brackets that go too deep are left out.
fn note_too_deep(case: &Case) -> Vec<Guess> {
    let (line, first) = flattened(case.line());
    one(first.map(|at| case.line_anew(line, "a bracket opens inside 16 others: 16 deep is the most").unseen().at(at)))
}

// 4: how numbers are written.

/// Where the runs of digits stand in a line.
fn digits(line: &[u8]) -> Vec<Range<usize>> {
    let mut end = 0;
    let runs = line.chunk_by(|a, b| a.is_ascii_digit() == b.is_ascii_digit()).map(|run| {
        end += run.len();
        end - run.len()..end
    });
    runs.filter(|run| line[run.start].is_ascii_digit()).collect()
}

/// A line with its runs of digits written otherwise.
fn rewritten(line: &[u8], anew: impl Fn(usize, &[u8]) -> Vec<u8>) -> Vec<u8> {
    let (mut out, mut end) = (Vec::new(), 0);
    for (i, run) in digits(line).into_iter().enumerate() {
        out.extend_from_slice(&line[end..run.start]);
        out.extend(anew(i, &line[run.clone()]));
        end = run.end;
    }
    out.extend_from_slice(&line[end..]);
    out
}

/// A line with these numbers in place of its own, as far as there are some.
fn with_numbers(line: &[u8], numbers: &[usize]) -> Vec<u8> {
    rewritten(line, |i, own| numbers.get(i).map_or(own.to_vec(), |number| number.to_string().into_bytes()))
}

/// A number without its needless zeros.
fn bare(number: &[u8]) -> &[u8] {
    let zeros = number.iter().take_while(|&&digit| digit == b'0').count();
    &number[zeros.min(number.len().saturating_sub(1))..]
}

/// The first number of the line for which this holds.
fn first_number<'a>(case: &Case<'a>, holds: impl Fn(&[u8]) -> bool) -> Option<(usize, &'a [u8])> {
    let line = case.line();
    digits(line).into_iter().map(|run| (run.start, &line[run])).find(|(_, number)| holds(number))
}

/// All needless zeros of the line are left out.
fn leading_zero(case: &Case) -> Vec<Guess> {
    let found = first_number(case, |number| bare(number) != number);
    one(found.map(|(at, number)| {
        let says = format!("a number has no zero in front: write {} for {}", named(bare(number)), named(number));
        case.line_anew(rewritten(case.line(), |_, number| bare(number).to_vec()), says).at(at)
    }))
}

/// The largest number is put in place of those that are too long.
fn too_many_digits(case: &Case) -> Vec<Guess> {
    const MOST: usize = 4;
    let found = first_number(case, |number| bare(number).len() > MOST);
    let fitting = |number: &[u8]| if bare(number).len() > MOST { b"9999".to_vec() } else { bare(number).to_vec() };
    one(found.map(|(at, number)| {
        let says = format!("{} has {} digits, and four are the most", named(number), number.len());
        case.line_anew(rewritten(case.line(), |_, number| fitting(number)), says).unseen().at(at)
    }))
}

// 5 and 6: the span.

/// Whether a line gives a span, be it too small or too large: the library takes nothing else alone.
fn gives_span(house: House, line: &[u8]) -> bool {
    matches!(read(house, &[line, b"\n"].concat()), Ok(_) | Err(Refusal::Span(_)))
}

/// The number of the first line that gives the span.
fn span_line(case: &Case) -> Option<usize> {
    lines(case.text).position(|line| gives_span(case.house, line)).map(|index| index + 1)
}

/// The line is left out.
fn second_span(case: &Case) -> Vec<Guess> {
    let first = span_line(case).filter(|&first| first < case.number && !case.gives().contains(&true));
    one(first.map(|first| case.line_out(format!("the span is given already, on line {first}: leave this line out"))))
}

/// The guess that a form of the span is missing before this line, or at the beginning.
fn span_put_in(case: &Case, says: String) -> Guess {
    let [before, after] = [&case.text[..case.range.start], &case.text[case.range.start..]];
    let span = format!("({} {MAX_SLOTS})\n", forms(case.house)[0][0].0);
    Guess { past: Reach::of(case.refusal).moved(1), ..case.text_anew([before, span.as_bytes(), after].concat(), says) }
}

/// A span is put in before the line, whatever is wrong with the later one.
fn span_too_late(case: &Case) -> Vec<Guess> {
    let later = span_line(case).filter(|&later| case.number > 0 && later > case.number);
    one(later.map(|later| span_put_in(case, format!("the form that gives the span, here on line {later}, comes before all units and rules"))))
}

/// A span is put in.
fn empty_text(case: &Case) -> Vec<Guess> {
    let says = format!("the text is empty: a sheet begins with its span, {}", examples(case.house)[0]);
    one(case.text.is_empty().then(|| span_put_in(case, says)))
}

/// A span is put in before the line.
fn no_span(case: &Case) -> Vec<Guess> {
    let says = format!("no line gives the span: begin with {}, which has 4 slots", examples(case.house)[0]);
    one(span_line(case).is_none().then(|| span_put_in(case, says)))
}

/// The shortest span is put in.
fn span_zero(case: &Case) -> Vec<Guess> {
    one((case.numbers() == [0]).then(|| case.numbers_anew(&[1], "a wave has at least one slot")))
}

/// The longest span is put in.
fn span_too_long(case: &Case) -> Vec<Guess> {
    one(case.numbers().first().map(|span| case.numbers_anew(&[MAX_SLOTS], format!("the span is {span}, and {MAX_SLOTS} slots are the most"))))
}

// 7: slots. A line of ours gives its first and its last slot, one of the partner's the first and how many hours there are.

/// The two numbers of a line that this question is asked of, where they stand among all numbers, and the span.
struct Stretch {
    numbers: Vec<usize>,
    at: usize,
    span: usize,
    is_unit: bool,
}

impl Stretch {
    /// That of a line that gives a unit or a rule, where the text is of this house.
    fn of(case: &Case, house: House) -> Option<Stretch> {
        let [is_unit, is_rule] = case.gives();
        let (numbers, at) = (case.numbers(), usize::from(is_unit));
        let span = case.sheet_before()?.span;
        (case.house == house && (is_unit || is_rule) && numbers.len() >= at + 2).then_some(Stretch { numbers, at, span, is_unit })
    }

    /// The two numbers.
    fn two(&self) -> (usize, usize) {
        (self.numbers[self.at], self.numbers[self.at + 1])
    }

    /// The last slot that there is for it: a window may end with the carried place.
    fn end(&self) -> usize {
        if self.is_unit { tugrokt::carried_place(self.span) } else { self.span }
    }

    /// All numbers of the line, with these two.
    fn with(&self, first: usize, second: usize) -> Vec<usize> {
        let mut numbers = self.numbers.clone();
        numbers[self.at] = first;
        numbers[self.at + 1] = second;
        numbers
    }

    /// The nearest slots that there are.
    fn cut(&self, first: usize, last: usize) -> Vec<usize> {
        let first = first.clamp(1, self.span);
        self.with(first, last.clamp(first, self.end()))
    }

    /// The nearest hours that there are.
    fn cut_hours(&self) -> Vec<usize> {
        let (start, hours) = self.two();
        let start = start.clamp(1, self.span);
        self.with(start, hours.clamp(1, self.span + 1 - start))
    }
}

/// The guess that follows from the stretch of a line of ours.
fn of_slots(case: &Case, guess: impl Fn(&Stretch, usize, usize) -> Option<(Vec<usize>, String)>) -> Vec<Guess> {
    of_stretch(case, House::Ours, guess)
}

/// The guess that follows from the hours of a line of the partner's.
fn of_hours(case: &Case, guess: impl Fn(&Stretch, usize, usize) -> Option<(Vec<usize>, String)>) -> Vec<Guess> {
    of_stretch(case, House::Partner, guess)
}

/// The guess that follows from the two numbers of a line of this house.
fn of_stretch(case: &Case, house: House, guess: impl Fn(&Stretch, usize, usize) -> Option<(Vec<usize>, String)>) -> Vec<Guess> {
    let found = Stretch::of(case, house).and_then(|stretch| guess(&stretch, stretch.two().0, stretch.two().1));
    one(found.map(|(numbers, says)| case.numbers_anew(&numbers, says)))
}

/// The slots, or hours, are cut to those that there are.
fn slot_zero(case: &Case) -> Vec<Guess> {
    let says = "slots are counted from 1".to_string();
    let ours = of_slots(case, |stretch, first, last| (first == 0 || last == 0).then(|| (stretch.cut(first, last), says.clone())));
    let theirs = of_hours(case, |stretch, start, _| (start == 0).then(|| (stretch.cut_hours(), says.clone())));
    ours.into_iter().chain(theirs).collect()
}

/// The hours are cut to those that there are.
fn no_hours(case: &Case) -> Vec<Guess> {
    of_hours(case, |stretch, _, hours| (hours == 0).then(|| (stretch.cut_hours(), "there must be at least one hour".to_string())))
}

/// First and last are exchanged, and then also cut to the slots that there are.
fn first_after_last(case: &Case) -> Vec<Guess> {
    let says = |first, last| format!("the first slot, {first}, comes after the last, {last}");
    let exchanged = of_slots(case, |stretch, first, last| (first > last).then(|| (stretch.with(last, first), says(first, last))));
    let also_cut = of_slots(case, |stretch, first, last| (first > last).then(|| (stretch.cut(last, first), says(first, last))));
    exchanged.into_iter().chain(also_cut).collect()
}

/// The window is cut to the slots that it may have.
fn window_begins_carried(case: &Case) -> Vec<Guess> {
    of_slots(case, |stretch, first, last| {
        let says = || format!("{first} is the carried place, where a window may end and not begin: the last slot is {}", stretch.span);
        (stretch.is_unit && first == stretch.end()).then(|| (stretch.cut(first, last), says()))
    })
}

/// The stretch is cut to the span.
fn rule_reaches_carried(case: &Case) -> Vec<Guess> {
    of_slots(case, |stretch, first, last| {
        let says = || format!("a rule ends inside the span, with slot {} at the latest: {last} is the carried place, where only windows end", stretch.span);
        (!stretch.is_unit && last == tugrokt::carried_place(stretch.span)).then(|| (stretch.cut(first, last), says()))
    })
}

/// The slots are cut to those that there are.
fn past_the_span(case: &Case) -> Vec<Guess> {
    of_slots(case, |stretch, first, last| {
        let also = if stretch.is_unit { format!(", and a window may end with {}, to be carried over", stretch.end()) } else { String::new() };
        (first > stretch.span || last > stretch.end()).then(|| (stretch.cut(first, last), format!("the slots are 1 to {}{also}", stretch.span)))
    })
}

/// The hours are cut to those that there are.
fn past_the_day(case: &Case) -> Vec<Guess> {
    of_hours(case, |stretch, start, _| {
        let says = match (stretch.span + 1).saturating_sub(start) {
            0 => format!("slot {start} is past the day, which has {}", counted(stretch.span, "slot")),
            left => format!("from slot {start} on the day has only {}", counted(left, "hour")),
        };
        (start > 0).then(|| (stretch.cut_hours(), says))
    })
}

// 16: loader numbers.

/// A number that is free is put in.
fn loader_zero(case: &Case) -> Vec<Guess> {
    let says = format!("loader numbers begin with 1, and {} is the largest", tugrokt::MAX_LOADER);
    one((case.numbers().first() == Some(&0)).then(|| case.numbers_anew(&[free_loader(case)], says)))
}

/// Leaving the earlier line out frees the number.
fn loader_again(case: &Case) -> Vec<Guess> {
    one(earlier_line(case).and_then(|(loader, number)| {
        let range = lines::range(case.text, number)?;
        let text = [&case.text[..range.start], &case.text[range.end + 1..]].concat();
        let says = format!("loader {loader} has a unit already, on line {number}");
        Some(Guess { past: Reach::of(case.refusal).moved(-1), ..case.text_anew(text, says) })
    }))
}

/// The loader number of the line, and the number of the earlier line that has it too.
fn earlier_line(case: &Case) -> Option<(usize, usize)> {
    let (loader, sheet) = (*case.numbers().first()?, case.sheet_before()?);
    let unit = sheet.loader.iter().position(|&other| usize::from(other) == loader)?;
    Some((loader, *lines::numbers(case.house, case.around()[0], &sheet)?.units.get(unit)?))
}

// 8: counts.

/// The counts are cut to the greatest that there is.
fn high_too_large(case: &Case) -> Vec<Guess> {
    let mut numbers = case.numbers();
    let high = numbers.last().copied().filter(|&high| high > MAX_COUNT);
    // The low of a rule of ours is the number before.
    let counts = numbers.len().saturating_sub(if case.house == House::Ours { 2 } else { 1 });
    numbers[counts..].iter_mut().for_each(|count| *count = (*count).min(MAX_COUNT));
    one(high.map(|high| case.numbers_anew(&numbers, format!("{high} is too many: {MAX_COUNT} is the greatest count, and as good as no limit"))))
}

/// Low and high are exchanged.
fn low_above_high(case: &Case) -> Vec<Guess> {
    let [from, to, low, high] = case.numbers()[..] else { return Vec::new() };
    let says = format!("the low, {low}, is above the high, {high}");
    let exchanged = [high, low].map(|count| count.min(MAX_COUNT));
    one((low > high).then(|| case.numbers_anew(&[from, to, exchanged[0], exchanged[1]], says)))
}

// 9 and 10: how many there are.

/// The guess that all lines of a kind from this one on are too many.
fn too_many(case: &Case, letters: &[u8], says: impl Fn(usize) -> String) -> Vec<Guess> {
    let is_kind = |line: &&[u8]| line.starts_with(letters);
    let count = lines(case.text).filter(is_kind).count();
    let rest = case.text[case.range.start..].split_inclusive(|&byte| byte == b'\n').filter(|line| !is_kind(line));
    let text = [case.around()[0], &rest.collect::<Vec<_>>().concat()].concat();
    vec![Guess { past: Reach::through(case.number.saturating_sub(1)), ..case.text_anew(text, says(count)) }]
}

/// All units from this line on are left out.
fn too_many_units(case: &Case) -> Vec<Guess> {
    let word = entry_words(case.house)[0];
    let says = |count: usize| format!("{count} lines begin as {word}s do: leave out {}, or plan two waves", count.saturating_sub(MAX_UNITS));
    too_many(case, beginnings(case.house)[0], says)
}

/// All rules from this line on are left out.
fn too_many_rules(case: &Case) -> Vec<Guess> {
    let word = entry_words(case.house)[1];
    let says = |count: usize| format!("{count} lines begin as {word}s do: leave out {}; those on one stretch can be one", count.saturating_sub(MAX_RULES));
    too_many(case, beginnings(case.house)[1], says)
}

// 17 and 18: what the partner cannot have.

/// The window is cut to the span.
fn may_be_carried(case: &Case) -> Vec<Guess> {
    let (Ok(sheet), &[loader, first, last]) = (read(case.house, case.text), &case.numbers()[..]) else { return Vec::new() };
    let span = sheet.span;
    let says = format!("loader {loader} may be carried over: its window, {first} to {last}, reaches past slot {span}, the last: let it end with {span}");
    vec![case.numbers_anew(&[loader, first, span], says)]
}

/// The low becomes 0.
fn has_a_low(case: &Case) -> Vec<Guess> {
    let [from, to, low, high] = case.numbers()[..] else { return Vec::new() };
    let asks = format!("the rule asks for at least {low} in the slots {from} to {to}");
    let says = format!("{asks}, and the partner has no least count: write 0, and their plan need not keep it");
    vec![case.numbers_anew(&[from, to, 0, high], says)]
}

#[cfg(test)]
pub mod tests {
    use super::*;

    /// The refusal of a text: by reading it, or on its way to the partner.
    pub fn refusal(house: House, text: &[u8]) -> Option<Refusal> {
        let sheet = read(house, text);
        if house == House::Partner { sheet.err() } else { sheet.and_then(|sheet| told::write_partner(&sheet)).err() }
    }

    /// Texts of ours with a slip each, and texts of the partner's. A text behind `..` stands on line 2, below a span of 4.
    pub fn slips() -> Vec<(&'static str, House, Vec<u8>)> {
        let ours: &[(&str, &[u8])] = &[
            ("utf-16", b"\xff\xfe(\0s\0h\0e\0e\0t\0 \x004\0)\0\n\0"),
            ("utf-16", b"\xfe\xff\0(\0s\0h\0e\0e\0t\0 \x004\0)\0\r\0\n"),
            ("utf-16", b"(\0s\0h\0e\0e\0t\0 \x004\0)\0\n\0"),
            ("byte-order-mark", b"\xef\xbb\xbf(sheet 4)\n"),
            ("byte-order-mark", b"\xef\xbb\xbf(sheet 4)\r\n(unit 1 (window 1 2))\r\n"),
            ("carriage-returns", b"(sheet 4)\r\n(unit 1 (window 1 2))\r\n"),
            ("carriage-returns", b"(sheet 4)\r"),
            ("carriage-returns-alone", b"(sheet 4)\r(unit 1 (window 1 2))\r(unit 2 (window 1 2))"),
            ("tab", b"..(unit 1 (window 1\t2))\n"),
            ("tab", b"..\t(unit 1 (window 1 2)) \t\n"),
            ("no-break-space", b"..(unit 1\xc2\xa0(window 1 2))\n"),
            ("no-break-space", b"..(unit 1\xa0(window 1 2))\n"),
            ("typographic", b"..(note \xe2\x80\x9cthe third\xe2\x80\x9d \xe2\x80\x93 of May)\n"),
            ("typographic", b"..(note \x93the third\x94)\n"),
            ("control-byte", b"..(unit 1 (win\x1bdow 1 2))\n"),
            ("control-byte", b"..(note \0)\n"),
            ("not-ascii", b"..(note M\xc3\xbcller)\n"),
            ("not-ascii", b"..(note M\xfcller)\n"),
            ("several-foreign", b"..(note M\xc3\xbcller\t\xe2\x80\x93)\r\n"),
            ("empty-line", b"..\n(unit 1 (window 1 2))\n"),
            ("empty-line", b"..\n\n"),
            ("empty-line", b"..   "),
            ("no-line-feed", b"..(unit 1 (window 1 2))"),
            ("no-line-feed", b"(note words)"),
            ("other-house", b"(day 4)\n(job 4017 (start 1) (hours 2))\n"),
            ("other-house", b"..(job 4017 (start 1) (hours 2))\n"),
            ("other-house", b"..(limit (from 1) (hours 2) (most 1))\n"),
            ("comment", b"# the wave of May (or June\n(sheet 4)\n"),
            ("comment", b"..; units\n"),
            ("comment", b"..//\n"),
            ("leading-space", b"..  (unit 1 (window 1 2))\n"),
            ("trailing-space", b"..(unit 1 (window 1 2)) \n"),
            ("trailing-space", b"..(note words) \n"),
            ("two-spaces", b"..(unit 1  (window 1 2))\n"),
            ("capitals", b"(Sheet 4)\n"),
            ("capitals", b"..(UNIT 1 (WINDOW 1 2))\n"),
            ("capitals", b"..(NOTE Words)\n"),
            ("note-without-space", b"..(note(x))\n"),
            ("note-without-space", b"..(note: words)\n"),
            ("bracket-missing", b"..(unit 1 (window 1 2)\n"),
            ("bracket-missing", b"..(unit 1 (window 1 2"),
            ("bracket-missing", b"(note\n"),
            ("bracket-too-many", b"..(unit 1 (window 1 2)))\n"),
            ("two-forms", b"(sheet 4) (unit 1 (window 1 2))\n"),
            ("two-forms", b"..(note words)(unit 1 (window 1 2))\n"),
            ("comment-behind", b"..(unit 1 (window 1 2)) # Ulm\n"),
            ("comment-behind", b"..(note words) ; and more\n"),
            ("words-behind", b"(sheet 4) slots\n"),
            ("comma", b"..(unit 1, (window 1,2))\n"),
            ("dash", b"..(unit 1 (window 1-2))\n"),
            ("dash", b"..(rule (slots 1 to 2) (count 0..1))\n"),
            ("sign-or-point", b"..(unit 1 (window +1 2.0))\n"),
            ("sign-or-point", b"..(rule (slots 1 2) (count -1 2))\n"),
            ("no-loader-number", b"..(unit (window 1 2))\n"),
            ("as-the-form", b"..( Unit 1, [window 1 2 ]\n"),
            ("as-the-form", b"..unit 1 window 1 2\n"),
            ("how-many-numbers", b"..(rule (slots 1 2) (count 1))\n"),
            ("how-many-numbers", b"..(unit 1 2 (window 3))\n"),
            ("how-many-numbers", b"(sheet)\n"),
            ("wrong-word", b"..(unit 1 (slots 1 2))\n"),
            ("wrong-word", b"(span 4)\n"),
            ("words-alone", b"..Ulm and around\n"),
            ("note-not-closed", b"..(note one (two)\n"),
            ("note-not-closed", b"..(note one (two"),
            ("note-closed-too-often", b"..(note one))\n"),
            ("text-behind-note", b"..(note one) two\n"),
            ("text-behind-note", b"..(note one) two)\n"),
            ("note-too-deep", b"..(note ((((((((((((((((x)))))))))))))))))\n"),
            ("leading-zero", b"..(unit 0017 (window 01 2))\n"),
            ("leading-zero", b"..(unit 1 (window 00 2))\n"),
            ("too-many-digits", b"..(unit 10000 (window 1 2))\n"),
            ("too-many-digits", b"..(unit 10000 (window 01 2))\n"),
            ("second-span", b"..(note)\n(sheet 5)\n"),
            ("second-span", b"..(sheet 4)\n(sheet 4)\n\t\n"),
            ("span-too-late", b"(unit 1 (window 1 2))\n(sheet 4)\n"),
            ("span-too-late", b"(rule (slots 1 2) (count 0 1))\n(sheet 49)\n"),
            ("empty-text", b""),
            ("no-span", b"(note nothing else)\n"),
            ("no-span", b"(note)\n(unit 1 (window 1 2))\n"),
            ("no-span", b"(unit 1 (window 1 2))\n(sheet four)\n"),
            ("no-span", b"(unit 1 (window 2 1))\n\t\n"),
            ("span-zero", b"(sheet 0)\n"),
            ("span-too-long", b"(sheet 49)\n"),
            ("slot-zero", b"..(unit 1 (window 0 2))\n"),
            ("slot-zero", b"..(rule (slots 0 0) (count 0 1))\n"),
            ("first-after-last", b"..(unit 4017 (window 4 3))\n"),
            ("first-after-last", b"..(rule (slots 9 3) (count 0 1))\n"),
            ("window-begins-carried", b"..(unit 1 (window 5 5))\n"),
            ("rule-reaches-carried", b"..(rule (slots 4 5) (count 0 1))\n"),
            ("past-the-span", b"..(unit 1 (window 4 6))\n"),
            ("past-the-span", b"..(unit 1 (window 7 9))\n"),
            ("past-the-span", b"..(rule (slots 1 6) (count 0 1))\n"),
            ("loader-zero", b"..(unit 0 (window 1 2))\n"),
            ("loader-again", b"..(unit 40 (window 1 2))\n(unit 40 (window 1 2))\n\t\n"),
            ("loader-again", b"..(note)\n(unit 40 (window 1 2))\n(unit 7 (window 1 2))\n(unit 40 (window 1 3))\n"),
            ("high-too-large", b"..(rule (slots 1 2) (count 2 301))\n"),
            ("high-too-large", b"..(rule (slots 1 2) (count 400 301))\n"),
            ("low-above-high", b"..(rule (slots 1 2) (count 3 2))\n"),
            ("low-above-high", b"..(rule (slots 1 2) (count 301 2))\n"),
            ("may-be-carried", b"..(unit 4017 (window 1 4))\n(unit 212 (window 3 5))\n"),
            ("has-a-low", b"..(rule (slots 1 4) (count 0 1))\n(rule (slots 3 4) (count 1 1))\n"),
        ];
        let theirs: &[(&str, &[u8])] = &[
            ("carriage-returns", b"(day 4)\r\n"),
            ("other-house", b"(sheet 4)\n"),
            ("other-house", b"..(unit 4017 (window 1 49))\n"),
            ("other-house", b"..(rule (slots 1 2) (count 1 1))\n"),
            ("as-the-form", b"..(job 1 (start 1 hours 2))\n"),
            ("no-loader-number", b"..(job (start 1) (hours 2))\n"),
            ("wrong-word", b"..(job 1 (from 1) (hours 2))\n"),
            ("second-span", b"..(day 4)\n"),
            ("empty-text", b""),
            ("span-too-late", b"(job 1 (start 1) (hours 2))\n(day 4)\n"),
            ("slot-zero", b"..(job 1 (start 0) (hours 2))\n"),
            ("slot-zero", b"..(limit (from 0) (hours 0) (most 1))\n"),
            ("no-hours", b"..(job 1 (start 1) (hours 0))\n"),
            ("no-hours", b"..(limit (from 9) (hours 0) (most 1))\n"),
            ("past-the-day", b"..(job 1 (start 4) (hours 2))\n"),
            ("past-the-day", b"..(limit (from 5) (hours 1) (most 1))\n"),
            ("loader-zero", b"..(job 0 (start 1) (hours 1))\n"),
            ("loader-again", b"..(job 3 (start 1) (hours 1))\n(job 3 (start 1) (hours 1))\n"),
            ("high-too-large", b"..(limit (from 1) (hours 4) (most 301))\n"),
        ];
        let short = [(House::Ours, ours), (House::Partner, theirs)].into_iter().flat_map(|(house, slips)| {
            let span: &[u8] = if house == House::Ours { b"(sheet 4)\n" } else { b"(day 4)\n" };
            let whole = move |text: &[u8]| text.strip_prefix(b"..").map_or(text.to_vec(), |rest| [span, rest].concat());
            slips.iter().map(move |(id, text)| (*id, house, whole(text)))
        });
        short.chain(long_slips()).collect()
    }

    /// Texts with a slip that only a long one can have.
    fn long_slips() -> Vec<(&'static str, House, Vec<u8>)> {
        let many = |span: &str, count: usize, line: fn(usize) -> String| [span.to_string(), (1..=count).map(line).collect()].concat().into_bytes();
        vec![
            ("too-long", House::Ours, b"\n".repeat(16_001)),
            ("too-long", House::Partner, b"(note)\n".repeat(2_286)),
            ("too-many-units", House::Ours, many("(sheet 4)\n", 305, |i| format!("(unit {i} (window 1 4))\n"))),
            ("too-many-units", House::Partner, many("(day 4)\n", 301, |i| format!("(job {i} (start 1) (hours 4))\n"))),
            ("too-many-rules", House::Ours, many("(sheet 4)\n", 61, |_| "(rule (slots 1 4) (count 0 9))\n".to_string())),
            ("too-many-rules", House::Partner, many("(day 4)\n", 90, |_| "(limit (from 1) (hours 4) (most 9))\n".to_string())),
        ]
    }

    #[test]
    fn every_slip_gets_its_hint() {
        for (id, house, text) in slips() {
            let shown = visible(&text[..text.len().min(200)]);
            let refusal = refusal(house, &text).unwrap_or_else(|| panic!("{id}: {shown} is taken"));
            let hint = hint(house, &text, &refusal);
            assert_eq!(hint.as_ref().map(|hint| hint.id), Some(id), "{shown}: {refusal}: {hint:?}");
        }
    }

    #[test]
    fn every_slip_is_tried() {
        let slips = slips();
        for Slip { id, .. } in ALL {
            assert!(slips.iter().any(|(tried, ..)| tried == id), "{id}");
            assert_eq!(ALL.iter().filter(|slip| slip.id == *id).count(), 1, "{id}");
        }
    }

    #[test]
    fn no_hint_where_none_fits() {
        let texts: &[&[u8]] = &[
            b"(answer plan 2)\n",
            b"(sheet 4)\n(unit)\n",
            b"(sheet 4)\n(rule (slots 1 2))\n",
            b"(sheet 4)\n()\n",
            b"(sheet 4)\n)(\n",
            b"(sheet 4)\n(slot 1 (count 1) (range 0 1))\n",
            b"(sheet 4)\n(note) ) (\n",
        ];
        for text in texts {
            let refusal = refusal(House::Ours, text).unwrap();
            let hint = hint(House::Ours, text, &refusal);
            assert!(hint.is_none(), "{}: {hint:?}", visible(text));
        }
    }

    #[test]
    fn examples_are_taken() {
        for house in [House::Ours, House::Partner] {
            let text = examples(house).join("\n") + "\n";
            let sheet = read(house, text.as_bytes()).unwrap();
            assert_eq!((sheet.span, sheet.loader.len(), sheet.from.len()), (4, 1, 1));
        }
    }

    #[test]
    fn the_longest_sheets_without_notes() {
        let mut sheet = Sheet::new(MAX_SLOTS);
        (0..MAX_UNITS as u16).for_each(|i| sheet.add_unit(1_000 + i, 10, 48));
        (0..MAX_RULES).for_each(|_| sheet.add_rule(10, 48, 0, 300));
        let partner = told::write_partner(&sheet).unwrap().len();
        sheet.low.fill(100);
        let named = |house| most_without_notes(house).replace(',', "").parse();
        assert_eq!((Ok(told::write(&sheet).unwrap().len()), Ok(partner)), (named(House::Ours), named(House::Partner)));
    }

    /// Calls from elsewhere may name a line that the text does not have.
    #[test]
    fn a_refusal_of_another_text() {
        for refusal in slips().iter().filter_map(|(_, house, text)| refusal(*house, text)) {
            for text in [&b""[..], b"(sheet 4)\n", b"(sheet 4)\n(note)\n(unit 1 (window 1 2))"] {
                hint(House::Ours, text, &refusal);
                hint(House::Partner, text, &refusal);
            }
        }
    }
}
