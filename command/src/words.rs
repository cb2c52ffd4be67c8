//! The words and options that the command takes, in one table: the parser, `--help` and so the man page and the completion go by it.

use std::ffi::{OsStr, OsString};
use std::fmt::Write;
use std::os::unix::ffi::{OsStrExt, OsStringExt};

/// The first word of a call.
#[derive(Clone, Copy, Debug, PartialEq, Eq)]
pub enum Word {
    Plan,
    Fits,
    FromPartner,
    ToPartner,
    Merge,
    Line,
}

/// An option of a word.
#[derive(Clone, Copy, Debug, PartialEq, Eq)]
pub enum Opt {
    Partner,
    Explain,
    Chart,
    Jobs,
    To,
    Help,
}

/// What is said of a word.
pub struct WordEntry {
    pub word: Word,
    pub name: &'static str,
    /// What may follow it, and how many of these.
    operands: &'static str,
    count: std::ops::RangeInclusive<usize>,
    options: &'static [Opt],
    /// In the list of words.
    short: &'static str,
    /// On the word's own page.
    long: &'static str,
}

/// What is said of an option.
struct OptEntry {
    opt: Opt,
    short: Option<u8>,
    long: &'static str,
    value: Option<&'static str>,
    says: &'static str,
}

/// As many as the system lets a call have.
const ANY: std::ops::RangeInclusive<usize> = 0..=usize::MAX;

const INPUT: &str = "Without a file, and for the file -, standard input is read.";

pub const WORDS: [WordEntry; 6] = [
    WordEntry {
        word: Word::Plan,
        name: "plan",
        operands: "[FILE..]",
        count: ANY,
        options: &[Opt::Partner, Opt::Explain, Opt::Chart, Opt::Jobs, Opt::To, Opt::Help],
        short: "plan sheets, or show why no plan is lawful",
        long: "Plans each sheet and writes its answer page to standard output, in the order of the files.",
    },
    WordEntry {
        word: Word::Fits,
        name: "fits",
        operands: "[FILE..]",
        count: ANY,
        options: &[Opt::Partner, Opt::Explain, Opt::Jobs, Opt::To, Opt::Help],
        short: "only say whether sheets fit, and how full each slot can be",
        long: "Says of each sheet whether some plan is lawful, and how few and how many deliveries each slot can hold. No unit is seated.",
    },
    WordEntry {
        word: Word::FromPartner,
        name: "from-partner",
        operands: "[FILE]",
        count: 0..=1,
        options: &[Opt::Help],
        short: "turn a partner's sheet into one of ours",
        long: "Writes a partner's sheet as one of ours, without its notes.",
    },
    WordEntry {
        word: Word::ToPartner,
        name: "to-partner",
        operands: "[FILE]",
        count: 0..=1,
        options: &[Opt::Help],
        short: "turn a sheet of ours into the partner's form",
        long: "Writes a sheet of ours in the partner's form, without its notes. The partner has no carried place and no least count.",
    },
    WordEntry {
        word: Word::Merge,
        name: "merge",
        operands: "FIRST SECOND",
        count: 2..=2,
        options: &[Opt::Help],
        short: "make one sheet of two",
        long: "Writes one sheet: the units of the first and then those of the second, and one rule for each stretch, with the largest low and the \
               smallest high of all rules on it.",
    },
    WordEntry {
        word: Word::Line,
        name: "line",
        operands: "LOADER FIRST SECOND",
        count: 3..=3,
        options: &[Opt::Help],
        short: "show a unit's line, as it stands in whichever of two sheets has it",
        long: "Writes the line of the unit with this loader number, as it stands in whichever of the two sheets has it. LOADER is one or more digits.",
    },
];

const OPTIONS: [OptEntry; 6] = [
    OptEntry { opt: Opt::Partner, short: None, long: "--partner", value: None, says: "the sheets are a partner's" },
    OptEntry {
        opt: Opt::Explain,
        short: None,
        long: "--explain",
        value: None,
        says: "say on standard error where the limits come from that leave no plan, or which slots are full and which rules have no room left",
    },
    OptEntry { opt: Opt::Chart, short: None, long: "--chart", value: Some("FILE.svg"), says: "draw the wave of the one sheet into this file" },
    OptEntry {
        opt: Opt::Jobs,
        short: Some(b'j'),
        long: "--jobs",
        value: Some("N"),
        says: "work on N files at a time, 1 to 512; without it, on one for each processor",
    },
    OptEntry {
        opt: Opt::To,
        short: None,
        long: "--to",
        value: Some("FOLDER"),
        says: "write each page into this folder, to a file named after its sheet with .page behind it, and a summary to standard error",
    },
    OptEntry { opt: Opt::Help, short: Some(b'h'), long: "--help", value: None, says: "show this page" },
];

/// The words of a call that are none of the command's.
#[derive(Debug, PartialEq, Eq)]
pub struct WrongUse(pub String);

/// A word with its options, and what follows it.
#[derive(Debug)]
pub struct Given {
    pub word: Word,
    options: Vec<(Opt, OsString)>,
    pub operands: Vec<OsString>,
}

impl Given {
    pub fn has(&self, opt: Opt) -> bool {
        self.value(opt).is_some()
    }

    /// The value of an option, empty where it takes none. Of one that is given twice, the last.
    pub fn value(&self, opt: Opt) -> Option<&OsStr> {
        self.options.iter().rev().find(|(given, _)| *given == opt).map(|(_, value)| value.as_os_str())
    }
}

impl Word {
    pub fn entry(self) -> &'static WordEntry {
        WORDS.iter().find(|entry| entry.word == self).expect("every word is in the table")
    }

    pub fn named(name: &OsStr) -> Option<Word> {
        WORDS.iter().find(|entry| name == entry.name).map(|entry| entry.word)
    }

    /// Reads what follows the word.
    pub fn read(self, rest: impl Iterator<Item = OsString>) -> Result<Given, WrongUse> {
        let mut given = Given { word: self, options: Vec::new(), operands: Vec::new() };
        let mut rest = rest;
        while let Some(part) = rest.next() {
            match part.as_bytes() {
                b"--" => {
                    given.operands.extend(rest);
                    break;
                }
                // A single - is standard input.
                [b'-', _, ..] => {
                    let (opt, value) = self.option(&part, &mut rest)?;
                    given.options.push((opt, value));
                }
                _ => given.operands.push(part),
            }
        }
        let entry = self.entry();
        if !given.has(Opt::Help) && !entry.count.contains(&given.operands.len()) {
            return Err(WrongUse(format!("{} takes {}", entry.name, entry.operands)));
        }
        Ok(given)
    }

    /// The option that a part of the call names, with its value: behind `=` or at once behind a letter, or else the next part.
    fn option(self, part: &OsStr, rest: &mut impl Iterator<Item = OsString>) -> Result<(Opt, OsString), WrongUse> {
        let bytes = part.as_bytes();
        let (entry, joined) = match bytes {
            [b'-', b'-', ..] => {
                let end = bytes.iter().position(|&b| b == b'=').unwrap_or(bytes.len());
                (OPTIONS.iter().find(|o| o.long.as_bytes() == &bytes[..end]), bytes.get(end + 1..))
            }
            _ => (OPTIONS.iter().find(|o| o.short == Some(bytes[1])), Some(&bytes[2..]).filter(|value| !value.is_empty())),
        };
        let Some(entry) = entry.filter(|o| self.entry().options.contains(&o.opt)) else {
            return Err(WrongUse(format!("{} has no option {}", self.entry().name, part.to_string_lossy())));
        };
        let joined = joined.map(|value| OsString::from_vec(value.to_vec()));
        match (entry.value, joined) {
            (None, None) => Ok((entry.opt, OsString::new())),
            (None, Some(_)) => Err(WrongUse(format!("{} takes no value", entry.long))),
            (Some(name), joined) => {
                let value = joined.or_else(|| rest.next()).filter(|value| !value.is_empty());
                value.map(|value| (entry.opt, value)).ok_or_else(|| WrongUse(format!("{} needs {name}", entry.long)))
            }
        }
    }

    /// The page of `tugrokt WORD --help`.
    pub fn help(self) -> String {
        let entry = self.entry();
        let input = if entry.count.contains(&0) { INPUT } else { "For the file - standard input is read." };
        let options: Vec<(String, &str)> = entry.options.iter().map(|&opt| opt.row()).collect();
        format!(
            "{}\n\nUsage: tugrokt {} [OPTION..] {}\n\n{}\n\nOptions:\n{}",
            filled(entry.long),
            entry.name,
            entry.operands,
            filled(input),
            rows(&options)
        )
    }
}

impl Opt {
    /// How it is written, and what it does.
    fn row(self) -> (String, &'static str) {
        let entry = OPTIONS.iter().find(|entry| entry.opt == self).expect("every option is in the table");
        let short = entry.short.map_or("    ".to_string(), |letter| format!("-{}, ", letter as char));
        (format!("{short}{}{}", entry.long, entry.value.map_or(String::new(), |value| format!(" {value}"))), entry.says)
    }
}

/// The page of `tugrokt --help`.
pub fn help() -> String {
    let words: Vec<(String, &str)> = WORDS.iter().map(|entry| (entry.name.to_string(), entry.short)).collect();
    let own = [("-h, --help", "show this page; behind a word, the word's own"), ("-V, --version", "show the version")];
    let own: Vec<(String, &str)> = own.map(|(option, says)| (option.to_string(), says)).to_vec();
    let statuses = [
        ("0", "a plan, or what was asked for"),
        ("1", "none: no plan is lawful"),
        ("2", "refused: the sheet breaks a rule of its form"),
        ("3", "reading or writing failed"),
        ("64", "wrong use"),
    ];
    let statuses: Vec<(String, &str)> = statuses.map(|(status, says)| (status.to_string(), says)).to_vec();
    format!(
        "Gives each unit of a wave one slot, or shows limits that contradict each other.\n\n\
         Usage: tugrokt WORD [OPTION..] [FILE..]\n\nWords:\n{}\nOptions:\n{}\nIt ends with\n{}of several files the largest.\n",
        rows(&words),
        rows(&own),
        rows(&statuses)
    )
}

/// The line of `tugrokt --version`.
pub fn version() -> String {
    format!("tugrokt {}\n", env!("CARGO_PKG_VERSION"))
}

/// The width of a help page.
const WIDTH: usize = 80;

/// A text in lines of the help's width, without the last line feed.
fn filled(text: &str) -> String {
    lines_of(text, WIDTH).join("\n")
}

/// Its words in lines of at most this width.
fn lines_of(text: &str, width: usize) -> Vec<String> {
    let mut lines: Vec<String> = Vec::new();
    for word in text.split_whitespace() {
        match lines.last_mut() {
            Some(line) if line.len() + 1 + word.len() <= width => {
                line.push(' ');
                line.push_str(word);
            }
            _ => lines.push(word.to_string()),
        }
    }
    lines
}

/// Two columns, the second in as many lines as it needs.
fn rows(rows: &[(String, &str)]) -> String {
    let left = rows.iter().map(|(name, _)| name.len()).max().unwrap_or(0);
    let mut page = String::new();
    for (name, says) in rows {
        for (i, line) in lines_of(says, WIDTH - left - 4).iter().enumerate() {
            let name = if i == 0 { name.as_str() } else { "" };
            let _ = writeln!(page, "  {name:left$}  {line}");
        }
    }
    page
}
