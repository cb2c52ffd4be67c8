//! Charts: well-formed SVG documents without script that need nothing else, and the committed ones are the command's.

mod common;

use std::collections::BTreeSet;
use std::fs;
use std::path::Path;

use common::{folder, folder_with, listed, run_in, sheet, Ended, REFUSED, THEIRS, THEIRS_NONE, THEIRS_RING};
use model::cases::{P2_PAGE, P4_PAGE};
use model::damage::with_notes;
use model::effort;
use model::house::House;
use model::random::{any_sheet, largest_sheet, sheet_up_to, Random, Reach};
use model::reading::read;
use model::seed;

/// A reader of tags: it goes through a document once, and has the names of the elements that are open.
struct Tags<'a> {
    rest: &'a str,
    open: Vec<&'a str>,
    ids: BTreeSet<&'a str>,
    used: BTreeSet<&'a str>,
    names: BTreeSet<&'a str>,
    text: String,
}

impl<'a> Tags<'a> {
    fn of(document: &'a str) -> Tags<'a> {
        let empty = BTreeSet::new;
        Tags { rest: document, open: Vec::new(), ids: empty(), used: empty(), names: empty(), text: String::new() }
    }

    /// Takes all up to this, and this.
    fn take(&mut self, end: &str) -> Result<&'a str, String> {
        let (front, rest) = self.rest.split_once(end).ok_or_else(|| format!("no {end} after {:.60}", self.rest))?;
        self.rest = rest;
        Ok(front)
    }

    /// Reads a whole document: a head, and one element that is closed at its end.
    fn document(&mut self) -> Result<(), String> {
        if let Some(rest) = self.rest.strip_prefix("<?xml ") {
            self.rest = rest;
            self.take("?>")?;
        }
        while !self.rest.is_empty() {
            let text = self.take("<").unwrap_or_else(|_| std::mem::take(&mut self.rest));
            if self.open.is_empty() && !text.trim().is_empty() {
                return Err(format!("text outside: {text:.60}"));
            }
            self.text += &plain(text)?;
            if !self.rest.is_empty() {
                let tag = self.take(">")?;
                self.tag(tag)?;
            }
        }
        if self.open.is_empty() { Ok(()) } else { Err(format!("open: {:?}", self.open)) }
    }

    /// One tag, without its angle brackets.
    fn tag(&mut self, tag: &'a str) -> Result<(), String> {
        if let Some(name) = tag.strip_prefix('/') {
            return if self.open.pop() == Some(name) { Ok(()) } else { Err(format!("</{name}> closes nothing")) };
        }
        let (tag, closed) = tag.strip_suffix('/').map_or((tag, false), |tag| (tag, true));
        let name = tag.split_ascii_whitespace().next().unwrap_or("");
        let first = self.names.is_empty();
        if name.is_empty() || !name.bytes().all(|byte| byte.is_ascii_alphanumeric()) || (name == "svg") != first || (!first && self.open.is_empty()) {
            return Err(format!("<{tag}>"));
        }
        self.names.insert(name);
        self.attributes(&tag[name.len()..])?;
        if !closed {
            self.open.push(name);
        }
        Ok(())
    }

    /// The attributes of a tag: each once, in quotes, with nothing that runs or is fetched.
    fn attributes(&mut self, mut rest: &'a str) -> Result<(), String> {
        let mut seen = BTreeSet::new();
        while !rest.trim().is_empty() {
            let fault = || format!("attributes{rest:.60}");
            let (name, after) = rest.split_once("=\"").ok_or_else(fault)?;
            let (value, after) = after.split_once('"').ok_or_else(fault)?;
            let apart = name.starts_with(|c: char| c.is_ascii_whitespace());
            let name = name.trim_start();
            let known = name.bytes().all(|byte| byte.is_ascii_alphabetic() || b"-:".contains(&byte)) && !name.starts_with("on");
            if !apart || name.is_empty() || !known || name.contains("href") || !seen.insert(name) || value.contains('<') {
                return Err(fault());
            }
            plain(value)?;
            self.reference(name, value)?;
            rest = after;
        }
        Ok(())
    }

    /// A name that an attribute gives or uses.
    fn reference(&mut self, name: &str, value: &'a str) -> Result<(), String> {
        if name == "id" && !self.ids.insert(value) {
            return Err(format!("{value} twice"));
        }
        for used in value.split("url(").skip(1) {
            let used = used.strip_prefix('#').and_then(|used| used.split_once(')')).ok_or_else(|| value.to_string())?;
            self.used.insert(used.0);
        }
        Ok(())
    }
}

/// A text with its references read, where it has no byte that a document may not have.
fn plain(text: &str) -> Result<String, String> {
    if text.chars().any(|c| (c.is_control() && !"\n\t".contains(c)) || "\u{fffe}\u{ffff}".contains(c)) || text.contains("]]>") {
        return Err(format!("{text:?}"));
    }
    let mut parts = text.split('&');
    let mut read = parts.next().unwrap_or("").to_string();
    for part in parts {
        let (name, after) = part.split_once(';').ok_or_else(|| format!("&{part:.20}"))?;
        let all = [("amp", "&"), ("lt", "<"), ("gt", ">"), ("quot", "\""), ("apos", "'"), ("#39", "'"), ("#34", "\"")];
        read += all.iter().find(|(known, _)| *known == name).ok_or_else(|| format!("&{name};"))?.1;
        read += after;
    }
    Ok(read)
}

/// Holds that a document is well-formed, has no script and fetches nothing, and gives its text.
fn hold(document: &str) -> String {
    let mut tags = Tags::of(document);
    tags.document().unwrap_or_else(|fault| panic!("{fault}\n{document:.2000}"));
    assert!(document.contains("<svg xmlns=\"http://www.w3.org/2000/svg\" ") && document.ends_with('\n'));
    assert!(["script", "foreignObject", "image", "use", "a", "iframe", "style"].iter().all(|name| !tags.names.contains(name)), "{:?}", tags.names);
    assert!(tags.used.is_subset(&tags.ids), "{:?} and {:?}", tags.used, tags.ids);
    assert!(!document.to_ascii_lowercase().contains("javascript:") && document.matches("http").count() == 1);
    tags.text
}

/// The checker itself finds what is no document.
#[test]
fn faults_of_documents() {
    let good = "<?xml version=\"1.0\"?>\n<svg xmlns=\"http://www.w3.org/2000/svg\" id=\"a\"><g fill=\"url(#a)\">x &lt; y<rect x=\"1\"/></g></svg>\n";
    assert_eq!(hold(good), "\nx < y\n");
    for (from, to) in [
        ("</g>", ""), ("</g>", "</h>"), ("\"1\"", "1"), ("x=\"1\"", "x=\"1\" x=\"1\""), ("&lt;", "&"), ("&lt;", "<"), ("&lt;", "&nbsp;"), ("&lt;", "\x1b"),
        ("</svg>", "</svg>x"), ("</svg>", "</svg><svg></svg>"), ("<rect", "<rect onclick=\"x\""), ("<rect", "<rect id=\"a\""), ("x=\"1\"", "href=\"x\""),
    ] {
        assert!(Tags::of(&good.replace(from, to)).document().is_err(), "{from} {to}");
    }
}

/// Draws the chart of a file in a folder, and gives how the call ended and the document.
fn chart(folder: &Path, words: &[&str]) -> (Ended, String) {
    let _ = fs::remove_file(folder.join("chart.svg"));
    let ended = run_in(folder, &[&["plan", "--chart", "chart.svg"], words].concat(), b"");
    (ended, fs::read_to_string(folder.join("chart.svg")).expect("a chart"))
}

/// A plan and a ring, ours and the partner's: the page is what it is, and the chart is named after its sheet.
#[test]
fn plans_and_rings() {
    let (p2, p4) = (sheet("P2"), sheet("P4"));
    let files: [(&str, &[u8]); 4] = [("p2", &p2), ("p4", &p4), ("theirs", THEIRS.as_bytes()), ("theirs-none", THEIRS_NONE.as_bytes())];
    let folder = folder_with("charts", &files);
    let before = listed(&folder);
    for (words, status, page) in [(&["p2"][..], 0, P2_PAGE), (&["p4"], 1, P4_PAGE), (&["--partner", "theirs-none"], 1, THEIRS_RING)] {
        let (ended, drawn) = chart(&folder, words);
        assert_eq!(ended, Ended::new(status, page, ""));
        assert!(hold(&drawn).contains(words.last().unwrap()), "{drawn}");
        assert_eq!(chart(&folder, words).1, drawn, "it is always the same");
    }
    let (ended, drawn) = chart(&folder, &["--partner", "theirs"]);
    assert!(ended.status == 0 && hold(&drawn).contains("4017"));
    let (ended, drawn) = chart(&folder, &["--explain", "--to=pages", "p4"]);
    assert!(ended.status == 1 && ended.page.is_empty() && ended.said.contains("no plan is lawful"), "{ended:?}");
    hold(&drawn);
    fs::remove_dir_all(folder.join("pages")).unwrap();
    fs::remove_file(folder.join("chart.svg")).unwrap();
    assert_eq!(listed(&folder), before, "nothing else is left");
    assert_eq!(run_in(&folder, &["plan", "--chart", "chart.svg"], &p2), Ended::new(0, P2_PAGE, ""));
    hold(&fs::read_to_string(folder.join("chart.svg")).unwrap());
}

/// An older chart is replaced whole. Of a sheet without an answer there is none: this is said, and what has its name is left alone.
#[test]
fn older_charts() {
    let (p2, p4) = (sheet("P2"), sheet("P4"));
    let folder = folder_with("charts older", &[("p2", &p2), ("p4", &p4), ("refused", REFUSED.0), ("chart.svg", &[b'x'; 100_000])]);
    let draw = |name: &str| run_in(&folder, &["plan", "--chart", "chart.svg", name], b"");
    for (name, status) in [("p2", 0), ("p4", 1)] {
        assert_eq!(draw(name).status, status);
        assert!(hold(&fs::read_to_string(folder.join("chart.svg")).unwrap()).contains(name));
    }
    let older = fs::read(folder.join("chart.svg")).unwrap();
    for (name, status) in [("refused", 2), ("missing", 3)] {
        let ended = draw(name);
        assert_eq!(ended.status, status);
        assert!(ended.said.contains("chart.svg: no chart is drawn"), "{}", ended.said);
        assert_eq!(fs::read(folder.join("chart.svg")).unwrap(), older);
        fs::rename(folder.join("chart.svg"), folder.join("kept.svg")).unwrap();
        assert_eq!(draw(name).status, status);
        assert!(!folder.join("chart.svg").exists());
        fs::rename(folder.join("kept.svg"), folder.join("chart.svg")).unwrap();
    }
}

/// A name of a sheet may have anything in it, and the document is well-formed.
#[test]
fn odd_names() {
    let folder = folder("charts names");
    let plain = ["<script>alert(1)<", "a&b;", "\"quoted\" 'name'", "]]>", "gr\u{fc}n \u{1f30a}", "&#0;", "--&gt;"];
    let odd = ["tab\there", "\x1b[31mred", "line\nfeed", "\u{ffff}"];
    for name in plain.into_iter().chain(odd) {
        fs::write(folder.join(name), sheet("P2")).unwrap();
        let (ended, drawn) = chart(&folder, &["--", name]);
        assert_eq!(ended, Ended::new(0, P2_PAGE, ""), "{name:?}");
        let text = hold(&drawn);
        assert!(odd.contains(&name) || text.contains(name), "{name:?}: {text}");
    }
}

/// Charts of random sheets, also of the largest, are well-formed, name every unit and both ends of the answer.
fn random_charts(house: House, own: u64) {
    let (folder, seed) = (folder(&format!("charts {house:?}")), seed(own));
    let mut seen = [0; 2];
    for i in 0..effort(60) {
        let mut r = Random::of_case(seed, i);
        let sheet = match r.below(10) {
            0 => largest_sheet(&mut r, 1, 48, Reach::PastWave),
            1..=4 => any_sheet(&mut r),
            _ => sheet_up_to(&mut r, 12, 20),
        };
        let text = with_notes(&mut r, house, &sheet.kept_by(house));
        fs::write(folder.join("sheet"), &text).unwrap();
        let words: &[&str] = if house == House::Ours { &["sheet"] } else { &["--partner", "sheet"] };
        let (ended, drawn) = chart(&folder, words);
        assert_eq!(ended.page, run_in(&folder, &[&["plan"], words].concat(), b"").page, "seed {seed}, case {i}");
        let shown = hold(&drawn);
        let named: BTreeSet<&str> = shown.split(|c: char| !c.is_ascii_digit()).collect();
        let units = read(house, &text).unwrap().units;
        assert!(units.iter().all(|unit| named.contains(unit.loader.to_string().as_str())), "seed {seed}, case {i}");
        seen[ended.status as usize] += 1;
    }
    assert!(seen.iter().all(|&count| count > 0), "{seen:?}");
}

/// Of ours.
#[test]
fn random_charts_of_ours() {
    random_charts(House::Ours, 0xa1);
}

/// Of the partner's.
#[test]
fn random_charts_of_theirs() {
    random_charts(House::Partner, 0xa2);
}

/// The charts in docs/charts are what the command makes of their sheets, called from the repository's root.
#[test]
fn committed_charts() {
    let (root, drawn) = (Path::new(env!("CARGO_MANIFEST_DIR")).join(".."), folder("charts committed").join("chart.svg"));
    for (sheet, committed) in [("docs/first.sheet", "docs/charts/first.svg"), ("docs/charts/large.sheet", "docs/charts/large.svg")] {
        let ended = run_in(&root, &["plan", "--chart", drawn.to_str().unwrap(), sheet], b"");
        assert_eq!((ended.status, ended.said.as_str()), (0, ""));
        let made = fs::read_to_string(&drawn).unwrap();
        assert!(made == fs::read_to_string(root.join(committed)).unwrap(), "{committed} is not what tugrokt plan --chart {committed} {sheet} makes");
        assert!(hold(&made).contains(sheet));
    }
}
