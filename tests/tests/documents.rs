//! The documents: each link leads to a file, each theorem that docs/PROMISES.md names is defined in the file that it links to, and the
//! sheets and pages of README and docs/RULES.md are those that the tests run. (`format.rs` has the examples of docs/FORMAT.md.)

use std::collections::{BTreeMap, BTreeSet};
use std::fs;
use std::path::{Path, PathBuf};

use model::cases;

fn root() -> &'static Path {
    Path::new(env!("ROOT"))
}

/// A link `[text](target)`, or `[text][label]` with a line `[label]: target`, and the line that it stands on.
struct Link {
    line: usize,
    text: String,
    target: String,
}

/// The document's lines outside blocks of code.
fn prose(document: &str) -> Vec<(usize, &str)> {
    let mut in_block = false;
    let mut lines = Vec::new();
    for (i, line) in document.lines().enumerate() {
        if line.starts_with("```") {
            in_block = !in_block;
        } else if !in_block && !line.starts_with("    ") {
            lines.push((i + 1, line));
        }
    }
    lines
}

/// The targets by their labels.
fn labels(document: &str) -> BTreeMap<&str, &str> {
    prose(document).into_iter().filter_map(|(_, line)| line.strip_prefix('[')?.split_once("]: ")).collect()
}

fn links(document: &str) -> Vec<Link> {
    let labels = labels(document);
    let mut all = Vec::new();
    for (line, text) in prose(document) {
        for (at, _) in text.match_indices('[') {
            let Some((name, rest)) = text[at + 1..].split_once(']') else { continue };
            let target = if let Some(rest) = rest.strip_prefix('(') {
                rest.split_once(')').expect("a link ends").0
            } else if let Some(label) = rest.strip_prefix('[').and_then(|r| r.split_once(']')) {
                labels.get(label.0).unwrap_or_else(|| panic!("line {line}: no target for [{}]", label.0))
            } else {
                continue;
            };
            all.push(Link { line, text: name.to_string(), target: target.to_string() });
        }
    }
    all
}

fn documents() -> Vec<PathBuf> {
    let folders = ["", "docs", "bindings", "tests", "bench"];
    let files = folders.iter().flat_map(|folder| fs::read_dir(root().join(folder)).unwrap().map(|e| e.unwrap().path()));
    files.filter(|path| path.extension().is_some_and(|e| e == "md")).collect()
}

/// Does the file define the name: a theorem, a definition or a record of antt, or a function of Rattle?
fn defines(file: &str, name: &str) -> bool {
    file.lines().map(str::trim_start).any(|line| {
        let Some(public) = line.trim_start_matches("abbrev ").trim_start_matches("unfoldable ").strip_prefix("pub ") else { return false };
        let plain = ["record ", "data ", "struct ", "extern \"C\" fn ", "fn "].iter().fold(public, |l, word| l.trim_start_matches(word));
        plain.strip_prefix(name).is_some_and(|rest| [" :", " (", " {", "("].iter().any(|start| rest.starts_with(start)))
    })
}

#[test]
fn every_link_leads_somewhere() {
    let mut count = 0;
    for document in documents() {
        let text = fs::read_to_string(&document).unwrap();
        for Link { line, target, .. } in links(&text) {
            let path = document.parent().unwrap().join(target.split('#').next().unwrap());
            assert!(path.exists(), "{}, line {line}: {target} is not there", document.display());
            count += 1;
        }
    }
    assert!(count > 50, "only {count} links were found");
}

/// The rows of the table of conditions of docs/PROMISES.md.
fn conditions(promises: &str) -> impl Iterator<Item = &str> {
    let part = promises.split("## ").find(|part| part.starts_with("The user's conditions")).expect("the table of conditions");
    part.lines().filter(|l| l.starts_with("| ")).skip(1)
}

#[test]
fn theorems_stand_where_the_promises_say() {
    let document = root().join("docs/PROMISES.md");
    let text = fs::read_to_string(&document).unwrap();
    let mut theorems = BTreeSet::new();
    for Link { line, text, target } in links(&text) {
        let Some(name) = text.strip_prefix('`').and_then(|t| t.strip_suffix('`')) else { continue };
        let file = fs::read_to_string(root().join("docs").join(&target)).unwrap();
        assert!(defines(&file, name), "docs/PROMISES.md, line {line}: {target} does not define {name}");
        theorems.insert(name.to_string());
    }
    assert!(theorems.len() > 30, "only {} theorems were found", theorems.len());
    // Each label serves, and in the table of conditions nothing is named without a link.
    for label in labels(&text).keys() {
        assert!(text.contains(&format!("][{label}]")), "docs/PROMISES.md: nothing has the label {label}");
    }
    for row in conditions(&text) {
        let meets = row.trim_matches('|').split(" | ").nth(1).unwrap();
        let bare = meets.split("[`").map(|part| part.split_once(']').map_or(part, |p| p.1)).collect::<String>();
        assert!(meets.contains("[`") && !bare.contains('`'), "docs/PROMISES.md: a row without a link for each name: {row}");
    }
}

/// The wrong programs of every crate by their names, `crate/label`: those that the gate tries (`must-fail/`) and the others (`must-fail-more/`).
fn wrong_programs() -> BTreeMap<String, PathBuf> {
    let mut all = BTreeMap::new();
    for folder in fs::read_dir(root().join("crates")).unwrap().map(|e| e.unwrap()) {
        for tier in ["must-fail", "must-fail-more"] {
            let Ok(files) = fs::read_dir(folder.path().join(tier)) else { continue };
            for edit in files.map(|e| e.unwrap().path()).filter(|path| path.is_file()) {
                assert_eq!(edit.extension().unwrap(), "edit", "{} is tried by nothing", edit.display());
                let name = format!("{}/{}", folder.file_name().to_str().unwrap(), edit.file_stem().unwrap().to_str().unwrap());
                assert!(all.insert(name.clone(), edit).is_none(), "{name} stands in both folders");
            }
        }
    }
    all
}

/// What an edit replaces: for each pair of its `old:` and `new:` lines the file, the text that stands there and the one that takes its place.
fn replacements(edit: &str) -> Vec<(&str, &str, &str)> {
    let (mut file, mut old, mut all) = ("", "", Vec::new());
    for line in edit.lines() {
        if let Some(name) = line.strip_prefix("file: ") {
            file = name;
        } else if let Some(text) = line.strip_prefix("old: ") {
            old = text;
        } else if let Some(text) = line.strip_prefix("new:") {
            all.push((file, old, text.strip_prefix(' ').unwrap_or(text)));
            old = "";
        }
    }
    all
}

/// As `rt must-fail` makes them, those too that the gate does not try.
#[test]
fn wrong_programs_can_be_made() {
    for (name, edit) in wrong_programs() {
        let folder = root().join("crates").join(name.split_once('/').unwrap().0);
        let edit = fs::read_to_string(edit).unwrap();
        let pairs = replacements(&edit);
        assert!(!pairs.is_empty(), "{name} replaces nothing");
        let mut files = BTreeMap::new();
        for (file, old, new) in pairs {
            assert!(["src/", "specs/", "proofs/"].iter().any(|part| file.starts_with(part)), "{name}: {file} is no file of a crate");
            let text = files.entry(file).or_insert_with(|| fs::read_to_string(folder.join(file)).unwrap_or_else(|e| panic!("{name}: {file}: {e}")));
            assert_eq!(text.matches(old).count(), 1, "{name}: so often stands in {file}: {old}");
            *text = text.replacen(old, new, 1);
        }
    }
}

#[test]
fn the_promises_name_every_wrong_program() {
    let text = fs::read_to_string(root().join("docs/PROMISES.md")).unwrap();
    let is_name = |part: &str| part.contains('/') && part.chars().all(|c| c.is_ascii_lowercase() || c.is_ascii_digit() || "_/".contains(c));
    let named: BTreeSet<String> = text.split('`').skip(1).step_by(2).filter(|part| is_name(part) && !part.ends_with('/')).map(str::to_string).collect();
    let there: BTreeSet<String> = wrong_programs().into_keys().collect();
    assert!(there.len() > 100, "only {} wrong programs were found", there.len());
    assert_eq!(named.difference(&there).collect::<Vec<_>>(), Vec::<&String>::new(), "named, and not there");
    assert_eq!(there.difference(&named).collect::<Vec<_>>(), Vec::<&String>::new(), "there, and not named");
}

#[test]
fn the_gate_tries_a_wrong_program_of_each_condition() {
    let text = fs::read_to_string(root().join("docs/PROMISES.md")).unwrap();
    let there = wrong_programs();
    for row in conditions(&text) {
        let mut named = row.trim_matches('|').split(" | ").last().unwrap().split('`').skip(1).step_by(2);
        let tried = named.any(|name| there.get(name).is_some_and(|edit| edit.parent().unwrap().ends_with("must-fail")));
        assert!(tried, "docs/PROMISES.md: of this row the gate tries none: {row}");
    }
}

#[test]
fn what_counts_as_a_definition() {
    let file = "abbrev pub small : ℕ\n  pub big : (n : ℕ) → ⊥\nunfoldable pub known : ℕ\npub record Whole (n : ℕ) : Type 0 where\n\
        hidden : ℕ\npub fn read(\npub struct Slot(pub usize);\n";
    for name in ["small", "big", "known", "Whole", "read", "Slot"] {
        assert!(defines(file, name), "{name}");
    }
    for name in ["smal", "hidden", "n", "rea", "pub"] {
        assert!(!defines(file, name), "{name}");
    }
}

/// The indented blocks of a document.
fn blocks(document: &str) -> Vec<String> {
    let mut all = vec![String::new()];
    for line in document.lines() {
        match line.strip_prefix("    ") {
            Some(line) => *all.last_mut().unwrap() += &format!("{line}\n"),
            None => all.push(String::new()),
        }
    }
    all.retain(|block| !block.is_empty());
    all
}

#[test]
fn worked_pages() {
    let read = |path: &str| fs::read_to_string(root().join(path)).unwrap();
    let first = read("docs/first.sheet");
    assert_eq!(first.as_bytes(), cases::named("P2").sheet.text());
    for (document, sheets) in [("README.md", vec![first.as_str()]), ("docs/RULES.md", vec![])] {
        let blocks = blocks(&read(document));
        for expected in sheets.into_iter().chain([cases::P2_PAGE, cases::P2_FITS_PAGE, cases::P4_PAGE, cases::P12_PAGE]) {
            assert!(blocks.iter().any(|block| block == expected), "{document} does not have\n{expected}");
        }
    }
}
