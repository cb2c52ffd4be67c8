//! The man page and the completion are held to `--help`.

use std::path::{Path, PathBuf};
use std::process::Command;

/// What the command writes to standard output.
fn written(words: &[&str]) -> String {
    let output = Command::new(env!("CARGO_BIN_EXE_tugrokt")).args(words).output().expect("the command starts");
    assert!(output.status.success(), "{words:?}");
    String::from_utf8(output.stdout).unwrap()
}

/// The words of a text, one space between two.
fn plain(text: &str) -> String {
    text.split_whitespace().collect::<Vec<_>>().join(" ")
}

/// The rows of a table of a help page, each as what stands left and what is said of it.
type Rows = Vec<(String, String)>;

fn rows(table: &str) -> Rows {
    let mut rows: Rows = Vec::new();
    for line in table.lines() {
        // The left column is two spaces in, an option without a letter four more; what goes on is further in.
        let inner = line.strip_prefix("  ").unwrap_or_else(|| panic!("{line} is no row"));
        if !inner.starts_with(' ') || inner.starts_with("    --") {
            let (left, right) = inner.trim_start().split_once("  ").expect("two columns");
            rows.push((left.to_string(), plain(right)));
        } else {
            let last = rows.last_mut().expect("a row to go on");
            last.1 = format!("{} {}", last.1, plain(line));
        }
    }
    rows
}

/// The table of a help page below this head.
fn table(page: &str, head: &str) -> Rows {
    let (_, rest) = page.split_once(&format!("{head}\n")).unwrap_or_else(|| panic!("no {head} on {page}"));
    let end = rest.find("\n\n").map_or(rest.len(), |end| end + 1);
    let lines: String = rest[..end].lines().filter(|line| line.starts_with("  ")).map(|line| format!("{line}\n")).collect();
    rows(&lines)
}

/// What the help says of a word: how it is used, two sentences, and its options.
#[derive(Debug, PartialEq, Eq)]
struct Said {
    usage: String,
    sentences: String,
    options: Rows,
}

fn words() -> Vec<String> {
    table(&written(&["--help"]), "Words:").into_iter().map(|(word, _)| word).collect()
}

fn said_by_help(word: &str) -> Said {
    let page = written(&[word, "--help"]);
    let parts: Vec<&str> = page.split("\n\n").collect();
    let [long, usage, input, _] = parts[..] else { panic!("{page}") };
    let usage = usage.strip_prefix("Usage: tugrokt ").expect("the usage").to_string();
    Said { usage, sentences: plain(&format!("{long} {input}")), options: table(&page, "Options:") }
}

fn document(name: &str) -> PathBuf {
    Path::new(env!("CARGO_MANIFEST_DIR")).join("../docs").join(name)
}

/// The man page without the marks of its language, and without its comments.
fn manual() -> String {
    let source = std::fs::read_to_string(document("tugrokt.1")).unwrap();
    let lines = source.lines().filter(|line| !line.starts_with(".\\\""));
    lines.map(|line| line.replace("\\fI", "").replace("\\fR", "").replace("\\-", "-") + "\n").collect()
}

/// The part of the man page below a head, up to the next one.
fn section(head: &str) -> String {
    let manual = manual();
    let (_, rest) = manual.split_once(&format!("{head}\n")).unwrap_or_else(|| panic!("no {head} in the manual"));
    let ends = [".SH ", ".SS "].map(|mark| rest.find(&format!("\n{mark}")).map_or(rest.len(), |end| end + 1));
    rest[..ends[0].min(ends[1])].to_string()
}

/// What stands before its first list, and the rows of the list up to the next paragraph.
fn text_and_rows(section: &str) -> (String, Rows) {
    let mut parts = section.split(".TP\n");
    let text = plain(parts.next().unwrap_or_default());
    let row = |part: &str| {
        let part = part.split(".PP\n").next().unwrap_or_default();
        let (tag, says) = part.split_once('\n').expect("a tag and what is said of it");
        (tag.strip_prefix(".B ").expect("a tag in bold").to_string(), plain(says))
    };
    (text, parts.map(row).collect())
}

/// Every word, its sentences and its options stand in the man page as `--help` has them, and no others.
#[test]
fn the_manual_says_what_help_says() {
    let words = words();
    for word in &words {
        let help = said_by_help(word);
        let (sentences, options) = text_and_rows(&section(&format!(".SS {}", help.usage)));
        assert_eq!(Said { usage: help.usage.clone(), sentences, options }, help);
    }
    let heads = manual().lines().filter(|line| line.starts_with(".SS ")).count();
    assert_eq!(heads, words.len());
}

/// The command's own options and what it ends with do too.
#[test]
fn the_manual_has_the_statuses() {
    let page = written(&["--help"]);
    let (text, own) = text_and_rows(&section(".SH DESCRIPTION"));
    assert_eq!(own, table(&page, "Options:"));
    assert!(text.starts_with(page.lines().next().unwrap()), "{text}");
    assert_eq!(text_and_rows(&section(".SH EXIT STATUS")).1, table(&page, "It ends with"));
}

/// Every example of the man page is a call that the command takes: its words are known, and so are their options.
#[test]
fn the_manual_has_examples() {
    let (_, examples) = text_and_rows(&section(".SH EXAMPLES"));
    assert!(examples.len() >= 3);
    for call in examples.iter().flat_map(|(call, _)| call.split(" | ")) {
        let parts: Vec<&str> = call.split(' ').collect();
        assert_eq!(parts[0], "tugrokt");
        let options: Vec<String> = said_by_help(parts[1]).options.into_iter().map(|(option, _)| option).collect();
        for part in parts[2..].iter().filter(|part| part.starts_with('-')) {
            assert!(options.iter().any(|option| spellings(option).contains(&part.to_string())), "{part} of {call}");
        }
    }
}

/// How an option of a help page may be written: `-j, --jobs N` as `-j` and as `--jobs`.
fn spellings(option: &str) -> Vec<String> {
    option.split(", ").map(|part| part.split(' ').next().unwrap().to_string()).collect()
}

/// What the completion offers for a call whose last word is to be completed.
fn offered(call: &[&str]) -> Vec<String> {
    let script = format!(
        "source '{}'; COMP_WORDS=(\"$@\"); COMP_CWORD=$(($# - 1)); _tugrokt; printf '%s\\n' \"${{COMPREPLY[@]}}\"",
        document("tugrokt.bash").display()
    );
    let folder = Path::new(env!("CARGO_MANIFEST_DIR"));
    let output = Command::new("bash").args(["-c", &script, "bash"]).args(call).current_dir(folder).output().expect("bash starts");
    let mut offered: Vec<String> = String::from_utf8(output.stdout).unwrap().lines().filter(|l| !l.is_empty()).map(str::to_string).collect();
    offered.sort();
    offered
}

fn sorted(mut names: Vec<String>) -> Vec<String> {
    names.sort();
    names
}

/// Words, and the options of each word, are completed as `--help` has them, and no others.
#[test]
fn completion_offers_what_help_has() {
    let own = table(&written(&["--help"]), "Options:").into_iter().flat_map(|(option, _)| spellings(&option));
    assert_eq!(offered(&["tugrokt", ""]), sorted(words().into_iter().chain(own).collect()));
    for word in words() {
        let options = said_by_help(&word).options.iter().flat_map(|(option, _)| spellings(option)).collect();
        assert_eq!(offered(&["tugrokt", &word, "-"]), sorted(options), "{word}");
        assert_eq!(offered(&["tugrokt", &word, "Cargo.t"]), ["Cargo.toml"], "{word}");
    }
    assert_eq!(offered(&["tugrokt", "fr"]), ["from-partner"]);
    assert_eq!(offered(&["tugrokt", "plan", "--to", "sr"]), ["src"]);
    assert!(offered(&["tugrokt", "plan", "--to", "Cargo.t"]).is_empty());
    assert!(offered(&["tugrokt", "plan", "-j", ""]).is_empty());
    assert!(offered(&["tugrokt", "nothing", ""]).is_empty());
}
