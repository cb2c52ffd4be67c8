//! The examples of the package, in C and in Rust: what they print, and with which status they end.

use std::ffi::OsStr;
use std::os::unix::ffi::OsStrExt;
use std::path::{Path, PathBuf};
use std::process::Stdio;

use model::cases;
use model::examples::{cargo, closed_pipe, ended, full, of_output, unreadable, Ended, Example, Language};
use model::examples::{FAILED, NONE, REFUSED, USAGE, WELL};
use model::house::House;
use model::{enumerated, page};
use tugrokt::told::{self, Refusal};

/// A sheet that is refused, and one that is too long.
const SPAN_49: &[u8] = b"(sheet 49)\n";
const TOO_LONG: &[u8] = &[b'x'; 16_001];

/// Where they are built.
fn folder() -> &'static Path {
    Path::new(env!("CARGO_TARGET_TMPDIR"))
}

/// The text of a case that docs/RULES.md has.
fn case(name: &str) -> Vec<u8> {
    cases::named(name).sheet.text()
}

/// An ending with this status and page, on which nothing is said.
fn shown(status: Option<i32>, page: impl AsRef<[u8]>) -> Ended {
    Ended { status, page: String::from_utf8(page.as_ref().to_vec()).unwrap(), said: String::new() }
}

/// The ending by a refusal: its page and, in Rust, its words.
fn refused(example: &Example, refusal: Refusal, named: &str) -> Ended {
    let said = if example.language == Language::Rust { format!("{named}{refusal}\n") } else { String::new() };
    Ended { said, ..shown(REFUSED, refusal.page()) }
}

/// A wrong use has no page and a word on how it is used.
fn is_wrong_use(example: &Example, words: &[impl AsRef<OsStr>]) {
    let Ended { status, page, said } = example.run(words, &case("P2"));
    assert_eq!((status, page.as_str()), (USAGE, ""));
    assert!(said.starts_with("usage: ") && said.ends_with('\n'), "{said}");
}

/// A failure has a word on standard error, and no signal ends the program.
fn is_failure(what: &str, Ended { status, said, .. }: Ended) {
    assert_eq!(status, FAILED, "{what}: {said}");
    assert!(said.ends_with('\n') && !said.contains("panicked"), "{what}: {said}");
}

/// Whatever it would print on this text, a full disk and a closed pipe are failures. Where nobody takes its words, the status is the same.
fn writes(example: &Example, words: &[&str], text: &[u8]) {
    for (what, output) in [("full", full()), ("closed pipe", closed_pipe())] {
        is_failure(what, ended(example.command(words).stdout(output).stderr(Stdio::piped()), text));
    }
    let heard = example.run(words, text);
    for error in [full(), closed_pipe()] {
        let unheard = ended(example.command(words).stdout(Stdio::piped()).stderr(error), text);
        assert_eq!((unheard.status, unheard.page), (heard.status, heard.page.clone()));
        assert_eq!(ended(example.command(words).stdout(full()).stderr(full()), text).status, FAILED);
    }
}

/// What cannot be read is a failure without a page.
fn reads_standard_input(example: &Example, words: &[&str]) {
    let output = example.command(words).stdin(unreadable()).output().unwrap();
    assert!(output.stdout.is_empty());
    is_failure("unreadable", of_output(output));
}

/// What the examples have in common that take a sheet and no word: how they end with a refusal, a failure and a wrong use.
fn takes_a_sheet(example: &Example) {
    for text in [SPAN_49, TOO_LONG, b""] {
        assert_eq!(example.run(&[""; 0], text), refused(example, told::read(text).unwrap_err(), ""));
    }
    for text in [&case("P2")[..], &case("P4"), SPAN_49] {
        writes(example, &[], text);
    }
    reads_standard_input(example, &[]);
    for word in ["", "plan", "-"] {
        is_wrong_use(example, &[word]);
    }
    is_wrong_use(example, &[OsStr::from_bytes(b"\xff")]);
}

/// The lines of a ring: C has its boundaries, Rust its limits.
fn ring_lines(example: &Example, boundaries: &'static str, limits: &'static str) -> Ended {
    shown(NONE, if example.language == Language::C { boundaries } else { limits })
}

const P4_LIMITS: &str = "(at-most 1 (slots 1 3))\n(at-least 2 (slots 1 3))\n(shortfall 1)\n";
const P5_LIMITS: &str = "(at-most 1 (slots 1 2))\n(at-least 1 (slots 2 2))\n(at-most 1 (slots 2 3))\n(at-least 2 (slots 1 3))\n(shortfall 1)\n";

/// The examples that plan: each unit's slot and window, in Rust also each slot's count, or the ring.
fn plans(example: &Example) {
    let run = |text: &[u8]| example.run(&[""; 0], text);
    let planned = |units: &str, slots: &str| shown(WELL, format!("{units}{}", if example.language == Language::C { "" } else { slots }));
    let p2_slots = "slot 1: 1, from 0 to 1\nslot 2: 0, from 0 to 1\nslot 3: 1, from 0 to 1\nslot 4: 0, from 0 to 1\n";
    assert_eq!(run(&case("P2")), planned("unit 1: slot 1, from 1 to 2\nunit 2: slot 3, from 3 to 4\n", p2_slots));
    let numbered = cases::named("P2").sheet.numbered(&[4_017, 12]);
    assert_eq!(run(&numbered.text()), planned("unit 4017: slot 1, from 1 to 2\nunit 12: slot 3, from 3 to 4\n", p2_slots));
    let p11_slots = "slot 1: 1, from 0 to 1\nslot 2: 0, from 0 to 1\n";
    assert_eq!(run(&case("P11")), planned("unit 1: slot 1, from 1 to 2\nunit 2: carried, from 3 to 3\n", p11_slots));
    assert_eq!(run(&case("P7")), planned("", "slot 1: 0, from 0 to 0\n"));
    assert_eq!(run(&case("P4")), ring_lines(example, "boundary 0\nboundary 3\n", P4_LIMITS));
    assert_eq!(run(&case("P5")), ring_lines(example, "boundary 0\nboundary 2\nboundary 1\nboundary 3\n", P5_LIMITS));
    takes_a_sheet(example);
}

/// The examples that decide: how full each slot can be, or the ring.
fn decides(example: &Example) {
    let run = |name: &str| example.run(&[""; 0], &case(name));
    assert_eq!(run("P2"), shown(WELL, "slot 1: 0 to 1\nslot 2: 0 to 1\nslot 3: 0 to 1\nslot 4: 0 to 1\n"));
    assert_eq!(run("P6"), shown(WELL, "slot 1: 1 to 1\nslot 2: 0 to 1\nslot 3: 0 to 1\n"));
    assert_eq!(run("P11"), shown(WELL, "slot 1: 0 to 1\nslot 2: 0 to 1\n"));
    assert_eq!(run("P4"), ring_lines(example, "boundary 0\nboundary 3\n", P4_LIMITS));
    assert_eq!(run("P5"), ring_lines(example, "boundary 0\nboundary 2\nboundary 1\nboundary 3\n", P5_LIMITS));
    takes_a_sheet(example);
}

/// The examples that print a page, against the model.
fn prints_pages(example: &Example) {
    for case in cases::all() {
        // Other numbers than the places.
        let sheet = case.sheet.clone().numbered(&(0..case.sheet.units.len() as u16).map(|i| 4_017 - 5 * i).collect::<Vec<_>>());
        let solved = enumerated::solve(&sheet);
        let Ended { status, page, said } = example.run(&[""; 0], &sheet.text());
        assert_eq!((status, said.as_str()), (if solved.is_some() { WELL } else { NONE }, ""), "{}", case.name);
        assert_eq!(page::fault(&sheet, solved.as_ref(), page.as_bytes()), None, "{}", case.name);
    }
    takes_a_sheet(example);
}

/// The examples that turn a sheet into the other house's form.
fn converts(example: &Example) {
    for case in cases::all() {
        let kept = case.sheet.kept_by(House::Partner);
        let (ours, theirs) = (kept.text(), kept.text_for(House::Partner));
        assert_eq!(example.run(&["to-partner"], &ours), shown(WELL, &theirs), "{}", case.name);
        assert_eq!(example.run(&["from-partner"], &theirs), shown(WELL, &ours), "{}", case.name);
    }
    for (name, question, place) in [("P11", 17, "unit 2"), ("P6", 18, "rule 1")] {
        let refusal = told::write_partner(&told::read(&case(name)).unwrap()).unwrap_err();
        assert_eq!((refusal.question(), refusal.place().to_string()), (question, place.to_string()));
        assert_eq!(example.run(&["to-partner"], &case(name)), refused(example, refusal, ""));
    }
    assert_eq!(example.run(&["from-partner"], &case("P7")), refused(example, told::read_partner(&case("P7")).unwrap_err(), ""));
    for word in ["to-partner", "from-partner"] {
        assert_eq!(example.run(&[word], TOO_LONG), refused(example, Refusal::TextTooLong, ""));
        writes(example, &[word], &cases::named("P7").sheet.text_for(if word == "to-partner" { House::Ours } else { House::Partner }));
        writes(example, &[word], SPAN_49);
        reads_standard_input(example, &[word]);
        is_wrong_use(example, &[word, word]);
    }
    for word in ["", "partner", "to-partner "] {
        is_wrong_use(example, &[word]);
    }
    is_wrong_use(example, &[""; 0]);
    is_wrong_use(example, &[OsStr::from_bytes(b"\xff")]);
}

/// A file of this name with this text, in a folder of the language's own.
fn file(example: &Example, name: &OsStr, text: &[u8]) -> PathBuf {
    let folder = folder().join(format!("merging-{:?}", example.language));
    std::fs::create_dir_all(&folder).unwrap();
    std::fs::write(folder.join(name), text).unwrap();
    folder.join(name)
}

/// The names of the files of two sheets that are merged.
fn pair(example: &Example) -> (String, String) {
    let file = |name: &str, text: &str| file(example, OsStr::new(name), text.as_bytes()).to_str().unwrap().to_string();
    (file("one", cases::PAIR.0), file("two", cases::PAIR.1))
}

/// The examples that merge the sheets of two files, or show a unit's line.
fn merges(example: &Example) {
    let (one, two) = pair(example);
    let run = |words: &[&str]| example.run(words, b"");
    assert_eq!(run(&[&one, &two]), shown(WELL, cases::MERGED));
    for (loader, line) in [("4017", "(unit 4017 (window 1 4))\n"), ("40", "(unit 40 (window 2 3))\n"), ("00012", "(unit 12 (window 7 8))\n")] {
        assert_eq!(run(&[&one, &two, loader]), shown(WELL, line));
        assert_eq!(run(&[&two, &one, loader]), shown(WELL, line));
    }
    for words in [&[&one[..], &two][..], &[&one, &two, "40"], &[&one, &one], &[&one, &two, "4"]] {
        writes(example, words, b"");
    }
}

/// What they refuse; in Rust they name the file that it is of.
fn refuses_to_merge(example: &Example) {
    let (one, two) = pair(example);
    let run = |words: &[&str]| example.run(words, b"");
    // No such number: 69553 is 4017 in 16 bits, and the one with 20 digits in 64.
    for loader in ["4", "0", "9999", "10000", "69553", "18446744073709555633", &"9".repeat(100)] {
        assert_eq!(run(&[&one, &two, loader]), refused(example, Refusal::UnknownLoader, ""));
    }
    let long = file(example, OsStr::new("long"), &[b'x'; 20_000]).to_str().unwrap().to_string();
    for (first, second) in [(&one, &long), (&long, &one)] {
        assert_eq!(run(&[first, second]), refused(example, Refusal::TextTooLong, &format!("{long}: ")));
        assert_eq!(run(&[first, second, "12"]), refused(example, Refusal::TextTooLong, &format!("{long}: ")));
    }
    let twice = told::merge(cases::PAIR.0.as_bytes(), cases::PAIR.0.as_bytes()).unwrap_err();
    assert_eq!(run(&[&one, &one]), refused(example, twice, &format!("{one}: ")));
}

/// Files that cannot be read are named, and words that are none are told.
fn cannot_merge(example: &Example) {
    let (one, two) = pair(example);
    for unreadable in ["no such file", "/"] {
        for words in [[&one, unreadable], [unreadable, &one]] {
            let ended = example.run(&words, b"");
            assert!(ended.page.is_empty() && ended.said.contains(&format!("{unreadable}: ")), "{ended:?}");
            is_failure(unreadable, ended);
        }
    }
    for words in [&[][..], &[&one[..]], &[&one, &two, "40", "40"]] {
        is_wrong_use(example, words);
    }
    for loader in ["", "x", "+40", "-4", "40 ", "0x28"] {
        is_wrong_use(example, &[&one, &two, loader]);
    }
}

/// A file's name is bytes, and need be no text.
fn merges_files_of_any_name(example: &Example) {
    let name = |bytes: &[u8]| OsStr::from_bytes(bytes).to_os_string();
    let one = file(example, &name(b"one\xff"), cases::PAIR.0.as_bytes());
    let two = file(example, &name(b"two\xff"), cases::PAIR.1.as_bytes());
    assert_eq!(example.run(&[&one, &two], b""), shown(WELL, cases::MERGED));
    assert_eq!(example.run(&[&one, &one], b"").status, REFUSED);
    is_wrong_use(example, &[one.as_os_str(), two.as_os_str(), OsStr::from_bytes(b"\xff")]);
}

/// Builds an example in C and one in Rust, and tries each.
fn in_both(in_c: &str, in_rust: &str, tried: impl Fn(&Example)) {
    for (language, name) in [(Language::C, in_c), (Language::Rust, in_rust)] {
        tried(&Example::built(language, name, folder()));
    }
}

#[test]
fn planning() {
    in_both("plan", "told_plan", plans);
}

#[test]
fn deciding() {
    in_both("decide", "told_decide", decides);
}

#[test]
fn printing() {
    in_both("sheet", "sheet", prints_pages);
}

#[test]
fn converting() {
    in_both("convert", "convert", converts);
}

#[test]
fn merging() {
    in_both("merge", "merge", |example| {
        merges(example);
        refuses_to_merge(example);
        cannot_merge(example);
        merges_files_of_any_name(example);
    });
}

/// Every file of the folder is tried above, or, of the Rust examples that show numbers alone, by `bindings.rs`.
#[test]
fn no_other_examples() {
    let entries = std::fs::read_dir(Path::new(env!("ROOT")).join("bindings/examples")).unwrap();
    let mut names: Vec<String> = entries.map(|entry| entry.unwrap().file_name().into_string().unwrap()).collect();
    names.sort();
    let expected = ["convert", "decide", "merge", "plan", "sheet"].map(|name| [format!("{name}.c"), format!("{name}.rs")]);
    let mut expected = expected.concat();
    expected.extend(["told_decide.rs", "told_plan.rs"].map(str::to_string));
    assert_eq!(names, expected);
}

/// Run as their heads say, they end with the same status.
#[test]
fn run_by_cargo() {
    let folder = folder().join("Rust-examples");
    let run = |name: &str, words: &[&str], text: &[u8]| {
        let mut cargo = cargo(&folder, "run");
        cargo.args(["--example", name]).args(words).stdout(Stdio::piped()).stderr(Stdio::piped());
        let Ended { status, page, .. } = ended(&mut cargo, text);
        (status, page)
    };
    assert_eq!(run("sheet", &[], &case("P2")), (WELL, cases::P2_PAGE.into()));
    assert_eq!(run("told_decide", &[], &case("P4")), (NONE, P4_LIMITS.into()));
    assert_eq!(run("told_plan", &[], SPAN_49), (REFUSED, "(refused 6 (line 1))\n".into()));
    assert_eq!(run("merge", &["no such file", "no such file"], b""), (FAILED, String::new()));
    assert_eq!(run("convert", &[], b""), (USAGE, String::new()));
}
