//! The words of a call: which there are, what each takes and ends with, its help page, and what is said of all others.

mod common;

use std::fs;
use std::path::Path;

use common::{folder, folder_with, listed, run, run_in, sheet, Ended, REFUSED, THEIRS, THEIRS_AS_OURS, THEIRS_NONE, THEIRS_RING};
use model::cases::{self, MERGED, P2_FITS_PAGE, P2_PAGE, P4_PAGE, PAIR};

const WORDS: [&str; 6] = ["plan", "fits", "from-partner", "to-partner", "merge", "line"];

/// All options of all words, each with a value where it takes one.
const OPTIONS: [(&str, Option<&str>); 6] =
    [("--partner", None), ("--explain", None), ("--chart", Some("chart.svg")), ("--jobs", Some("2")), ("--to", Some("pages")), ("--help", None)];

/// A folder with sheets of every kind.
fn sheets(name: &str) -> std::path::PathBuf {
    let (p2, p4) = (sheet("P2"), sheet("P4"));
    let files: [(&str, &[u8]); 7] = [
        ("p2", &p2), ("p4", &p4), ("refused", REFUSED.0), ("theirs", THEIRS.as_bytes()), ("theirs-none", THEIRS_NONE.as_bytes()),
        ("one", PAIR.0.as_bytes()), ("two", PAIR.1.as_bytes()),
    ];
    folder_with(name, &files)
}

/// Holds that a call is told what is wrong with its words, and where the right ones are, and gets no page.
fn wrong(folder: &Path, words: &[&str], what: &str, page: &str) {
    let Ended { status, page: written, said } = run_in(folder, words, &sheet("P2"));
    assert_eq!((status, written.as_str()), (64, ""), "{words:?}: {said}");
    let (first, last) = said.strip_suffix('\n').unwrap().rsplit_once('\n').expect("two lines");
    assert!(first.starts_with("tugrokt: ") && first.contains(what), "{words:?}: {said}");
    assert_eq!(last, format!("tugrokt: see tugrokt {page}"), "{words:?}");
}

/// Each word on standard input: its page, and 0, 1 or 2. Nothing else is said of a plan or of none.
#[test]
fn standard_input() {
    let (p2, p4) = (sheet("P2"), sheet("P4"));
    let cases: [(&[&str], &[u8], i32, &str); 9] = [
        (&["plan"], &p2, 0, P2_PAGE),
        (&["plan"], &p4, 1, P4_PAGE),
        (&["fits"], &p2, 0, P2_FITS_PAGE),
        (&["fits"], &p4, 1, P4_PAGE),
        (&["plan", "--partner"], THEIRS_NONE.as_bytes(), 1, THEIRS_RING),
        (&["fits", "--partner"], THEIRS_NONE.as_bytes(), 1, THEIRS_RING),
        (&["from-partner"], THEIRS.as_bytes(), 0, THEIRS_AS_OURS),
        (&["to-partner"], THEIRS_AS_OURS.as_bytes(), 0, &THEIRS.replace("(note)\n", "")),
        (&["plan", "-"], &p2, 0, P2_PAGE),
    ];
    for (words, text, status, page) in cases {
        assert_eq!(run(words, text), Ended::new(status, page, ""), "{words:?}");
    }
    for words in [&["plan"][..], &["fits"], &["plan", "--partner"], &["fits", "--partner"], &["from-partner"], &["to-partner"]] {
        let text = if words.contains(&"--partner") || words.contains(&"from-partner") { b"(day 49)\n" } else { REFUSED.0 };
        let Ended { status, page, said } = run(words, text);
        assert_eq!((status, page.as_str()), (2, REFUSED.1), "{words:?}");
        assert!(said.contains("standard input"), "{said}");
    }
}

/// The same of files, and of two files, one of which may be standard input.
#[test]
fn files() {
    let folder = sheets("words files");
    let cases: [(&[&str], i32, &str); 11] = [
        (&["plan", "p2"], 0, P2_PAGE),
        (&["plan", "./p4"], 1, P4_PAGE),
        (&["fits", "../words files/p2"], 0, P2_FITS_PAGE),
        (&["plan", "--partner", "theirs-none"], 1, THEIRS_RING),
        (&["from-partner", "theirs"], 0, THEIRS_AS_OURS),
        (&["to-partner", "-"], 0, "(day 7)\n(job 40 (start 2) (hours 2))\n"),
        (&["merge", "one", "two"], 0, MERGED),
        (&["line", "40", "one", "two"], 0, "(unit 40 (window 2 3))\n"),
        (&["line", "4017", "one", "two"], 0, "(unit 4017 (window 1 4))\n"),
        (&["line", "04017", "one", "two"], 0, "(unit 4017 (window 1 4))\n"),
        (&["merge", "-", "one"], 0, "(sheet 7)\n(unit 40 (window 2 3))\n(unit 4017 (window 1 4))\n(unit 12 (window 7 8))\n(rule (slots 1 3) (count 0 5))\n"),
    ];
    for (words, status, page) in cases {
        let ended = run_in(&folder, words, b"(sheet 7)\n(unit 40 (window 2 3))\n");
        assert_eq!(ended, Ended::new(status, page, ""), "{words:?}");
    }
    assert_eq!(run_in(&folder, &["merge", "one", "-"], PAIR.1.as_bytes()), Ended::new(0, MERGED, ""));
    assert_eq!(run_in(&folder, &["line", "12", "-", "two"], PAIR.0.as_bytes()), Ended::new(0, "(unit 12 (window 7 8))\n", ""));
    // A number that is too large for one of a sheet is none that it could be taken for.
    fs::write(folder.join("low"), "(sheet 7)\n(unit 1 (window 1 1))\n").unwrap();
    for (words, page) in [
        (&["line", "65537", "low", "two"][..], "(refused 27 (line 0))\n"),
        (&["line", "18446744073709551617", "low", "two"], "(refused 27 (line 0))\n"),
        (&["merge", "one", "one"], "(refused 20 (line 2))\n"),
        (&["merge", "one", "p2"], "(refused 19 (line 1))\n"),
        (&["merge", "refused", "one"], REFUSED.1),
        (&["line", "41", "one", "two"], "(refused 27 (line 0))\n"),
        (&["line", "0", "one", "two"], "(refused 27 (line 0))\n"),
        (&["line", "65576", "one", "two"], "(refused 27 (line 0))\n"),
        (&["line", "99999999999999999999999", "one", "two"], "(refused 27 (line 0))\n"),
        (&["to-partner", "one"], "(refused 17 (line 2))\n"),
    ] {
        let ended = run_in(&folder, words, b"");
        assert_eq!((ended.status, ended.page.as_str()), (2, page), "{words:?}");
        assert!(!ended.said.is_empty(), "{words:?}");
    }
}

/// Pages stand one behind the other in the order of the files, and of the statuses the largest counts. `-` may be among the files.
#[test]
fn several_files() {
    let folder = sheets("words several");
    let all = |pages: &[&str]| pages.concat();
    let cases: [(&[&str], i32, String); 6] = [
        (&["plan", "p2", "p2"], 0, all(&[P2_PAGE, P2_PAGE])),
        (&["plan", "p4", "p2"], 1, all(&[P4_PAGE, P2_PAGE])),
        (&["plan", "p2", "-", "p4"], 1, all(&[P2_PAGE, cases::P12_PAGE, P4_PAGE])),
        (&["plan", "refused", "p4", "p2"], 2, all(&[REFUSED.1, P4_PAGE, P2_PAGE])),
        (&["fits", "p2", "missing", "refused", "p4", "."], 3, all(&[P2_FITS_PAGE, REFUSED.1, P4_PAGE])),
        (&["plan", "missing", "p2", "-j1"], 3, P2_PAGE.to_string()),
    ];
    for (words, status, pages) in cases {
        let ended = run_in(&folder, words, &sheet("P12"));
        assert_eq!((ended.status, ended.page.as_str()), (status, pages.as_str()), "{words:?}: {}", ended.said);
        assert_eq!(ended.said.is_empty(), status < 2, "{words:?}: {}", ended.said);
    }
    // Enough files that threads overtake each other, and each with a page of its own.
    let names: Vec<String> = (1..=200).map(|n| format!("s{n}")).collect();
    for (n, name) in (1..).zip(&names) {
        fs::write(folder.join(name), format!("(sheet 2)\n(unit {n} (window 1 1))\n")).unwrap();
    }
    let page = |n: usize| format!("(answer plan 1)\n(unit {n} (slot 1) (between 1 1))\n(slot 1 (count 1) (range 1 1))\n(slot 2 (count 0) (range 0 0))\n");
    let expected: String = (1..=200).map(page).collect();
    for jobs in ["-j1", "-j2", "-j7", "-j512"] {
        let words: Vec<&str> = ["plan", jobs].into_iter().chain(names.iter().map(String::as_str)).collect();
        assert_eq!(run_in(&folder, &words, b""), Ended::new(0, &expected, ""), "{jobs}");
    }
}

/// Options in every form, before and behind files. Of one that is given twice the last counts.
#[test]
fn odd_forms() {
    let folder = sheets("words odd");
    for words in [
        &["plan", "-j2", "p2"][..], &["plan", "-j", "2", "p2"], &["plan", "--jobs=2", "p2"], &["plan", "--jobs", "2", "p2"], &["plan", "p2", "-j512"],
        &["plan", "-j", "1", "-j", "3", "p2"], &["plan", "--", "p2"], &["plan", "-j1", "--", "p2"], &["plan", "p2", "--"], &["plan", "-j003", "p2"],
    ] {
        assert_eq!(run_in(&folder, words, b""), Ended::new(0, P2_PAGE, ""), "{words:?}");
    }
    let ring = Ended::new(1, THEIRS_RING, "");
    assert_eq!(run_in(&folder, &["plan", "theirs-none", "--partner", "--partner"], b""), ring);
    let (once, twice) = (["plan", "--explain", "p4"], ["plan", "--explain", "p4", "--explain"]);
    assert_eq!(run_in(&folder, &once, b""), run_in(&folder, &twice, b""));
    for words in [&["--to=a b", "p2"][..], &["--to", "a b", "p2"], &["p2", "--to=no", "--to=a b"], &["--to=no", "--to", "a b", "--", "p2"]] {
        let _ = fs::remove_dir_all(folder.join("a b"));
        assert_eq!(run_in(&folder, &[&["plan"], words].concat(), b""), Ended::new(0, "", "tugrokt: 1 sheet: 1 planned\n"));
        assert_eq!(fs::read_to_string(folder.join("a b/p2.page")).unwrap(), P2_PAGE);
        assert!(!folder.join("no").exists(), "{words:?}");
    }
    for words in [&["--chart=c=d.svg", "p2"][..], &["--chart", "c=d.svg", "p2"], &["p2", "--chart=no.svg", "--chart", "c=d.svg"]] {
        let _ = fs::remove_file(folder.join("c=d.svg"));
        assert_eq!(run_in(&folder, &[&["plan"], words].concat(), b""), Ended::new(0, P2_PAGE, ""));
        assert!(folder.join("c=d.svg").exists() && !folder.join("no.svg").exists(), "{words:?}");
    }
}

/// Behind `--` everything is a file, and so is a name with a folder before it.
#[test]
fn names_that_look_like_options() {
    let folder = folder("words names");
    for name in ["--help", "-j", "-", "--", "plan"] {
        fs::write(folder.join(name), sheet("P2")).unwrap();
        assert_eq!(run_in(&folder, &["plan", &format!("./{name}")], b""), Ended::new(0, P2_PAGE, ""), "{name}");
    }
    for name in ["--help", "-j", "--", "plan"] {
        assert_eq!(run_in(&folder, &["plan", "--", name], b""), Ended::new(0, P2_PAGE, ""), "{name}");
    }
    assert_eq!(run_in(&folder, &["plan", "plan"], b""), Ended::new(0, P2_PAGE, ""));
    // A single - is standard input behind -- too.
    assert_eq!(run_in(&folder, &["plan", "--", "-"], &sheet("P4")), Ended::new(1, P4_PAGE, ""));
    assert_eq!(run_in(&folder, &["fits", "--", "-", "--help"], &sheet("P4")).page, [P4_PAGE, P2_FITS_PAGE].concat());
}

/// Wrong words end with 64: it is said what is wrong, and the help page is named.
#[test]
fn wrong_use() {
    let folder = sheets("words wrong");
    for (words, what) in [
        (&[][..], "a word is missing"), (&[""], "there is no word"), (&["fit"], "fit"), (&["plans"], "plans"), (&["Plan"], "Plan"), (&["p2"], "p2"),
        (&["-"], "-"), (&["--"], "--"), (&["-j"], "-j"), (&["--explain", "plan"], "--explain"), (&["partner"], "partner"), (&["--help=plan"], "--help"),
    ] {
        wrong(&folder, words, what, "--help");
    }
    let cases: [(&[&str], &str); 38] = [
        (&["plan", "--bogus"], "--bogus"), (&["plan", "-x"], "-x"), (&["plan", "--explai"], "--explai"), (&["plan", "p2", "--bogus"], "--bogus"),
        (&["plan", "--explain=yes"], "--explain takes no value"), (&["plan", "--explain="], "--explain takes no value"), (&["plan", "-hx"], "no value"),
        (&["plan", "---"], "---"), (&["plan", "-j"], "--jobs needs N"), (&["plan", "--jobs"], "--jobs needs N"), (&["plan", "--jobs="], "--jobs needs N"),
        (&["plan", "-j", ""], "--jobs needs N"), (&["plan", "-j0"], "1 to 512"), (&["plan", "-j513"], "1 to 512"), (&["plan", "-jx", "p2"], "and not x"),
        (&["plan", "-j=2", "p2"], "1 to 512"), (&["plan", "-j+2", "p2"], "1 to 512"), (&["plan", "-j", "p2"], "and not p2"), (&["plan", "-j-1"], "1 to 512"),
        (&["plan", "-j1.5"], "1 to 512"),
        (&["plan", "-j99999999999999999999"], "1 to 512"), (&["plan", "--to"], "--to needs FOLDER"), (&["plan", "--to="], "--to needs FOLDER"),
        (&["plan", "--to", ""], "--to needs FOLDER"), (&["plan", "--chart"], "--chart needs FILE"), (&["plan", "--chart", "c.svg", "p2", "p4"], "one sheet"),
        (&["fits", "--chart", "c.svg", "p2"], "--chart"), (&["plan", "-", "-"], "standard input"), (&["plan", "p2", "-", "p4", "--", "-"], "standard input"),
        (&["plan", "--to", "pages"], "files"), (&["plan", "--to", "pages", "-"], "files"), (&["plan", "--to", "pages", ".."], ".."),
        (&["plan", "--to", "pages", "p2", "./p2"], "./p2"), (&["fits", "-V"], "-V"), (&["fits", "--version"], "--version"),
        (&["from-partner", "theirs", "theirs"], "from-partner takes [FILE]"), (&["from-partner", "--partner"], "--partner"), (&["to-partner", "-j2"], "-j2"),
    ];
    for (words, what) in cases {
        wrong(&folder, words, what, &format!("{} --help", words[0]));
    }
    assert!(!folder.join("pages").exists() && !folder.join("c.svg").exists());
}

/// The same of the words that take two files.
#[test]
fn wrong_use_of_two_files() {
    let folder = sheets("words wrong two");
    let cases: [(&[&str], &str); 12] = [
        (&["merge"], "merge takes FIRST SECOND"), (&["merge", "one"], "FIRST SECOND"), (&["merge", "one", "two", "two"], "FIRST SECOND"),
        (&["merge", "-", "-"], "standard input"), (&["merge", "--explain", "one", "two"], "--explain"), (&["line", "40", "-", "-"], "standard input"),
        (&["line"], "line takes LOADER FIRST SECOND"), (&["line", "one", "two"], "LOADER"), (&["line", "x", "one", "two"], "and not x"),
        (&["line", "", "one", "two"], "LOADER"), (&["line", "-5", "one", "two"], "-5"), (&["line", "+5", "one", "two"], "+5"),
    ];
    for (words, what) in cases {
        wrong(&folder, words, what, &format!("{} --help", words[0]));
    }
}

/// An empty name is the name of no file.
#[test]
fn empty_names() {
    for words in [&["plan", ""][..], &["fits", ""], &["from-partner", ""], &["to-partner", ""], &["merge", "", "-"], &["line", "1", "-", ""]] {
        let Ended { status, page, said } = run(words, &sheet("P2"));
        assert_eq!((status, page.as_str()), (3, ""), "{words:?}");
        assert!(said.starts_with("tugrokt: ") && said.ends_with('\n'), "{said}");
    }
    assert_eq!(run(&["plan", "--to", "pages", ""], b"").status, 64);
}

/// The page of a word, or of the command: on standard output, with 0, and nothing else.
fn help(words: &[&str]) -> String {
    let Ended { status, page, said } = run(words, b"");
    assert_eq!((status, said.as_str()), (0, ""), "{words:?}");
    page
}

/// The command's help page names every word, every status and its own options, and a word's page how the word is used. Their lines have at most
/// 80 columns.
#[test]
fn help_pages() {
    let own = help(&["--help"]);
    assert_eq!(own, help(&["-h"]));
    assert_eq!(own, help(&["--help", "plan"]));
    let begins = |begin: &str| own.lines().any(|line| line.starts_with(begin));
    assert!(WORDS.iter().all(|word| begins(&format!("  {word} "))), "{own}");
    assert!(["0", "1", "2", "3", "64"].iter().all(|status| begins(&format!("  {status} "))), "{own}");
    assert!(begins("  -h, --help ") && begins("  -V, --version ") && begins("Usage: tugrokt WORD "), "{own}");
    let usages = ["plan [OPTION..] [FILE..]", "fits [OPTION..] [FILE..]", "from-partner [OPTION..] [FILE]", "to-partner [OPTION..] [FILE]",
        "merge [OPTION..] FIRST SECOND", "line [OPTION..] LOADER FIRST SECOND"];
    let mut pages = vec![own];
    for (word, usage) in WORDS.iter().zip(usages) {
        let page = help(&[word, "--help"]);
        assert!(page.contains(&format!("\nUsage: tugrokt {usage}\n")), "{page}");
        assert_eq!(page, help(&[word, "-h"]));
        // Whatever else is right in the call.
        assert_eq!(page, help(&[word, "one", "--help", "two", "three", "four"]));
        pages.push(page);
    }
    for page in pages {
        assert!(page.ends_with('\n') && page.lines().all(|line| line.chars().count() <= 80 && line.trim_end() == line), "{page}");
    }
}

/// The options on a word's page, as `("-j, --jobs", true)` where it has a value.
fn options_on(page: &str) -> Vec<(String, bool)> {
    let rows = page.split_once("\nOptions:\n").expect("options").1.lines().filter(|row| row.trim_start().starts_with('-'));
    let names = |row: &str| row.trim().split("  ").next().unwrap().to_string();
    rows.map(names).map(|names| match names.rsplit_once(' ') {
        Some((front, value)) if !value.starts_with('-') => (front.to_string(), true),
        _ => (names, false),
    }).collect()
}

/// Every option on a word's page is taken, in the forms that the page gives, and none that is not.
#[test]
fn the_options_on_the_help_pages() {
    let folder = sheets("words options");
    for (word, files) in WORDS.iter().zip([&["p2"][..], &["p2"], &["theirs"], &["p2"], &["one", "two"], &["40", "one", "two"]]) {
        let listed = options_on(&help(&[word, "--help"]));
        for (option, value) in OPTIONS {
            let row = listed.iter().find(|(names, _)| names.split(", ").any(|name| name == option));
            let taken = [&[*word, option][..], &value.into_iter().collect::<Vec<_>>(), files].concat();
            let status = run_in(&folder, &taken, b"").status;
            assert_eq!(status != 64, row.is_some(), "{taken:?}");
            assert!(row.is_none_or(|row| row.1 == value.is_some()), "{row:?}");
            if let Some(short) = row.and_then(|row| row.0.split(", ").find(|name| name.len() == 2)) {
                let taken = [&[*word, short][..], &value.into_iter().collect::<Vec<_>>(), files].concat();
                assert_eq!(run_in(&folder, &taken, b"").status, status, "{taken:?}");
            }
        }
        let known = |name: &str| OPTIONS.iter().any(|(option, _)| *option == name);
        assert!(listed.iter().all(|(names, _)| names.split(", ").any(known)), "{word}: {listed:?}");
    }
}

/// The version, as the package has it.
#[test]
fn version() {
    let expected = Ended::new(0, &format!("tugrokt {}\n", env!("CARGO_PKG_VERSION")), "");
    assert_eq!(run(&["--version"], b""), expected);
    assert_eq!(run(&["-V"], b""), expected);
}

/// With `--to` nothing is written to standard output, and a folder in a folder is made; `fits` and `--partner` go there too.
#[test]
fn pages_in_a_folder() {
    let folder = sheets("words pages");
    let ended = run_in(&folder, &["fits", "--to", "out/of/here", "p2", "p4", "refused"], b"");
    assert_eq!((ended.status, ended.page.as_str()), (2, ""));
    assert!(ended.said.ends_with("tugrokt: 3 sheets: 1 fit, 1 none, 1 refused\n"), "{}", ended.said);
    assert_eq!(listed(&folder.join("out/of/here")), ["p2.page", "p4.page", "refused.page"]);
    assert_eq!(fs::read_to_string(folder.join("out/of/here/p2.page")).unwrap(), P2_FITS_PAGE);
    let ended = run_in(&folder, &["plan", "--partner", "--to", "theirs-out", "theirs-none"], b"");
    assert_eq!(ended, Ended::new(1, "", "tugrokt: 1 sheet: 1 none\n"));
    assert_eq!(fs::read_to_string(folder.join("theirs-out/theirs-none.page")).unwrap(), THEIRS_RING);
}
