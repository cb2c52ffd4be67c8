//! The program's words `merge` and `line`, on files and through pipes: pages against the model, what is said of a refusal, and words and files
//! that it cannot take.

use std::ffi::{OsStr, OsString};
use std::fs;
use std::os::unix::ffi::OsStringExt;
use std::path::{Path, PathBuf};
use std::process::{Command, Stdio};

use model::house::House;
use model::merging::{merge, pair, text_at_fault};
use model::page::{self, Page};
use model::pairs::texts;
use model::program::{answer, answered_fault, line_page, merged_page, path, run, Asked};
use model::random::Random;
use model::reading::Refusal;
use model::sheet::Sheet;
use model::tally::Tally;
use model::{cases, effort, seed};

/// What the program writes with these words, and what it says on standard error. It takes nothing from standard input.
fn run_files<W: AsRef<OsStr>>(words: impl IntoIterator<Item = W>) -> (String, String) {
    let ended = Command::new(path()).args(words).stdin(Stdio::null()).output().expect("the program starts");
    assert!(ended.status.code().is_some(), "the program ended with {}", ended.status);
    (String::from_utf8_lossy(&ended.stdout).into_owned(), String::from_utf8_lossy(&ended.stderr).into_owned())
}

/// A folder of a test's own.
fn folder(name: &str) -> PathBuf {
    let folder = Path::new(env!("CARGO_TARGET_TMPDIR")).join("merging").join(name);
    fs::create_dir_all(&folder).unwrap();
    folder
}

/// Two files with these texts, in a folder of the test's own. Neither name is a part of the other.
fn files(name: &str, one: &[u8], two: &[u8]) -> [String; 2] {
    [("north.sheet", one), ("south.sheet", two)].map(|(file, text)| {
        let path = folder(name).join(file);
        fs::write(&path, text).unwrap();
        path.to_str().unwrap().to_string()
    })
}

/// Nothing is written, and something is said.
fn turned_down<W: AsRef<OsStr> + std::fmt::Debug>(words: &[W]) -> String {
    let (page, said) = run_files(words);
    assert_eq!(page, "", "{words:?}");
    assert!(said.ends_with('\n'), "{words:?}: {said:?}");
    said
}

/// What is said of a page: nothing beside a sheet or a line, and beside a refusal the file that it is of and not the other.
fn said_fault(one: &[u8], files: &[String; 2], page: &str, said: &str) -> Option<String> {
    let fine = match page::parse(page.as_bytes()) {
        Some(Page::Refused { number, line }) => match text_at_fault(one, Refusal { number, line }) {
            // The loader is in neither.
            0 => said.is_empty() || said.ends_with('\n'),
            of => said.contains(&files[of - 1]) && !said.contains(&files[2 - of]) && said.ends_with('\n'),
        },
        _ => said.is_empty(),
    };
    (!fine).then(|| format!("it said {said:?} beside {page:?}"))
}

/// Merges two texts through files; says what differs from the model.
fn merging_fault(name: &str, one: &[u8], two: &[u8]) -> Option<String> {
    let files = files(name, one, two);
    let (page, said) = run_files(["merge", &files[0], &files[1]]);
    let expected = String::from_utf8(merged_page(one, two)).unwrap();
    (page != expected).then(|| format!("got {page:?}, expected {expected:?}")).or_else(|| said_fault(one, &files, &page, &said))
}

/// The same for the line of a loader.
fn line_fault(name: &str, loader: usize, one: &[u8], two: &[u8]) -> Option<String> {
    let files = files(name, one, two);
    let (page, said) = run_files(["line", &loader.to_string(), &files[0], &files[1]]);
    let expected = String::from_utf8(line_page(loader, one, two)).unwrap();
    (page != expected).then(|| format!("loader {loader}: got {page:?}, expected {expected:?}")).or_else(|| said_fault(one, &files, &page, &said))
}

const ONE: &str = cases::PAIR.0;
const TWO: &str = cases::PAIR.1;
const BOTH: &str = cases::MERGED;

/// Two sheets and what they become; each unit's line; and the merged sheet goes on through a pipe to be planned.
#[test]
fn a_known_pair() {
    let [one, two] = files("known", ONE.as_bytes(), TWO.as_bytes());
    assert_eq!(run_files(["merge", &one, &two]), (BOTH.into(), String::new()));
    for (loader, line) in [("4017", "(unit 4017 (window 1 4))\n"), ("12", "(unit 12 (window 7 8))\n"), ("40", "(unit 40 (window 2 3))\n")] {
        assert_eq!(run_files(["line", loader, &one, &two]), (line.into(), String::new()));
        assert_eq!(run_files(["line", loader, &two, &one]), (line.into(), String::new()));
    }
    for loader in ["4", "401", "1", "0", "9999"] {
        assert_eq!(run_files(["line", loader, &one, &two]).0, "(refused 27 (line 0))\n");
    }
    let command = format!("'{0}' merge '{one}' '{two}' | '{0}'", path().display());
    let piped = Command::new("sh").args(["-c", &command]).output().unwrap().stdout;
    assert_eq!(piped, run(Asked::Plan, BOTH.as_bytes(), &[], None));
    assert!(piped.starts_with(b"(answer plan 3)\n"));
}

/// Each question of merging, its line, and the file that it is of.
#[test]
fn refusals() {
    let units = |from: u16, n: u16| Sheet::new(7, &vec![(1, 1); n as usize], &[]).numbered(&(from..from + n).collect::<Vec<_>>()).text();
    let rules = |from: u16, n: u16| {
        let all: Vec<(u16, u16, u16, u16)> = (1..=12).flat_map(|a| (a..=12).map(move |b| (a, b, 0, 9))).collect();
        Sheet::new(12, &[], &all[from as usize..(from + n) as usize]).text()
    };
    let pairs: [(Vec<u8>, Vec<u8>, &str, usize); 12] = [
        (b"(sheet 49)\n".to_vec(), TWO.into(), "(refused 6 (line 1))\n", 1),
        (ONE.into(), b"(note)\n(sheet 49)\n".to_vec(), "(refused 6 (line 2))\n", 2),
        (b"".to_vec(), b"(sheet 49)\n".to_vec(), "(refused 5 (line 0))\n", 1),
        (ONE.into(), b"".to_vec(), "(refused 5 (line 0))\n", 2),
        (ONE.into(), TWO.replace("sheet 7", "sheet 8").into(), "(refused 19 (line 2))\n", 2),
        (ONE.into(), TWO.replace("unit 40 ", "unit 12 ").into(), "(refused 20 (line 5))\n", 2),
        (units(1, 200), units(501, 101), "(refused 9 (line 102))\n", 2),
        (ONE.into(), TWO.replace("count 1 2", "count 6 9").into(), "(refused 21 (line 4))\n", 2),
        (TWO.replace("slots 2 2) (count 0 1", "slots 1 3) (count 3 4").into(), ONE.replace("slots 1 3", "slots 1 1").into(), "(refused 21 (line 0))\n", 1),
        (rules(0, 60), rules(59, 2), "(refused 10 (line 3))\n", 2),
        (ONE.into(), ONE.into(), "(refused 20 (line 2))\n", 2),
        (ONE.into(), b"(day 7)\n".to_vec(), "(refused 3 (line 1))\n", 2),
    ];
    for (i, (one, two, page, of)) in pairs.iter().enumerate() {
        let files = files(&format!("refused{i}"), one, two);
        assert_eq!(text_at_fault(one, merge(one, two).unwrap_err()), *of);
        assert_eq!(merged_page(one, two), page.as_bytes());
        // A line asks the same, whether the loader is there or not, and whatever number it is.
        for words in [vec!["merge"], vec!["line", "12"], vec!["line", "4"], vec!["line", "99999999999999999999"]] {
            let (got, said) = run_files(words.iter().copied().chain(files.iter().map(String::as_str)));
            assert_eq!(&got, page, "{words:?}");
            assert_eq!(said_fault(one, &files, page, &said), None, "{words:?}");
        }
    }
}

/// Pairs at random: the page, what is said beside it, and that the merged sheet is planned as the model's.
#[test]
fn pairs_at_random() {
    let mut tally = Tally::new("the program on pairs of sheets", seed(801));
    for i in 0..effort(800) {
        let mut r = Random::of_case(seed(801), i);
        let (one, two) = texts(&mut r);
        let answered = merge(&one, &two);
        tally.add(answered.as_ref().map_or_else(|refusal| refusal.number, |_| 0), "merged");
        assert_eq!(merging_fault("random", &one, &two), None, "seed {} case {i}", seed(801));
        let loaders = answered.map_or(vec![1], |sheet| sheet.loaders());
        let loader = if loaders.is_empty() || r.chance(20) { r.between(0, 20_000) } else { *r.pick(&loaders) as usize };
        assert_eq!(line_fault("random", loader, &one, &two), None, "seed {} case {i}", seed(801));
        if i % 8 == 0 {
            let page = merged_page(&one, &two);
            assert_eq!(answered_fault(&page, &answer(House::Ours, &page)), None, "seed {} case {i}", seed(801));
        }
    }
    tally.report();
    for number in [9, 10, 19, 20, 21] {
        assert!(tally.refused_by(number) > 0, "{number} refuses too seldom");
    }
    assert!(4 * tally.count("merged") > tally.all());
}

/// `wave merge FIRST SECOND | wave` has the page of the model's merged sheet, plan or ring.
#[test]
fn merged_and_planned_through_a_pipe() {
    let mut planned = 0;
    for i in 0..effort(200) {
        let (one, two) = texts(&mut Random::of_case(seed(802), i));
        let [first, second] = files("piped", &one, &two);
        let command = format!("'{0}' merge '{first}' '{second}' 2>/dev/null | '{0}'", path().display());
        let piped = Command::new("sh").args(["-c", &command]).output().unwrap().stdout;
        assert_eq!(piped, run(Asked::Plan, &merged_page(&one, &two), &[], None), "seed {} case {i}", seed(802));
        planned += pair(&one, &two).is_ok() as usize;
    }
    assert!(4 * planned > effort(200));
}

/// Every line of the merged units of some pairs, small and large.
#[test]
fn every_line() {
    let mut lines = 0;
    for i in 0..effort(40) {
        let (one, two) = texts(&mut Random::of_case(seed(803), i));
        let Ok(sheet) = merge(&one, &two) else { continue };
        for loader in sheet.loaders().into_iter().take(60) {
            assert_eq!(line_fault("lines", loader as usize, &one, &two), None, "seed {} case {i}", seed(803));
            lines += 1;
        }
    }
    assert!(lines > 0);
}

/// LOADER is digits. A number past 9999 is in neither sheet, however long it is; it is not cut to one that is.
#[test]
fn loader_numbers() {
    // 1 and 9999 are what the numbers below would be, cut to 16, 32 or 64 bits, or to four digits.
    let sheet = |loaders: &[u16]| Sheet::new(4, &vec![(1, 4); loaders.len()], &[]).numbered(loaders).text();
    let [one, two] = files("numbers", &sheet(&[1, 9_999]), &sheet(&[1_000, 999]));
    for (loader, line) in [("1", 1), ("9999", 9_999), ("1000", 1_000), ("999", 999)] {
        assert_eq!(run_files(["line", loader, &one, &two]), (format!("(unit {line} (window 1 4))\n"), String::new()));
    }
    let long = ["1".repeat(30), "0".to_string() + &"9".repeat(60), "9".repeat(200)];
    let past = [
        "0", "2", "10000", "10001", "19999", "65535", "65536", "65537", "75535", "131073", "4294967296", "4294967297", "99999999999999999999",
        "18446744073709551615", "18446744073709551616", "18446744073709551617", "18446744073709561615", &long[0], &long[1], &long[2],
    ];
    for loader in past {
        let (page, _) = run_files(["line", loader, &one, &two]);
        assert_eq!(page, "(refused 27 (line 0))\n", "{loader}");
    }
    let none = ["", "4x", "+4", "-4", "x4", "x", " 1", "1 ", "1\n", "1.0", "0x1", "1e3", "(1)", "1,000", "１", "--", "line", "-1", "+1"];
    let not_text = [b"\xff".to_vec(), b"1\xff".to_vec(), b"\xb1".to_vec()].map(OsString::from_vec);
    for loader in none.iter().map(OsString::from).chain(not_text) {
        turned_down(&[OsString::from("line"), loader, OsString::from(&one), OsString::from(&two)]);
    }
}

/// Too few words and too many: the program says which words there are.
#[test]
fn words() {
    let [one, two] = files("words", ONE.as_bytes(), TWO.as_bytes());
    let (one, two) = (one.as_str(), two.as_str());
    let all: [&[&str]; 14] = [
        &["merge"], &["merge", one], &["merge", one, two, two], &["merge", one, two, ""], &["merge", "4017", one, two], &["line"], &["line", "4017"],
        &["line", "4017", one], &["line", one, two], &["line", "4017", one, two, two], &["Merge", one, two], &["merges", one, two],
        &["lines", "4017", one, two], &["plan", one, two],
    ];
    for words in all {
        turned_down(words);
    }
}

/// A file that is not there or cannot be read, as the first and as the second: nothing is written, and standard error names it.
#[test]
fn files_that_cannot_be_read() {
    let [one, two] = files("unreadable", ONE.as_bytes(), TWO.as_bytes());
    let own = folder("unreadable");
    let missing = own.join("missing.sheet").to_str().unwrap().to_string();
    let below = format!("{one}/below");
    let directory = own.join("directory");
    fs::create_dir_all(&directory).unwrap();
    let directory = directory.to_str().unwrap().to_string();
    for bad in [&missing, &below, &directory] {
        for head in [&["merge"][..], &["line", "4017"], &["line", "0"]] {
            let words = |first: &str, second: &str| [head, &[first, second]].concat().iter().map(|word| word.to_string()).collect::<Vec<_>>();
            for words in [words(bad, &two), words(&one, bad), words(bad, bad)] {
                let said = turned_down(&words);
                assert!(said.contains(bad.as_str()), "{words:?}: {said}");
            }
            // Of two such files at the least one is named.
            let said = turned_down(&words(bad, "/no/such/file"));
            assert!(said.contains(bad.as_str()) || said.contains("/no/such/file"), "{said}");
        }
    }
    turned_down(&["merge", "", &two]);
    turned_down(&["merge", &one, ""]);
    // A refused first sheet and a second file that is not there: there is no page either way.
    let broken = own.join("broken.sheet");
    fs::write(&broken, "(sheet 49)\n").unwrap();
    turned_down(&["merge", broken.to_str().unwrap(), &missing]);
}

/// A file of 16,001 bytes or more is too long, also one without an end, and one of 16,000 is not.
#[test]
fn files_that_are_too_long() {
    let long = |length: usize| format!("{ONE}(note {})\n", "x".repeat(length - ONE.len() - 8)).into_bytes();
    for length in [15_999, 16_000, 16_001, 16_002, 20_000, 32_000, 65_537, 1_000_000] {
        let text = long(length);
        assert_eq!(text.len(), length);
        let page = merged_page(&text, TWO.as_bytes());
        assert_eq!(page == b"(refused 1 (line 0))\n", length > 16_000);
        assert_eq!(merging_fault("long", &text, TWO.as_bytes()), None, "{length}");
        assert_eq!(merging_fault("long", TWO.as_bytes(), &text), None, "{length}");
        assert_eq!(merging_fault("long", &text, &text), None, "{length}");
        for loader in [40, 4_017, 5] {
            assert_eq!(line_fault("long", loader, &text, TWO.as_bytes()), None, "{length}");
            assert_eq!(line_fault("long", loader, TWO.as_bytes(), &text), None, "{length}");
        }
    }
    let [one, _] = files("endless", ONE.as_bytes(), b"");
    for (first, second) in [("/dev/zero", one.as_str()), (&one, "/dev/zero"), ("/dev/zero", "/dev/zero")] {
        assert_eq!(run_files(["merge", first, second]).0, "(refused 1 (line 0))\n");
    }
    assert_eq!(run_files(["merge", "/dev/null", &one]).0, "(refused 5 (line 0))\n");
    assert_eq!(run_files(["merge", &one, "/dev/null"]).0, "(refused 5 (line 0))\n");
}

/// Files that come in parts, as pipes do, and names of any bytes.
#[test]
fn files_of_other_kinds() {
    let [one, two] = files("pipes", ONE.as_bytes(), TWO.as_bytes());
    let slow = |file: &str| format!("<(head -c 20 '{file}'; sleep 0.05; tail -c +21 '{file}' | head -c 1; sleep 0.05; tail -c +22 '{file}')");
    for (words, page) in [("merge", BOTH), ("line 40", "(unit 40 (window 2 3))\n")] {
        let command = format!("'{}' {words} {} {}", path().display(), slow(&one), slow(&two));
        let piped = Command::new("bash").args(["-c", &command]).output().unwrap();
        assert_eq!(String::from_utf8_lossy(&piped.stdout), page);
    }
    for name in [b"a name with spaces".to_vec(), b"plan".to_vec(), "wägen".into(), vec![b'x'; 200]] {
        let odd = folder("pipes").join(OsString::from_vec(name));
        fs::write(&odd, ONE).unwrap();
        let (page, said) = run_files([OsStr::new("merge"), odd.as_os_str(), OsStr::new(&two)]);
        assert_eq!((page.as_str(), said.as_str()), (BOTH, ""), "{odd:?}");
    }
    // A path that is longer than most: it is read, or the program says that it is not.
    let mut deep = folder("pipes");
    while deep.as_os_str().len() < 1_500 {
        deep.push("y".repeat(200));
    }
    fs::create_dir_all(&deep).unwrap();
    let deep = deep.join("deep.sheet");
    fs::write(&deep, ONE).unwrap();
    let (page, said) = run_files([OsStr::new("merge"), deep.as_os_str(), OsStr::new(&two)]);
    assert!((page == BOTH && said.is_empty()) || (page.is_empty() && said.ends_with('\n')), "{page}{said}");
}

/// A path of Rattle's library is text, so a name that is no text cannot be opened; the program says so. (The command `tugrokt` reads such a file.)
#[test]
fn a_name_that_is_no_text() {
    let [one, two] = files("no_text", ONE.as_bytes(), TWO.as_bytes());
    let odd = folder("no_text").join(OsString::from_vec(b"\xff\xfe.sheet".to_vec()));
    fs::write(&odd, ONE).unwrap();
    for names in [[odd.as_os_str(), OsStr::new(&two)], [OsStr::new(&one), odd.as_os_str()]] {
        let (page, said) = run_files([OsStr::new("merge"), names[0], names[1]]);
        assert_eq!(page, "");
        assert!(said.starts_with("wave: cannot read ") && said.ends_with(": invalid filename\n"), "{said}");
    }
}
