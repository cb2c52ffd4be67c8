//! What surrounds a call: disks that are full, readers that are gone, streams that are closed, odd names, odd files, and terminals.

mod common;

use std::collections::BTreeMap;
use std::ffi::OsStr;
use std::fs;
use std::io::{Read, Write};
use std::os::unix::ffi::OsStrExt;
use std::path::{Path, PathBuf};
use std::process::{Command, Stdio};

use common::{end, folder_with, listed, run_in, sheet, shell, tugrokt, wave, Ended, REFUSED, THEIRS, THEIRS_AS_OURS};
use model::cases::{MERGED, P2_FITS_PAGE, P2_PAGE, P4_PAGE, PAIR};
use model::random::{any_sheet, Random};
use model::seed;

/// A call of every word, and of what else writes to standard output, on the files of `sheets`.
const CALLS: [&str; 12] = [
    "plan a", "plan none", "plan refused", "fits a", "plan --partner theirs", "from-partner theirs", "to-partner ours", "merge one two", "line 40 one two",
    "--help", "plan --help", "--version",
];

fn sheets(name: &str) -> PathBuf {
    let (p2, p4) = (sheet("P2"), sheet("P4"));
    let files: [(&str, &[u8]); 8] = [
        ("a", &p2), ("b", &p2), ("none", &p4), ("refused", REFUSED.0), ("theirs", THEIRS.as_bytes()), ("ours", THEIRS_AS_OURS.as_bytes()),
        ("one", PAIR.0.as_bytes()), ("two", PAIR.1.as_bytes()),
    ];
    folder_with(name, &files)
}

/// Holds that a call has no page, ends with 3, and says this.
fn fails(ended: &Ended, said: &str, of: &str) {
    assert_eq!((ended.status, ended.page.as_str()), (3, ""), "{of}: {}", ended.said);
    assert!(ended.said.contains(said) && ended.said.ends_with('\n'), "{of}: {}", ended.said);
}

/// On a full disk no word seems to have written its page.
#[test]
fn standard_output_is_full() {
    let folder = sheets("full output");
    for call in CALLS {
        fails(&shell(&folder, &format!("\"$T\" {call} >/dev/full")), "tugrokt: standard output: No space left on device", call);
    }
    fails(&shell(&folder, "\"$T\" plan a none b >/dev/full"), "standard output", "several");
    // Wrong use has no page to write.
    assert_eq!(shell(&folder, "\"$T\" >/dev/full").status, 64);
}

/// On a full disk no page is in the folder, in part or from an earlier call, and each file is said.
#[test]
fn the_folder_is_full() {
    let folder = sheets("full folder");
    fs::create_dir(folder.join("pages")).unwrap();
    fs::write(folder.join("pages/a.page"), "an earlier page").unwrap();
    let ended = shell(&folder, "trap '' XFSZ; ulimit -f 0; exec \"$T\" plan --to pages a none refused missing");
    fails(&ended, "tugrokt: 4 sheets: 4 failed\n", "full");
    assert!(["pages/a.page: ", "pages/none.page: ", "pages/refused.page: ", "missing: "].iter().all(|name| ended.said.contains(name)), "{}", ended.said);
    assert_eq!(listed(&folder.join("pages")), [""; 0]);
}

/// Where the disk fills up in the middle of a page, nothing of it is left, and the page of another sheet is whole.
#[test]
fn the_folder_fills_up() {
    let folder = sheets("filling folder");
    let units: String = (1..=300).map(|loader| format!("(unit {loader} (window 1 9))\n")).collect();
    fs::write(folder.join("long"), format!("(sheet 9)\n{units}")).unwrap();
    let ended = shell(&folder, "trap '' XFSZ; ulimit -f 2; exec \"$T\" plan --to pages long a");
    fails(&ended, "pages/long.page: ", "filling");
    assert!(ended.said.ends_with("tugrokt: 2 sheets: 1 planned, 1 failed\n"), "{}", ended.said);
    assert_eq!(listed(&folder.join("pages")), ["a.page"]);
    assert_eq!(fs::read_to_string(folder.join("pages/a.page")).unwrap(), P2_PAGE);
}

/// A chart that cannot be written is said, and counts; the page is what it is, and no part of a chart is left.
#[test]
fn the_chart_cannot_be_written() {
    let folder = sheets("unwritten chart");
    fs::create_dir(folder.join("folder")).unwrap();
    let before = listed(&folder);
    for (call, name) in [
        ("\"$T\" plan --chart no/such/c.svg a", "no/such/c.svg"), ("\"$T\" plan --chart folder a", "folder"), ("\"$T\" plan --chart a/c.svg a", "a/c.svg"),
        ("\"$T\" plan --chart /dev/full a", "/dev/full"), ("trap '' XFSZ; ulimit -f 0; exec \"$T\" plan --chart c.svg a", "c.svg"),
        ("trap '' XFSZ; ulimit -f 2; exec \"$T\" plan --chart c.svg a", "c.svg"),
    ] {
        let ended = shell(&folder, call);
        assert_eq!((ended.status, ended.page.as_str()), (3, P2_PAGE), "{call}: {}", ended.said);
        assert!(ended.said.starts_with(&format!("tugrokt: {name}: ")) && ended.said.lines().count() == 1, "{call}: {}", ended.said);
        assert_eq!(listed(&folder), before, "{call}");
    }
}

/// A chart that goes to where the page goes stands before it, whatever name that has; a link to a chart stays a link.
#[test]
fn the_chart_goes_through_a_link() {
    let folder = sheets("linked chart");
    let line = "ln -s /proc/self/fd/1 out; ln -s real.svg link.svg; echo old >real.svg; \"$T\" plan --chart out a >both; \"$T\" plan --chart link.svg a";
    assert_eq!(shell(&folder, line), Ended::new(0, P2_PAGE, ""));
    let real = fs::read_to_string(folder.join("real.svg")).unwrap();
    assert_eq!(fs::read_to_string(folder.join("both")).unwrap(), [&real, P2_PAGE].concat());
    assert!(real.contains("<svg") && ["out", "link.svg"].iter().all(|name| fs::symlink_metadata(folder.join(name)).unwrap().is_symlink()));
}

/// Where nobody reads the page any more, a call ends with 3 and without a word.
#[test]
fn nobody_reads() {
    let folder = sheets("closed pipe");
    // A refusal is said whether its page is read or not.
    for call in CALLS.iter().filter(|call| **call != "plan refused") {
        let ended = shell(&folder, &format!("{{ sleep 0.05; \"$T\" {call}; echo \"$?\" >status; }} | :"));
        assert_eq!(ended.said, "", "{call}");
        assert_eq!(fs::read_to_string(folder.join("status")).unwrap(), "3\n", "{call}");
    }
    let many = "a ".repeat(3_000);
    let ended = shell(&folder, &format!("\"$T\" plan {many} | head -n 1; echo \"${{PIPESTATUS[0]}}\""));
    assert_eq!(ended, Ended::new(0, "(answer plan 2)\n3\n", ""));
}

/// A reader may go in the middle of several files: what follows is not asked for.
#[test]
fn a_reader_goes() {
    let folder = sheets("going reader");
    for jobs in ["-j1", "-j2", "-j5"] {
        let words = ["plan", jobs, "a", "none", "-", "missing", "b"];
        let mut child = tugrokt().args(words).current_dir(&folder).stdin(Stdio::piped()).spawn().unwrap();
        let mut first = vec![0; P2_PAGE.len() + P4_PAGE.len()];
        let mut reader = child.stdout.take().unwrap();
        reader.read_exact(&mut first).unwrap();
        assert_eq!(String::from_utf8(first).unwrap(), [P2_PAGE, P4_PAGE].concat());
        drop(reader);
        child.stdin.take().unwrap().write_all(&sheet("P2")).unwrap();
        assert_eq!(end(child), Ended::new(3, "", ""), "{jobs}");
    }
}

/// A folder in place of a file, and a file that is not there, are said by their name.
#[test]
fn no_such_file() {
    let folder = sheets("no file");
    for (name, why) in [("missing", "No such file"), (".", "Is a directory"), ("a/b", "Not a directory"), ("loop", "")] {
        let _ = std::os::unix::fs::symlink("loop", folder.join("loop"));
        let calls: [&[&str]; 9] = [
            &["plan", name], &["fits", name], &["plan", "--partner", name], &["from-partner", name], &["to-partner", name], &["merge", name, "one"],
            &["merge", "one", name], &["line", "40", name, "two"], &["line", "40", "one", name],
        ];
        for call in calls {
            fails(&run_in(&folder, call, b""), &format!("tugrokt: {name}: {why}"), &format!("{call:?}"));
        }
    }
    fails(&shell(&folder, "\"$T\" plan <."), "tugrokt: standard input: Is a directory", "a folder as standard input");
}

/// A closed stream is no empty sheet and no place for a page. One that is not needed may be closed.
#[test]
fn closed_streams() {
    let folder = sheets("closed streams");
    for call in CALLS {
        fails(&shell(&folder, &format!("\"$T\" {call} >&-")), "tugrokt: standard output: it is closed", call);
        let open = shell(&folder, &format!("\"$T\" {call}"));
        assert_eq!(shell(&folder, &format!("\"$T\" {call} <&-")), open, "{call}");
        let unheard = Ended { said: String::new(), ..open };
        assert_eq!(shell(&folder, &format!("\"$T\" {call} 2>&-")), unheard, "{call}");
    }
    for call in ["plan", "plan -", "fits", "plan --partner", "from-partner", "to-partner -", "merge - two", "line 40 one -"] {
        fails(&shell(&folder, &format!("\"$T\" {call} <&-")), "tugrokt: standard input: it is closed", call);
    }
    let among = shell(&folder, "\"$T\" plan a - none <&-");
    assert_eq!(among, Ended::new(3, &[P2_PAGE, P4_PAGE].concat(), "tugrokt: standard input: it is closed\n"));
    assert_eq!(shell(&folder, "\"$T\" plan missing 2>&-"), Ended::new(3, "", ""));
    assert_eq!(shell(&folder, "\"$T\" plan >&- 2>&- <&-"), Ended::new(3, "", ""));
    assert_eq!(shell(&folder, "\"$T\" 2>&-"), Ended::new(64, "", ""));
}

/// Pages that go to a folder need no standard output, nor a standard error to be told of.
#[test]
fn closed_streams_beside_a_folder() {
    let folder = sheets("closed beside");
    let summary = "tugrokt: 2 sheets: 1 planned, 1 none\n";
    for (closed, said) in [(">&-", summary), ("<&-", summary), ("2>&-", ""), (">&- 2>&- <&-", "")] {
        let _ = fs::remove_dir_all(folder.join("pages"));
        assert_eq!(shell(&folder, &format!("\"$T\" plan --to pages a none {closed}")), Ended::new(1, "", said), "{closed}");
        assert_eq!(listed(&folder.join("pages")), ["a.page", "none.page"]);
    }
}

/// A stream that is open the wrong way round is like a closed one.
#[test]
fn streams_open_the_wrong_way() {
    let folder = sheets("wrong way");
    for call in CALLS {
        fails(&shell(&folder, &format!("\"$T\" {call} 1<a")), "tugrokt: standard output: ", call);
    }
    for call in ["plan", "from-partner", "merge one -"] {
        fails(&shell(&folder, &format!("\"$T\" {call} 0>written")), "tugrokt: standard input: ", call);
    }
}

/// Where the folder for the pages cannot be made there is no page, and no file is asked after.
#[test]
fn no_such_folder() {
    let folder = sheets("no folder");
    let before = listed(&folder);
    for to in ["a", "a/pages", "/proc/pages", "/dev/null"] {
        let ended = run_in(&folder, &["plan", "--to", to, "a", "missing"], b"");
        fails(&ended, &format!("tugrokt: {to}: "), to);
        assert_eq!(ended.said.lines().count(), 1, "{}", ended.said);
    }
    // A folder has the name of a page.
    fs::create_dir_all(folder.join("pages/a.page/full")).unwrap();
    let ended = run_in(&folder, &["plan", "--to", "pages", "a", "none"], b"");
    fails(&ended, "tugrokt: pages/a.page: ", "a folder");
    assert!(ended.said.ends_with("tugrokt: 2 sheets: 1 none, 1 failed\n"), "{}", ended.said);
    assert_eq!(listed(&folder.join("pages")), ["a.page", "none.page"]);
    fs::remove_dir_all(folder.join("pages")).unwrap();
    assert_eq!(listed(&folder), before);
}

/// Two calls at once may write the same pages: whoever looks meanwhile finds a page whole or not at all.
#[test]
fn two_calls_at_once() {
    let folder = sheets("two at once");
    let mut pages = BTreeMap::new();
    for i in 0..120 {
        let text = any_sheet(&mut Random::of_case(seed(0xd1), i)).text();
        fs::write(folder.join(format!("s{i}")), &text).unwrap();
        pages.insert(format!("s{i}"), wave::<&str>(&[], &text));
    }
    let start = || tugrokt().args(["plan", "-j2", "--to", "pages"]).args(pages.keys()).current_dir(&folder).spawn().unwrap();
    let mut calls = [start(), start(), start()];
    let whole = || pages.iter().filter(|(name, page)| {
        let found = fs::read_to_string(folder.join(format!("pages/{name}.page")));
        assert!(found.as_ref().map_or(true, |found| found == *page), "{name}: {found:?}");
        found.is_ok()
    }).count();
    while calls.iter_mut().any(|call| call.try_wait().unwrap().is_none()) {
        whole();
    }
    assert_eq!(whole(), pages.len());
    assert_eq!(listed(&folder.join("pages")).len(), pages.len());
    for call in calls {
        let Ended { status, said, .. } = end(call);
        assert_eq!((status, said.lines().count()), (1, 1), "{said}");
    }
}

/// A page or a chart that would take the place of a sheet of the call is wrong use, by whatever name, and nothing is written.
#[test]
fn sheets_are_spared() {
    let folder = sheets("spared");
    fs::write(folder.join("a.page"), sheet("P4")).unwrap();
    let made = shell(&folder, "mkdir pages && ln -s ../b pages/none.page && ln -s a link.svg");
    assert_eq!(made.status, 0, "{}", made.said);
    for (call, name) in [
        ("plan --to . a a.page", "./a.page"), ("fits --to ./pages/.. a a.page", "./pages/../a.page"), ("plan --to pages none b", "pages/none.page"),
        ("plan --chart a a", "a"), ("plan --chart ./a a", "./a"), ("plan --chart link.svg a", "link.svg"),
    ] {
        let Ended { status, page, said } = shell(&folder, &format!("\"$T\" {call}"));
        assert_eq!((status, page.as_str()), (64, ""), "{call}: {said}");
        assert!(said.starts_with(&format!("tugrokt: {name} is a sheet of the call")), "{call}: {said}");
    }
    assert!(["a", "b"].iter().all(|name| fs::read(folder.join(name)).unwrap() == sheet("P2")));
    assert!(["a.page", "none"].iter().all(|name| fs::read(folder.join(name)).unwrap() == sheet("P4")));
    assert_eq!(listed(&folder.join("pages")), ["none.page"]);
}

/// A name may be any bytes, and its page has the same with `.page` behind.
#[test]
fn odd_names() {
    let folder = sheets("odd names");
    let long = "n".repeat(250);
    let names: [&[u8]; 9] =
        [b"with spaces ", b"with\na line feed", b"not \xff UTF-8 \xc3", "gr\u{fc}n".as_bytes(), b"-j", b"*", b"'\"$(x)\\", b".hidden", long.as_bytes()];
    for name in names {
        let name = OsStr::from_bytes(name);
        fs::write(folder.join(name), sheet("P2")).unwrap();
        assert_eq!(run_in(&folder, &[OsStr::new("plan"), OsStr::new("--"), name], b""), Ended::new(0, P2_PAGE, ""), "{name:?}");
        let words = [OsStr::new("fits"), OsStr::new("--to=pages"), OsStr::new("--"), name];
        assert_eq!(run_in(&folder, &words, b""), Ended::new(0, "", "tugrokt: 1 sheet: 1 fit\n"), "{name:?}");
        let page = Path::new("pages").join(OsStr::from_bytes(&[name.as_bytes(), b".page"].concat()));
        assert_eq!(fs::read_to_string(folder.join(page)).unwrap(), P2_FITS_PAGE, "{name:?}");
        let _ = fs::remove_file(folder.join(name));
        fails(&run_in(&folder, &[OsStr::new("plan"), OsStr::new("--"), name], b""), "No such file", &format!("{name:?}"));
    }
    assert_eq!(listed(&folder.join("pages")).len(), names.len());
    // A folder may be named so too.
    let to = OsStr::from_bytes(b"--to=\xff\n");
    assert_eq!(run_in(&folder, &[OsStr::new("plan"), to, OsStr::new("a")], b"").status, 0);
    assert_eq!(fs::read_to_string(folder.join(OsStr::from_bytes(b"\xff\n")).join("a.page")).unwrap(), P2_PAGE);
}

/// Sheets may come from what is no plain file: standard input by name, named pipes, and pipes of the shell.
#[test]
fn pipes_as_files() {
    let folder = sheets("pipes");
    assert_eq!(run_in(&folder, &["plan", "/dev/stdin"], &sheet("P4")), Ended::new(1, P4_PAGE, ""));
    assert_eq!(run_in(&folder, &["fits", "a", "/dev/fd/0"], &sheet("P4")), Ended::new(1, &[P2_FITS_PAGE, P4_PAGE].concat(), ""));
    assert_eq!(shell(&folder, "mkfifo pipe; (sleep 0.1; cat a >pipe) & \"$T\" plan none pipe a"), Ended::new(1, &[P4_PAGE, P2_PAGE, P2_PAGE].concat(), ""));
    assert_eq!(shell(&folder, "cat a >pipe & \"$T\" plan --to pages pipe; cat pages/pipe.page").page, P2_PAGE);
    assert_eq!(shell(&folder, "\"$T\" merge <(cat one) <(cat two)"), Ended::new(0, MERGED, ""));
    assert_eq!(shell(&folder, "(cat a; sleep 0.1; cat /dev/null) | \"$T\" plan | cat"), Ended::new(0, P2_PAGE, ""));
}

/// A text of 16,000 bytes is planned; a longer one is refused, and one without an end too.
#[test]
fn long_texts() {
    let folder = sheets("long");
    let mut text = sheet("P2");
    text.extend(format!("(note {})\n", "x".repeat(16_000 - text.len() - 8)).bytes());
    assert_eq!(text.len(), 16_000);
    assert_eq!(run_in(&folder, &["plan"], &text), Ended::new(0, P2_PAGE, ""));
    text.push(b'\n');
    fs::write(folder.join("long"), &text).unwrap();
    let calls = ["plan long", "fits long", "plan /dev/zero", "plan </dev/zero", "plan --partner /dev/zero", "from-partner long", "to-partner /dev/zero",
        "merge one /dev/zero", "line 40 /dev/zero two", "merge long two"];
    for call in calls {
        let ended = shell(&folder, &format!("\"$T\" {call}"));
        assert_eq!((ended.status, ended.page.as_str()), (2, "(refused 1 (line 0))\n"), "{call}");
        assert!(ended.said.contains("16,000") && ended.said.len() < 2_000, "{call}: {}", ended.said);
    }
    assert_eq!(shell(&folder, "yes '(note)' | \"$T\" plan").page, "(refused 1 (line 0))\n");
}

/// Runs a line of the shell on a terminal of its own, and gives its status and what was shown there.
fn on_a_terminal(folder: &Path, line: &str) -> Option<(i32, String)> {
    let mut script = Command::new("script");
    script.args(["-qec", line, "/dev/null"]).current_dir(folder).env("T", env!("CARGO_BIN_EXE_tugrokt")).env("SHELL", "/bin/bash");
    let output = script.stdin(Stdio::null()).output().ok()?;
    Some((output.status.code().unwrap(), String::from_utf8_lossy(&output.stdout).into_owned()))
}

/// On a terminal it is shown how many of how many are done, and in the end only the summary stands there. Elsewhere nothing of this is said.
#[test]
fn progress() {
    let folder = sheets("progress");
    let line = "(sleep 0.4; cat a >pipe) & exec \"$T\" plan -j1 --to pages a none pipe b";
    assert_eq!(shell(&folder, &format!("mkfifo pipe; {line}")), Ended::new(1, "", "tugrokt: 4 sheets: 3 planned, 1 none\n"));
    let Some((status, shown)) = on_a_terminal(&folder, line) else {
        eprintln!("there is no script(1) to make a terminal");
        return;
    };
    assert_eq!(status, 1, "{shown:?}");
    let parts: Vec<&str> = shown.split("\r\x1b[K").collect();
    assert_eq!(parts.last(), Some(&"tugrokt: 4 sheets: 3 planned, 1 none\r\n"), "{shown:?}");
    assert_eq!((parts[0], parts[1]), ("", "1 of 4: 1 planned"), "{shown:?}");
    assert!(parts.contains(&"3 of 4: 2 planned, 1 none"), "{shown:?}");
    // Only where pages go to a folder: else they would stand among them.
    let (_, shown) = on_a_terminal(&folder, "exec \"$T\" plan a none b").unwrap();
    assert!(!shown.contains("\x1b") && !shown.contains(" of "), "{shown:?}");
}

/// What is said between two shows of the progress stands on a line of its own.
#[test]
fn words_between_progress() {
    let folder = sheets("progress words");
    let Some((status, shown)) = on_a_terminal(&folder, "exec \"$T\" plan -j1 --to pages a missing b") else { return };
    assert_eq!(status, 3, "{shown:?}");
    assert!(shown.contains("1 of 3: 1 planned\r\x1b[Ktugrokt: missing: No such file or directory\r\n"), "{shown:?}");
    assert!(shown.ends_with("\r\x1b[Ktugrokt: 3 sheets: 2 planned, 1 failed\r\n"), "{shown:?}");
}

/// A call that waits for somebody to type a sheet says so.
#[test]
fn a_sheet_from_the_terminal() {
    let folder = sheets("typed");
    let Some((status, shown)) = on_a_terminal(&folder, "exec \"$T\" plan") else { return };
    assert!(shown.contains("reading a sheet from the terminal") && status == 2, "{status}: {shown:?}");
}
