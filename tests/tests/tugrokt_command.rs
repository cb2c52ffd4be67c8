//! The script `./tugrokt`: what it hands on to the command and from it, many calls at once, and how the command is built. `plan_command.rs` has `./plan`.

use std::ffi::OsStr;
use std::fs::{self, File, Permissions};
use std::os::unix::fs::{symlink, PermissionsExt};
use std::path::{Path, PathBuf};
use std::process::{Child, Command, Output, Stdio};
use std::sync::{Mutex, Once};

use model::cases::{self, MERGED, P2_FITS_PAGE, P2_PAGE, P4_PAGE, PAIR};
use model::house::House;
use model::room::outside;
use model::sheet::Sheet;

/// Held while commands are written and while one is started: until a child runs its program it has all that its parent had open, and
/// a file that is open for writing cannot be run.
static STARTING: Mutex<()> = Mutex::new(());

fn spawn(command: &mut Command) -> Child {
    let _alone = STARTING.lock().unwrap();
    command.stdout(Stdio::piped()).stderr(Stdio::piped()).spawn().expect("the command starts")
}

fn end(child: Child) -> (i32, String, String) {
    let Output { status, stdout, stderr } = child.wait_with_output().expect("the command ends");
    (status.code().expect("no signal"), String::from_utf8(stdout).unwrap(), String::from_utf8(stderr).unwrap())
}

/// A script of the repository, on a tree where there is nothing left to prove or to build.
fn script(name: &str) -> Command {
    static BUILT: Once = Once::new();
    let root = Path::new(env!("ROOT"));
    BUILT.call_once(|| {
        let (status, _, said) = end(spawn(Command::new(root.join("tugrokt")).arg("--version").stdin(Stdio::null())));
        assert_eq!(status, 0, "{said}");
    });
    let mut command = Command::new(root.join(name));
    command.stdin(Stdio::null());
    command
}

/// Starts a script with these words on a text. It stands in a file, so that nothing has to feed a pipe.
fn start(name: &str, words: &[&str], file: &str, text: &[u8]) -> Child {
    let path = Path::new(env!("CARGO_TARGET_TMPDIR")).join(format!("{file}.sheet"));
    fs::write(&path, text).unwrap();
    spawn(script(name).args(words).stdin(File::open(path).unwrap()))
}

/// Runs it.
fn run(name: &str, words: &[&str], file: &str, text: &[u8]) -> (i32, String, String) {
    end(start(name, words, file, text))
}

/// A folder of a test's own with these files.
fn folder(name: &str, files: &[(&str, &str)]) -> PathBuf {
    let folder = outside(&format!("tugrokt/{name}"));
    for (name, text) in files {
        fs::write(folder.join(name), text).unwrap();
    }
    folder
}

/// Runs a line of the shell in a folder, on a tree that is built; `$R` is the repository.
fn shell(folder: &Path, line: &str) -> (i32, String, String) {
    script("tugrokt");
    end(spawn(Command::new("bash").args(["-c", line]).current_dir(folder).env("R", env!("ROOT")).stdin(Stdio::null())))
}

/// `tugrokt plan` writes the page to standard output, and its status is the answer. Only of a refused sheet something is said.
#[test]
fn the_status_is_the_answer() {
    let (p2, p4) = (cases::named("P2").sheet.text(), cases::named("P4").sheet.text());
    assert_eq!(run("tugrokt", &["plan"], "planned", &p2), (0, P2_PAGE.into(), String::new()));
    assert_eq!(run("tugrokt", &["plan"], "not_planned", &p4), (1, P4_PAGE.into(), String::new()));
    // A byte 0 in the sheet is no trouble to the shell.
    for (text, page) in [(&b"(sheet 49)\n"[..], "(refused 6 (line 1))\n"), (b"", "(refused 5 (line 0))\n"), (b"(sheet 4)\0\n", "(refused 2 (line 1))\n")] {
        let (status, got, said) = run("tugrokt", &["plan"], "refused_plan", text);
        assert_eq!((status, got.as_str()), (2, page));
        assert!(said.contains("standard input"), "{said}");
    }
}

/// The first command of README.md plans the sheet of README.md.
#[test]
fn the_first_command() {
    assert!(fs::read_to_string(Path::new(env!("ROOT")).join("README.md")).unwrap().contains("./plan < docs/first.sheet"));
    assert_eq!(shell(Path::new(env!("ROOT")), "./plan < docs/first.sheet"), (0, P2_PAGE.into(), String::new()));
}

/// Options and files are handed on as they are.
#[test]
fn words_of_plan() {
    let p2 = String::from_utf8(cases::named("P2").sheet.text()).unwrap();
    let folder = folder("words of plan", &[("a b", &p2), ("c", &p2)]);
    let plan = |words: &[&str]| end(spawn(script("tugrokt").arg("plan").args(words).current_dir(&folder)));
    assert_eq!(plan(&["a b"]), (0, P2_PAGE.into(), String::new()));
    assert_eq!(plan(&["--", "a b", "c"]).1, [P2_PAGE, P2_PAGE].concat());
    let (status, page, said) = plan(&["--help"]);
    assert!(status == 0 && page.contains("tugrokt plan") && said.is_empty(), "{page}{said}");
    assert_eq!(plan(&["--to", "the pages", "a b", "c"]), (0, String::new(), "tugrokt: 2 sheets: 2 planned\n".into()));
    assert_eq!(fs::read_to_string(folder.join("the pages/a b.page")).unwrap(), P2_PAGE);
    for words in [&["--bogus"][..], &["-j", "0"], &["-", "-"]] {
        let (status, page, said) = plan(words);
        assert_eq!((status, page.as_str()), (64, ""), "{words:?}");
        assert!(said.ends_with("tugrokt: see tugrokt plan --help\n"), "{said}");
    }
    // What is a word of ./plan is a file that is not there.
    for words in [&["fits"][..], &["merge", "c"], &[""]] {
        let (status, _, said) = plan(words);
        assert!(status == 3 && said.starts_with("tugrokt: "), "{words:?}: {said}");
    }
}

/// `./tugrokt` with every word; without one, or with another, it says where to find them.
#[test]
fn words_of_tugrokt() {
    let (p2, p4) = (cases::named("P2").sheet.text(), cases::named("P4").sheet.text());
    let theirs = "(day 7)\n(note)\n(job 4017 (start 3) (hours 2))\n(limit (from 1) (hours 3) (most 2))\n";
    let (ours, back) = ("(sheet 7)\n(unit 4017 (window 3 4))\n(rule (slots 1 3) (count 0 2))\n", theirs.replace("(note)\n", ""));
    let cases: [(&[&str], &[u8], i32, &str); 6] = [
        (&["plan"], &p2, 0, P2_PAGE), (&["fits"], &p2, 0, P2_FITS_PAGE), (&["fits", "-"], &p4, 1, P4_PAGE), (&["from-partner"], theirs.as_bytes(), 0, ours),
        (&["to-partner"], ours.as_bytes(), 0, &back), (&["plan"], &p4, 1, P4_PAGE),
    ];
    for (i, (words, text, status, page)) in cases.into_iter().enumerate() {
        assert_eq!(run("tugrokt", words, &format!("word{i}"), text), (status, page.into(), String::new()), "{words:?}");
    }
    let (status, page, _) = run("tugrokt", &["plan", "--partner"], "partner", theirs.as_bytes());
    assert!(status == 0 && page.starts_with("(answer plan 1)\n(unit 4017 (slot 3) (between 3 4))\n"), "{page}");
    let (status, page, said) = run("tugrokt", &["--help"], "help", b"");
    assert!(status == 0 && page.contains("from-partner") && said.is_empty(), "{page}{said}");
    for words in [&[][..], &[""], &["fit"], &["partner"], &["docs/first.sheet"]] {
        let (status, page, said) = run("tugrokt", words, "no word", &p2);
        assert_eq!((status, page.as_str()), (64, ""), "{words:?}");
        assert!(said.ends_with("tugrokt: see tugrokt --help\n"), "{said}");
    }
    // The longest sheet of theirs is a whole page too.
    let longest = Sheet::new(48, &[(10, 48); 300], &[(10, 48, 0, 300); 60]).numbered(&(9_700..=9_999).collect::<Vec<_>>());
    let expected = String::from_utf8(longest.text_for(House::Partner)).unwrap();
    assert_eq!(run("tugrokt", &["to-partner"], "longest", &longest.text()), (0, expected, String::new()));
}

/// Two sheets are merged, and the line of a unit is shown. Names of files are those of the folder that the script is called in.
#[test]
fn two_sheets() {
    let folder = folder("two sheets", &[("one", PAIR.0), ("two", PAIR.1), ("broken", "(sheet 49)\n")]);
    let absolute = folder.join("two");
    let tugrokt = |words: &[&str]| end(spawn(script("tugrokt").args(words).current_dir(&folder)));
    for (first, second) in [("one", "two"), ("./one", "../two sheets/two"), ("one", absolute.to_str().unwrap())] {
        assert_eq!(tugrokt(&["merge", first, second]), (0, MERGED.into(), String::new()));
        assert_eq!(tugrokt(&["line", "40", first, second]), (0, "(unit 40 (window 2 3))\n".into(), String::new()));
    }
    for (words, page) in [
        (&["merge", "one", "one"][..], "(refused 20 (line 2))\n"), (&["merge", "broken", "two"], "(refused 6 (line 1))\n"),
        (&["line", "40", "two", "broken"], "(refused 6 (line 1))\n"), (&["line", "41", "one", "two"], "(refused 27 (line 0))\n"),
    ] {
        let (status, got, said) = tugrokt(words);
        assert!(status == 2 && got == page && !said.is_empty(), "{words:?}: {got}{said}");
    }
    for (words, status) in [(&["merge", "one", "three"][..], 3), (&["merge", ".", "two"], 3), (&["line", "x", "one", "two"], 64), (&["merge", "one"], 64)] {
        let (got, page, said) = tugrokt(words);
        assert!(got == status && page.is_empty() && said.ends_with('\n'), "{words:?}: {page}{said}");
    }
    // What is merged is planned, by paths that lead to the scripts from here.
    let (status, page, said) = shell(&folder, "ln -s \"$R\" repository; repository/tugrokt merge one two | repository/plan");
    assert_eq!((status, said.as_str()), (0, ""));
    assert!(page.starts_with("(answer plan 3)\n"), "{page}");
}

/// What cannot be read or written is said, and is no answer: the scripts are in the way of neither stream.
#[test]
fn reading_or_writing_fails() {
    let root = Path::new(env!("ROOT"));
    for (line, why) in [
        ("./tugrokt plan </", "standard input: Is a directory"), ("./tugrokt plan <docs/first.sheet >/dev/full", "standard output: No space left on device"),
        ("./tugrokt --help >/dev/full", "standard output: No space left on device"), ("./tugrokt plan <&-", "standard input: it is closed"),
        ("./tugrokt plan docs/first.sheet >&-", "standard output: it is closed"), ("./tugrokt from-partner missing", "missing: No such file or directory"),
    ] {
        assert_eq!(shell(root, line), (3, String::new(), format!("tugrokt: {why}\n")), "{line}");
    }
    assert_eq!(shell(root, "{ sleep 0.1; ./tugrokt plan docs/first.sheet; echo \"$?\" >&2; } | :"), (0, String::new(), "3\n".into()));
    assert_eq!(shell(root, "./tugrokt plan docs/first.sheet 2>&-"), (0, P2_PAGE.into(), String::new()));
}

/// On a built tree nothing is proved or built, and calls do not disturb each other.
#[test]
fn many_at_once() {
    let sheets: Vec<Vec<u8>> = cases::all().iter().map(|case| case.sheet.text()).collect();
    let pages: Vec<(i32, String, String)> = sheets.iter().enumerate().map(|(i, text)| run("tugrokt", &["plan"], &format!("one_call{i}"), text)).collect();
    let calls: Vec<Child> = sheets.iter().enumerate().map(|(i, text)| start("tugrokt", &["plan"], &format!("many_calls{i}"), text)).collect();
    for (call, alone) in calls.into_iter().zip(pages) {
        assert!(alone.2.is_empty(), "{}", alone.2);
        assert_eq!(end(call), alone);
    }
}

// A small tree with the scripts and a kit of its own, whose `rt` and `cargo` are shell scripts: they note how they are called.

/// Proves two crates and writes a library.
const PROVES: &str = "sleep 0.2
echo 'rt: chose --jobs 2 for low'
echo 'logic=proved functions=1'
echo 'rt: chose --jobs 2 for tugrokt'
echo 'logic=proved functions=1'
mkdir -p out
echo library >out/libtugrokt.a
";

/// Writes a program that tells which build it is of, and its words, to where cargo would.
const BUILDS: &str = "sleep 0.2
folder=${CARGO_TARGET_DIR:-target}
while [ $# -gt 0 ]; do
    [ \"$1\" != --target-dir ] || folder=$2
    shift
done
mkdir -p \"$folder/release\"
printf '#!/bin/sh\\nprintf \"build %s:\"\\nprintf \" <%%s>\" \"$@\"\\necho\\n' \"$(grep -c cargo \"$tree/calls\")\" >\"$folder/release/tugrokt\"
chmod +x \"$folder/release/tugrokt\"
";

/// Writes a program of the tree's kit.
fn kit(root: &Path, name: &str, does: &str) {
    let _alone = STARTING.lock().unwrap();
    let path = root.join("kit").join(name);
    fs::write(&path, format!("#!/bin/sh\ntree=$(dirname \"$0\")/..\necho \"{name} $1\" >>\"$tree/calls\"\n{does}")).unwrap();
    fs::set_permissions(path, Permissions::from_mode(0o755)).unwrap();
}

/// A tree whose `rt` and `cargo` run these scripts.
fn tree(name: &str, rt: &str, cargo: &str) -> PathBuf {
    let root = folder(name, &[("crates.txt", "# three crates\nlow:\nother: low\ntugrokt staticlib: low io os libc\n")]);
    for folder in ["crates/low", "crates/tugrokt", "bindings/src", "command/src", "kit"] {
        fs::create_dir_all(root.join(folder)).unwrap();
    }
    for file in ["crates/low/lib.rt", "bindings/src/lib.rs", "command/src/main.rs", "command/Cargo.toml"] {
        fs::write(root.join(file), "source").unwrap();
    }
    {
        let _alone = STARTING.lock().unwrap();
        fs::copy(Path::new(env!("ROOT")).join("tugrokt"), root.join("tugrokt")).unwrap();
    }
    kit(&root, "rt", rt);
    kit(&root, "cargo", cargo);
    root
}

/// A program or script that finds the tree's kit first.
fn with_kit(root: &Path, program: impl AsRef<OsStr>) -> Command {
    let path = format!("{}:{}", root.join("kit").display(), std::env::var("PATH").unwrap());
    let mut command = Command::new(program);
    command.env("PATH", path).env("R", root).env_remove("CARGO_TARGET_DIR").stdin(Stdio::null());
    command
}

/// Starts `./tugrokt plan` of a tree, with these words.
fn plan_in(root: &Path, words: &[&str]) -> Child {
    spawn(with_kit(root, root.join("tugrokt")).arg("plan").args(words))
}

/// How the kit of a tree was called since this was asked last.
fn calls(root: &Path) -> String {
    let calls = fs::read_to_string(root.join("calls")).unwrap_or_default();
    let seen = fs::read_to_string(root.join("seen")).unwrap_or_default();
    fs::write(root.join("seen"), &calls).unwrap();
    calls.strip_prefix(&seen).unwrap().to_string()
}

/// Writes a file that is newer than all that is there.
fn edit(root: &Path, file: &str) {
    std::thread::sleep(std::time::Duration::from_millis(20));
    fs::create_dir_all(root.join(file).parent().unwrap()).unwrap();
    fs::write(root.join(file), "newer").unwrap();
}

const BOTH: &str = "rt lib\ncargo build\n";

/// Runs six calls of a tree at once. Where they are held, all of them find that there is something to build before one of them begins.
fn six_at_once(root: &Path, held: bool) -> Vec<(i32, String, String)> {
    let crates = File::open(root.join("crates")).unwrap();
    if held {
        crates.lock_shared().unwrap();
    }
    let calls: Vec<Child> = (0..6).map(|_| plan_in(root, &[])).collect();
    if held {
        std::thread::sleep(std::time::Duration::from_millis(500));
        crates.unlock().unwrap();
    }
    calls.into_iter().map(end).collect()
}

/// One of many calls proves and builds, and tells how far it is; the others wait for it. After that there is nothing to do.
#[test]
fn one_call_builds() {
    for held in [false, true] {
        let root = tree(&format!("built {held}"), PROVES, BUILDS);
        let ends = six_at_once(&root, held);
        assert!(ends.iter().all(|e| e.0 == 0 && e.1 == "build 1: <plan>\n"), "{ends:?}");
        let told: Vec<&String> = ends.iter().map(|e| &e.2).filter(|said| !said.is_empty()).collect();
        assert_eq!(told.len(), 1, "{told:?}");
        let lines: Vec<&str> = told[0].lines().collect();
        assert!(lines[0].starts_with("tugrokt: proving "), "{lines:?}");
        assert_eq!(lines[1..], ["tugrokt: 1 of 2: low proved (0 s)", "tugrokt: 2 of 2: tugrokt proved (0 s)", "tugrokt: building the command"]);
        assert_eq!(calls(&root), BOTH);
        assert_eq!(end(plan_in(&root, &[])), (0, "build 1: <plan>\n".into(), String::new()));
        assert_eq!(calls(&root), "");
    }
}

/// Words are handed on one by one, from any folder and by any path.
#[test]
fn words_are_handed_on() {
    let root = tree("handed on", PROVES, BUILDS);
    let words = ["a b", "", "*", "--", "-j2", "$HOME", "line\nfeed"];
    assert_eq!(end(plan_in(&root, &words)).1, "build 1: <plan> <a b> <> <*> <--> <-j2> <$HOME> <line\nfeed>\n");
    for (folder, line, page) in [
        (".", "./tugrokt merge one two", "<merge> <one> <two>"), (".", "bash tugrokt plan x", "<plan> <x>"), ("crates", "../tugrokt", "<>"),
        ("crates/low", "../../tugrokt plan -", "<plan> <->"), ("/", "\"$R\"/tugrokt fits", "<fits>"),
    ] {
        let done = end(spawn(with_kit(&root, "bash").args(["-c", line]).current_dir(root.join(folder))));
        assert_eq!(done, (0, format!("build 1: {page}\n"), String::new()), "{line}");
    }
}

/// A script that is called through a link finds the repository that it is of, whatever `CDPATH` says.
#[test]
fn through_a_link() {
    let root = tree("linked", PROVES, BUILDS);
    settle(&root);
    let made = end(spawn(with_kit(&root, "bash").args(["-c", "mkdir -p links/main && ln -s ../tugrokt links"]).current_dir(&root)));
    assert_eq!(made.0, 0, "{}", made.2);
    for (line, page) in [("links/tugrokt plan x", "<plan> <x>"), ("links/tugrokt fits", "<fits>"), ("CDPATH=links; export CDPATH; ./tugrokt fits", "<fits>")] {
        let done = end(spawn(with_kit(&root, "bash").args(["-c", line]).current_dir(&root)));
        assert_eq!(done, (0, format!("build 1: {page}\n"), String::new()), "{line}");
    }
}

/// A call that runs holds up nobody who builds: here it runs until the next one, which builds, has ended.
#[test]
fn a_long_call() {
    let waiting = format!("{BUILDS}printf '[ \"$1\" != plan ] || while [ ! -e \"%s/go\" ]; do sleep 0.05; done\\n' \"$tree\" >>\"$folder/release/tugrokt\"\n");
    let root = tree("long", PROVES, &waiting);
    let long = plan_in(&root, &[]);
    while !root.join("target/bin/tugrokt").exists() {
        std::thread::sleep(std::time::Duration::from_millis(20));
    }
    edit(&root, "command/src/main.rs");
    let next = end(spawn(with_kit(&root, root.join("tugrokt")).arg("fits")));
    fs::write(root.join("go"), "").unwrap();
    assert_eq!((next.0, next.1.as_str()), (0, "build 2: <fits>\n"), "{}", next.2);
    assert_eq!(end(long).0, 0);
}

/// Only a newer source has something built again: of a crate the library and the command, of the command or the bindings the command alone.
#[test]
fn newer_sources() {
    let root = tree("newer", PROVES, BUILDS);
    for (builds, (file, called)) in (2..).zip([
        ("crates/low/lib.rt", BOTH), ("crates/new/lib.rt", BOTH), ("crates.txt", BOTH), ("command/src/main.rs", "cargo build\n"),
        ("bindings/src/lib.rs", "cargo build\n"), ("command/Cargo.toml", "cargo build\n"), ("command/src/new.rs", "cargo build\n"),
    ]) {
        settle(&root);
        edit(&root, file);
        let (status, page, said) = end(plan_in(&root, &[]));
        assert_eq!((status, page), (0, format!("build {builds}: <plan>\n")), "{file}: {said}");
        assert_eq!(calls(&root), called, "{file}");
        assert!(said.ends_with("tugrokt: building the command\n"), "{file}: {said}");
    }
    for file in ["command/src/new.rs", "bindings/src/lib.rs"] {
        // A file that is removed leaves its folder newer.
        settle(&root);
        std::thread::sleep(std::time::Duration::from_millis(20));
        fs::remove_file(root.join(file)).unwrap();
        assert_eq!(end(plan_in(&root, &[])).0, 0);
        assert_eq!(calls(&root), "cargo build\n", "{file}");
    }
}

/// Has everything built that there is to build.
fn settle(root: &Path) {
    assert_eq!(end(plan_in(root, &[])).0, 0);
    calls(root);
}

/// What is built, and what the command is not made of, has nothing built again.
#[test]
fn what_is_no_source() {
    let root = tree("no source", PROVES, BUILDS);
    for file in ["command/target/release/deps/x", "bindings/target/x", "crates/low/out/x", "docs/x", "tests/src/x", "target/x"] {
        fs::create_dir_all(root.join(file).parent().unwrap()).unwrap();
        settle(&root);
        edit(&root, file);
        assert_eq!(end(plan_in(&root, &[])).2, "", "{file}");
        assert_eq!(calls(&root), "", "{file}");
    }
}

/// What is edited while it is proved or built is newer than what was built.
#[test]
fn edited_meanwhile() {
    let edits = |script: &str, file: &str| format!("{script}[ -e \"$tree/once\" ] || {{ : >\"$tree/once\"; echo newer >\"$tree/{file}\"; }}\n");
    let root = tree("edited while proved", &edits(PROVES, "crates/low/lib.rt"), BUILDS);
    for called in [BOTH, BOTH, ""] {
        assert_eq!(end(plan_in(&root, &[])).0, 0);
        assert_eq!(calls(&root), called);
    }
    let root = tree("edited while built", PROVES, &edits(BUILDS, "command/src/main.rs"));
    for called in [BOTH, "cargo build\n", ""] {
        assert_eq!(end(plan_in(&root, &[])).0, 0);
        assert_eq!(calls(&root), called);
    }
}

/// Cargo may be told to build elsewhere, and the library to be taken from elsewhere: what is run is still what was proved and built here.
#[test]
fn cargo_is_told_otherwise() {
    let noting = format!("{BUILDS}echo \"library ${{TUGROKT_LIB_DIR:-here}}\" >>\"$tree/calls\"\n");
    let root = tree("told otherwise", PROVES, &noting);
    let plan = || end(spawn(with_kit(&root, root.join("tugrokt")).arg("plan").env("CARGO_TARGET_DIR", root.join("elsewhere")).env("TUGROKT_LIB_DIR", "/elsewhere")));
    for build in 1..=2 {
        let (status, page, said) = plan();
        assert_eq!((status, page), (0, format!("build {build}: <plan>\n")), "{said}");
        assert!(calls(&root).ends_with("cargo build\nlibrary here\n"));
        edit(&root, "command/src/main.rs");
    }
}

/// Holds that a tree has no page, not even of an older program, and says this in the end, as often as it is asked.
fn has_no_page(root: &Path, said: &str) {
    for _ in 0..2 {
        let (status, page, got) = end(plan_in(root, &[]));
        assert_eq!((status, page.as_str()), (3, ""), "{got}");
        assert!(got.ends_with(said), "{got}");
    }
}

/// Where the proof fails there is no page, and what the kit said is shown.
#[test]
fn a_proof_fails() {
    let root = tree("unproved", "echo 'rt: low NOT PROVED (exit 1, 2 s)'\nexit 1\n", BUILDS);
    let said = "rt: low NOT PROVED (exit 1, 2 s)\ntugrokt: the planner is not proved\n";
    has_no_page(&root, said);
    assert_eq!(calls(&root), "rt lib\nrt lib\n");
    // The same where it was proved once.
    let root = tree("unproved again", PROVES, BUILDS);
    assert_eq!(end(plan_in(&root, &[])).0, 0);
    edit(&root, "crates/low/lib.rt");
    kit(&root, "rt", "echo 'rt: low NOT PROVED (exit 1, 2 s)'\nexit 1\n");
    has_no_page(&root, said);
}

/// Where cargo fails there is no page, and what it said is shown. The library is proved once.
#[test]
fn cargo_fails() {
    let root = tree("unbuilt", PROVES, "echo 'error: expected one of'\necho 'error: could not compile' >&2\nexit 101\n");
    has_no_page(&root, "\nerror: expected one of\nerror: could not compile\ntugrokt: the command is not built\n");
    assert_eq!(calls(&root), [BOTH, "cargo build\n"].concat());
    let root = tree("unbuilt again", PROVES, BUILDS);
    assert_eq!(end(plan_in(&root, &[])).0, 0);
    edit(&root, "bindings/src/lib.rs");
    kit(&root, "cargo", "echo 'error: could not compile' >&2\nexit 101\n");
    has_no_page(&root, "\nerror: could not compile\ntugrokt: the command is not built\n");
}

/// A kit that ends well without what was asked of it is no success.
#[test]
fn nothing_is_built() {
    has_no_page(&tree("no library", "exit 0\n", BUILDS), "\ntugrokt: the library is not built\n");
    let (status, page, said) = end(plan_in(&tree("no program", PROVES, "exit 0\n"), &[]));
    assert_eq!((status, page.as_str()), (3, ""), "{said}");
    assert!(said.lines().last().unwrap().starts_with("tugrokt: "), "{said}");
    let root = tree("no target", PROVES, BUILDS);
    fs::write(root.join("target"), "a file").unwrap();
    has_no_page(&root, "tugrokt: target/ cannot be written\n");
}

/// Without `rt` or `cargo` on the machine this is said, where they are needed.
#[test]
fn no_kit() {
    let root = tree("no kit", PROVES, BUILDS);
    let tools = root.join("tools");
    fs::create_dir(&tools).unwrap();
    let all = ["bash", "sh", "awk", "cat", "chmod", "cp", "dirname", "env", "find", "flock", "grep", "mkdir", "mv", "readlink", "sleep", "touch", "wc"];
    for name in all {
        let found = std::env::split_paths(&std::env::var_os("PATH").unwrap()).map(|folder| folder.join(name)).find(|path| path.exists());
        symlink(found.unwrap_or_else(|| panic!("{name} is not on this machine")), tools.join(name)).unwrap();
    }
    let plan = || end(spawn(with_kit(&root, root.join("tugrokt")).arg("plan").env("PATH", &tools)));
    assert_eq!(plan(), (3, String::new(), "tugrokt: the Rattle kit (rt) is not on this machine\n".into()));
    symlink(root.join("kit/rt"), tools.join("rt")).unwrap();
    let (status, page, said) = plan();
    assert!(status == 3 && page.is_empty() && said.ends_with("tugrokt: cargo is not on this machine\n"), "{said}");
    symlink(root.join("kit/cargo"), tools.join("cargo")).unwrap();
    let (status, page, said) = plan();
    assert!(status == 0 && page.starts_with("build ") && said == "tugrokt: building the command\n", "{page}{said}");
    for name in ["rt", "cargo"] {
        fs::remove_file(tools.join(name)).unwrap();
    }
    assert_eq!(plan(), (0, page, String::new()));
}
