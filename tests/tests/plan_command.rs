//! The command `./plan`: its page, its status, and many calls at once.

use std::fs::{self, File, Permissions};
use std::os::unix::fs::PermissionsExt;
use std::path::{Path, PathBuf};
use std::process::{Child, Command, Output, Stdio};
use std::sync::{Mutex, Once};

use model::cases;
use model::house::House;
use model::room::outside;
use model::sheet::Sheet;

/// Held while commands are written and while one is started: until a child runs its program it has all that its parent had open, and
/// a file that is open for writing cannot be run.
static STARTING: Mutex<()> = Mutex::new(());

fn spawn(command: &mut Command) -> Child {
    let _alone = STARTING.lock().unwrap();
    command.spawn().expect("the command starts")
}

/// The command, on a tree where there is nothing left to prove.
fn plan() -> Command {
    static BUILT: Once = Once::new();
    let path = Path::new(env!("ROOT")).join("plan");
    BUILT.call_once(|| drop(end(spawn(Command::new(&path).stdin(Stdio::null()).stdout(Stdio::piped()).stderr(Stdio::piped())))));
    let mut command = Command::new(path);
    command.stdout(Stdio::piped()).stderr(Stdio::piped());
    command
}

/// Starts the command on a text. It stands in a file, so that nothing has to feed a pipe.
fn start(name: &str, text: &[u8]) -> Child {
    start_with(&[], name, text)
}

/// The same with these words.
fn start_with(words: &[&str], name: &str, text: &[u8]) -> Child {
    let path = Path::new(env!("CARGO_TARGET_TMPDIR")).join(format!("{name}.sheet"));
    fs::write(&path, text).unwrap();
    spawn(plan().args(words).stdin(File::open(path).unwrap()))
}

fn end(child: Child) -> (i32, String, String) {
    let Output { status, stdout, stderr } = child.wait_with_output().expect("the command ends");
    (status.code().expect("no signal"), String::from_utf8(stdout).unwrap(), String::from_utf8(stderr).unwrap())
}

#[test]
fn the_status_is_the_answer() {
    let (p2, p4) = (cases::named("P2").sheet.text(), cases::named("P4").sheet.text());
    assert_eq!(end(start("plan", &p2)), (0, cases::P2_PAGE.into(), String::new()));
    assert_eq!(end(start("none", &p4)), (1, cases::P4_PAGE.into(), String::new()));
    assert_eq!(end(start("refused", b"(sheet 49)\n")), (2, "(refused 6 (line 1))\n".into(), String::new()));
    assert_eq!(end(start("empty", b"")), (2, "(refused 5 (line 0))\n".into(), String::new()));
    // A byte 0 in the sheet is no trouble to the shell.
    assert_eq!(end(start("zero", b"(sheet 4)\0\n")), (2, "(refused 2 (line 1))\n".into(), String::new()));
}

/// With `fits` the page says whether there is a plan, and the status too; `plan` is what is asked without a word.
#[test]
fn the_word_is_handed_on() {
    let (p2, p4) = (cases::named("P2").sheet.text(), cases::named("P4").sheet.text());
    assert_eq!(end(start_with(&["fits"], "fits", &p2)), (0, cases::P2_FITS_PAGE.into(), String::new()));
    assert_eq!(end(start_with(&["fits"], "fits_none", &p4)), (1, cases::P4_PAGE.into(), String::new()));
    assert_eq!(end(start_with(&["fits"], "fits_refused", b"(sheet 49)\n")), (2, "(refused 6 (line 1))\n".into(), String::new()));
    assert_eq!(end(start_with(&["fits"], "fits_empty", b"")), (2, "(refused 5 (line 0))\n".into(), String::new()));
    assert_eq!(end(start_with(&["plan"], "word_plan", &p2)), (0, cases::P2_PAGE.into(), String::new()));
    let none: [&[&str]; 9] =
        [&["fit"], &["--help"], &[""], &["fits", ""], &["fits", "plan"], &["plan", "fits"], &["fits", "fits"], &["to", "partner"], &["to-partner", ""]];
    for words in none {
        let (status, page, said) = end(start_with(words, "no_word", &p2));
        assert_eq!((status, page.as_str()), (3, ""), "{words:?}");
        // The program's own lines with its words, and then the command's.
        let (usage, last) = said.strip_suffix('\n').unwrap().rsplit_once('\n').expect("two lines");
        assert!(["plan", "fits", "partner", "from-partner", "to-partner", "merge", "line"].iter().all(|word| usage.contains(word)), "{said}");
        assert_eq!(last, format!("plan: there is no page for: {}", words.join(" ")));
    }
}

/// A partner's sheet is planned, or turned into ours, and ours into theirs: the status is 0 for a sheet as for a plan. What the program says
/// of a sheet that the partner cannot have comes through.
#[test]
fn sheets_of_the_partner() {
    let theirs = "(day 7)\n(note)\n(job 4017 (start 3) (hours 2))\n(limit (from 1) (hours 3) (most 2))\n";
    let (ours, back) = ("(sheet 7)\n(unit 4017 (window 3 4))\n(rule (slots 1 3) (count 0 2))\n", theirs.replace("(note)\n", ""));
    let (status, page, said) = end(start_with(&["partner"], "partner", theirs.as_bytes()));
    assert_eq!((status, said.as_str()), (0, ""));
    assert!(page.starts_with("(answer plan 1)\n(unit 4017 (slot 3) (between 3 4))\n"), "{page}");
    let none = b"(day 2)\n(job 1 (start 1) (hours 2))\n(limit (from 1) (hours 2) (most 0))\n";
    let ring = "(answer none)\n(at-most 0 (slots 1 2))\n(at-least 1 (slots 1 2))\n(shortfall 1)\n";
    assert_eq!(end(start_with(&["partner"], "partner_none", none)), (1, ring.into(), String::new()));
    assert_eq!(end(start_with(&["from-partner"], "from_partner", theirs.as_bytes())), (0, ours.into(), String::new()));
    assert_eq!(end(start_with(&["to-partner"], "to_partner", ours.as_bytes())), (0, back, String::new()));
    for word in ["partner", "from-partner"] {
        assert_eq!(end(start_with(&[word], &format!("{word}_refused"), b"(day 49)\n")), (2, "(refused 6 (line 1))\n".into(), String::new()));
        assert_eq!(end(start_with(&[word], &format!("{word}_ours"), ours.as_bytes())), (2, "(refused 3 (line 1))\n".into(), String::new()));
    }
    for (text, page, said) in [
        ("(sheet 49)\n", "(refused 6 (line 1))\n", ""),
        ("(sheet 4)\n(unit 7 (window 1 4))\n(unit 9 (window 2 5))\n", "(refused 17 (line 2))\n", "unit 2\n"),
        ("(sheet 4)\n(unit 7 (window 1 4))\n(rule (slots 1 4) (count 1 1))\n", "(refused 18 (line 1))\n", "rule 1\n"),
    ] {
        assert_eq!(end(start_with(&["to-partner"], "to_partner_refused", text.as_bytes())), (2, page.into(), said.into()));
    }
    // The longest sheet of theirs is a whole page too.
    let longest = Sheet::new(48, &[(10, 48); 300], &[(10, 48, 0, 300); 60]).numbered(&(9_700..=9_999).collect::<Vec<_>>());
    let expected = String::from_utf8(longest.text_for(House::Partner)).unwrap();
    assert_eq!(end(start_with(&["to-partner"], "to_partner_longest", &longest.text())), (0, expected, String::new()));
}

/// Starts the command with these words in a folder, and with nothing on standard input.
fn start_in(folder: &Path, words: &[&str]) -> Child {
    spawn(plan().args(words).current_dir(folder).stdin(Stdio::null()))
}

/// Two sheets are merged, and the line of a unit is shown: the status is 0 for a sheet or a line, 2 for a refusal, and 3 where a file cannot be
/// read or the words are none. Names of files are those of the folder that the command is called in.
#[test]
fn two_sheets() {
    let folder = Path::new(env!("CARGO_TARGET_TMPDIR")).join("two sheets");
    fs::create_dir_all(&folder).unwrap();
    let (one, two) = ("(sheet 4)\n(unit 4017 (window 1 4))\n", "(note)\n(sheet 4)\n(unit 40 (window 2 5))\n(rule (slots 1 4) (count 0 1))\n");
    let files = [("one", one), ("two", two), ("again", "(sheet 4)\n(unit 40 (window 1 1))\n"), ("broken", "(sheet 49)\n")];
    for (name, text) in files {
        fs::write(folder.join(name), text).unwrap();
    }
    let merged = "(sheet 4)\n(unit 4017 (window 1 4))\n(unit 40 (window 2 5))\n(rule (slots 1 4) (count 0 1))\n";
    let absolute = folder.join("two");
    for (first, second) in [("one", "two"), ("./one", "../two sheets/two"), ("one", absolute.to_str().unwrap())] {
        assert_eq!(end(start_in(&folder, &["merge", first, second])), (0, merged.into(), String::new()));
        assert_eq!(end(start_in(&folder, &["line", "40", first, second])), (0, "(unit 40 (window 2 5))\n".into(), String::new()));
    }
    for (words, page) in [
        (&["merge", "two", "again"][..], "(refused 20 (line 2))\n"),
        (&["merge", "broken", "two"], "(refused 6 (line 1))\n"),
        (&["line", "40", "two", "broken"], "(refused 6 (line 1))\n"),
        (&["line", "41", "one", "two"], "(refused 27 (line 0))\n"),
        (&["line", "65576", "one", "two"], "(refused 27 (line 0))\n"),
    ] {
        let (status, got, _) = end(start_in(&folder, words));
        assert_eq!((status, got.as_str()), (2, page), "{words:?}");
    }
    let none: [&[&str]; 8] = [
        &["merge", "one", "three"], &["merge", ".", "two"], &["line", "40", "three", "two"], &["line", "x", "one", "two"], &["line", "", "one", "two"],
        &["merge", "one"], &["merge", "one", "two", "two"], &["line", "one", "two"],
    ];
    for words in none {
        let (status, page, said) = end(start_in(&folder, words));
        assert_eq!((status, page.as_str()), (3, ""), "{words:?}");
        assert!(said.ends_with('\n'), "{words:?}: {said}");
    }
    // What is merged is planned.
    let command = format!("'{0}/plan' merge one two | '{0}/plan'", env!("ROOT"));
    let piped = spawn(Command::new("bash").args(["-c", &command]).current_dir(&folder).stdout(Stdio::piped()).stderr(Stdio::piped()));
    let (status, page, said) = end(piped);
    assert_eq!((status, said.as_str()), (0, ""));
    assert!(page.starts_with("(answer plan 2)\n"), "{page}");
}

/// What cannot be read or written is said, and is no answer.
#[test]
fn reading_or_writing_fails() {
    for words in [&[][..], &["plan"], &["fits"], &["partner"], &["from-partner"], &["to-partner"]] {
        let folder = spawn(plan().args(words).stdin(File::open("/").unwrap()));
        let (status, page, said) = end(folder);
        assert_eq!((status, page.as_str()), (3, ""));
        assert!(said.contains("plan: the sheet could not be read"), "{said}");
    }
    for text in [cases::named("P2").sheet.text(), cases::named("P4").sheet.text(), b"(sheet 49)\n".to_vec()] {
        let path = Path::new(env!("CARGO_TARGET_TMPDIR")).join("full.sheet");
        fs::write(&path, text).unwrap();
        let full = File::options().write(true).open("/dev/full").unwrap();
        let (status, _, said) = end(spawn(plan().stdin(File::open(path).unwrap()).stdout(full)));
        assert_eq!((status, said.as_str()), (3, "plan: the page could not be written\n"));
    }
    let path = Path::new(env!("CARGO_TARGET_TMPDIR")).join("full_to_partner.sheet");
    fs::write(&path, "(sheet 4)\n").unwrap();
    let full = File::options().write(true).open("/dev/full").unwrap();
    let (status, _, said) = end(spawn(plan().arg("to-partner").stdin(File::open(path).unwrap()).stdout(full)));
    assert_eq!((status, said.as_str()), (3, "plan: the page could not be written\n"));
    for closed in ["<&-", ">&-"] {
        let words = ["-c", &format!("exec ./plan {closed}")];
        let mut shell = Command::new("bash");
        shell.args(words).current_dir(env!("ROOT")).stdin(Stdio::null()).stdout(Stdio::piped()).stderr(Stdio::piped());
        let (status, page, said) = end(spawn(&mut shell));
        assert_eq!((status, page.as_str()), (3, ""), "{closed}");
        assert!(said.contains("is closed"), "{closed}");
    }
}

/// On a built tree nothing is proved, and calls do not disturb each other.
#[test]
fn many_at_once() {
    let sheets: Vec<Vec<u8>> = cases::all().iter().map(|case| case.sheet.text()).collect();
    let pages: Vec<(i32, String, String)> = sheets.iter().enumerate().map(|(i, text)| end(start(&format!("one{i}"), text))).collect();
    let calls: Vec<Child> = sheets.iter().enumerate().map(|(i, text)| start(&format!("many{i}"), text)).collect();
    for (call, alone) in calls.into_iter().zip(pages) {
        assert!(alone.2.is_empty(), "{}", alone.2);
        assert_eq!(end(call), alone);
    }
}

/// A small tree with the command and a kit whose `rt run wave` runs this script.
fn tree(name: &str, check: &str) -> PathBuf {
    let _alone = STARTING.lock().unwrap();
    let root = outside(&format!("plan/{name}"));
    fs::create_dir_all(root.join("crates/low")).unwrap();
    fs::create_dir_all(root.join("crates/wave/out")).unwrap();
    fs::copy(Path::new(env!("ROOT")).join("plan"), root.join("plan")).unwrap();
    fs::write(root.join("crates.txt"), "# two crates\nlow:\nother: low\nwave: low io os libc\n").unwrap();
    fs::create_dir(root.join("kit")).unwrap();
    fs::write(root.join("kit/rt"), format!("#!/bin/sh\necho \"$*\" >>../../calls\n{check}")).unwrap();
    fs::set_permissions(root.join("kit/rt"), Permissions::from_mode(0o755)).unwrap();
    root
}

fn plan_in(root: &Path) -> Child {
    let path = format!("{}:{}", root.join("kit").display(), std::env::var("PATH").unwrap());
    let mut command = Command::new(root.join("plan"));
    spawn(command.env("PATH", path).stdin(Stdio::null()).stdout(Stdio::piped()).stderr(Stdio::piped()))
}

/// What `rt` says of two crates, for two seconds and for three, and the program that it makes.
const PROVES: &str = r#"echo 'rt: chose --jobs 2 for low'
sleep 2
echo 'logic=proved functions=1'
echo 'rt: chose --jobs 2 for wave'
sleep 3
echo 'logic=proved functions=1'
printf '#!/bin/sh\necho "(answer plan 0)"\n' >out/wave
chmod +x out/wave
"#;

/// One of many calls builds the program and tells how far it is; the others wait for it. Only a newer source has it built again.
#[test]
fn one_call_builds() {
    let root = tree("built", PROVES);
    let calls: Vec<Child> = (0..6).map(|_| plan_in(&root)).collect();
    let ends: Vec<(i32, String, String)> = calls.into_iter().map(end).collect();
    assert!(ends.iter().all(|e| e.0 == 0 && e.1 == "(answer plan 0)\n"), "{ends:?}");
    let told: Vec<&String> = ends.iter().map(|e| &e.2).filter(|said| !said.is_empty()).collect();
    assert_eq!(told.len(), 1, "{told:?}");
    assert!(told[0].ends_with("\nplan: 1 of 2: low proved (2 s)\nplan: 2 of 2: wave proved (3 s)\n"), "{}", told[0]);
    let calls = || fs::read_to_string(root.join("calls")).unwrap();
    assert_eq!(calls(), "run wave\n");
    assert_eq!(end(plan_in(&root)).2, "");
    assert_eq!(calls(), "run wave\n");
    fs::write(root.join("crates/low/source"), "newer").unwrap();
    assert_eq!(end(plan_in(&root)).0, 0);
    assert_eq!(calls(), "run wave\nrun wave\n");
}

/// Where the proof fails there is no page, not even of an older program, and what the kit said is shown.
#[test]
fn a_proof_fails() {
    let root = tree("unproved", "echo 'rt: low NOT PROVED (exit 1, 2 s)'\nexit 1\n");
    for _ in 0..2 {
        let (status, page, said) = end(plan_in(&root));
        assert_eq!((status, page.as_str()), (3, ""));
        assert!(said.ends_with("rt: low NOT PROVED (exit 1, 2 s)\nplan: the program is not proved\n"), "{said}");
        let program = root.join("crates/wave/out/wave");
        fs::write(&program, "#!/bin/sh\necho '(answer plan 0)'\n").unwrap();
        fs::set_permissions(&program, Permissions::from_mode(0o755)).unwrap();
        std::thread::sleep(std::time::Duration::from_millis(20));
        fs::write(root.join("crates/low/source"), "newer").unwrap();
    }
}
