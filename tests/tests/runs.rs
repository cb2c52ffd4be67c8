//! The runs of the program that are kept in files. A folder of `../runs` has the words (`args`, one to a line), standard input (`stdin`), the
//! files that the program finds (`data/`) and the page that it is to write (`stdout`), as a crate's folder has them for the check; the one run
//! of the check itself, in `../../crates/wave`, is among them.

use std::fs::{self, File};
use std::path::{Path, PathBuf};
use std::process::{Command, Stdio};

use model::cases;
use model::house::House;
use model::program::{converted, line_page, merged_page, output_fault, path, Asked};
use model::reading::read;

struct Run {
    name: String,
    folder: PathBuf,
    words: Vec<String>,
    page: Vec<u8>,
}

impl Run {
    fn of(folder: PathBuf) -> Run {
        let name = folder.file_name().unwrap().to_str().unwrap().to_string();
        let page = fs::read(folder.join("stdout")).unwrap_or_else(|e| panic!("{name}: its stdout: {e}"));
        let words = fs::read_to_string(folder.join("args")).unwrap_or_default().lines().map(str::to_string).collect();
        Run { name, folder, words, page }
    }

    fn text(&self) -> Vec<u8> {
        fs::read(self.folder.join("stdin")).unwrap_or_else(|e| panic!("{}: its stdin: {e}", self.name))
    }

    /// A new folder with a copy of the run's files and nothing else.
    fn room(&self) -> PathBuf {
        let room = Path::new(env!("CARGO_TARGET_TMPDIR")).join("runs").join(&self.name);
        if room.exists() {
            fs::remove_dir_all(&room).unwrap();
        }
        fs::create_dir_all(&room).unwrap();
        for file in fs::read_dir(self.folder.join("data")).into_iter().flatten().map(|e| e.unwrap()) {
            fs::copy(file.path(), room.join(file.file_name())).unwrap();
        }
        room
    }

    /// What the program writes in a room of its own.
    fn written(&self) -> Vec<u8> {
        let input = File::open(self.folder.join("stdin")).map_or_else(|_| Stdio::null(), Stdio::from);
        // A name that holds in that room too.
        let program = path().canonicalize().unwrap();
        let ended = Command::new(program).args(&self.words).current_dir(self.room()).stdin(input).output().expect("the program starts");
        assert!(ended.status.success(), "{}: the program ended with {} and said {:?}", self.name, ended.status, shown(&ended.stderr));
        ended.stdout
    }

    /// The model's page, where the words name two files.
    fn page_of_files(&self) -> Option<Vec<u8>> {
        let file = |name: &str| fs::read(self.folder.join("data").join(name)).unwrap_or_else(|e| panic!("{}: {name}: {e}", self.name));
        let words: Vec<&str> = self.words.iter().map(String::as_str).collect();
        match words[..] {
            ["merge", one, two] => Some(merged_page(&file(one), &file(two))),
            ["line", loader, one, two] => Some(line_page(loader.parse().unwrap(), &file(one), &file(two))),
            _ => None,
        }
    }
}

/// All runs. A folder without a page fails here, and so does a run that is gone.
fn all() -> Vec<Run> {
    let root = Path::new(env!("ROOT"));
    let kept = fs::read_dir(root.join("tests/runs")).unwrap().map(|e| e.unwrap().path());
    let mut runs: Vec<Run> = kept.chain([root.join("crates/wave")]).map(Run::of).collect();
    runs.sort_by(|a, b| a.name.cmp(&b.name));
    let names: Vec<&str> = runs.iter().map(|run| run.name.as_str()).collect();
    assert_eq!(names, ["fits", "from_partner", "line", "longest", "merge", "partner", "to_partner", "too_long", "wave"]);
    runs
}

fn shown(page: &[u8]) -> String {
    String::from_utf8_lossy(page).into_owned()
}

/// The program writes the page of each run, byte for byte.
#[test]
fn the_program_writes_each_page() {
    for run in all() {
        let written = run.written();
        assert!(written == run.page, "{}: got {:?}, expected {:?}", run.name, shown(&written), shown(&run.page));
    }
}

/// Each page is the model's, so that none is only what the program once wrote.
#[test]
fn each_page_is_the_model_s() {
    for run in all() {
        let name = &run.name;
        if let Some(expected) = run.page_of_files() {
            assert_eq!(shown(&run.page), shown(&expected), "{name}");
            continue;
        }
        let asked = Asked::ALL.into_iter().find(|asked| asked.words() == run.words).unwrap_or_else(|| panic!("{name}: {:?}", run.words));
        let text = run.text();
        // What is said on standard error is not kept.
        let said = if asked == Asked::ToPartner { converted(House::Ours, &text).1 } else { String::new() };
        assert_eq!(output_fault(asked, &text, (&run.page, &said)), None, "{name}");
        // What is read of it before its last byte has another answer.
        if read(asked.house(), &text).is_err() {
            assert_ne!(output_fault(asked, &text[..text.len() - 1], (&run.page, &said)), None, "{name}");
        }
    }
}

/// The texts that documents speak of: P2; the longest text that is read, which notes fill up; and one byte more, the line feed of a note, so that
/// a program that read no more than 16,000 bytes would refuse it by 3.
#[test]
fn texts() {
    let runs = all();
    let text = |name: &str| runs.iter().find(|run| run.name == name).unwrap().text();
    let p2 = cases::named("P2").sheet.text();
    assert_eq!([text("wave"), text("fits")], [p2.clone(), p2]);
    assert_eq!([text("longest").len(), text("too_long").len()], [16_000, 16_001]);
    assert_eq!(read(House::Ours, &text("too_long")[..16_000]).err().map(|refusal| refusal.number), Some(3));
}
