//! Every example of docs/COMMAND.md is what the command writes and says.

use std::fs;
use std::path::{Path, PathBuf};
use std::process::{Command, Stdio};

/// A fenced part of the document: what stands behind the fence, the line it is on, and its text.
struct Block {
    kind: String,
    line: usize,
    text: String,
}

fn blocks(document: &str) -> Vec<Block> {
    let mut blocks: Vec<Block> = Vec::new();
    let mut inside = false;
    for (i, line) in document.lines().enumerate() {
        match line.strip_prefix("```") {
            Some(_) if inside => inside = false,
            Some(kind) => {
                inside = true;
                blocks.push(Block { kind: kind.to_string(), line: i + 1, text: String::new() });
            }
            None if inside => blocks.last_mut().expect("a block").text += &format!("{line}\n"),
            None => {}
        }
    }
    blocks
}

/// The calls of an example as a script that shows each before it runs it, as a terminal would.
fn script(example: &str) -> String {
    let calls = example.lines().filter_map(|line| line.strip_prefix("$ "));
    let shown = calls.map(|call| format!("printf '$ %s\\n' '{}'\n(exit $status)\n{call}\nstatus=$?\n", call.replace('\'', "'\\''")));
    format!("exec 2>&1\nstatus=0\n{}", shown.collect::<String>())
}

/// What bash shows of the calls, in a folder.
fn shown(example: &str, folder: &Path) -> String {
    let command = Path::new(env!("CARGO_BIN_EXE_tugrokt")).parent().unwrap();
    let path = format!("{}:{}", command.display(), std::env::var("PATH").unwrap());
    let mut bash = Command::new("bash");
    bash.args(["-c", &script(example)]).current_dir(folder).env("PATH", path).stdin(Stdio::null());
    String::from_utf8(bash.output().expect("bash starts").stdout).expect("plain text")
}

fn folder() -> PathBuf {
    let folder = Path::new(env!("CARGO_TARGET_TMPDIR")).join("documents");
    let _ = fs::remove_dir_all(&folder);
    fs::create_dir_all(&folder).unwrap();
    folder
}

/// Files are laid down and examples run in the order of the document.
#[test]
fn examples() {
    let folder = folder();
    let document = Path::new(env!("CARGO_MANIFEST_DIR")).join("../docs/COMMAND.md");
    let blocks = blocks(&fs::read_to_string(document).expect("the document is read"));
    let mut ran = 0;
    for Block { kind, line, text } in blocks {
        match kind.split_once(' ') {
            Some(("file", name)) => fs::write(folder.join(name), text).unwrap(),
            None if kind == "console" => {
                assert_eq!(shown(&text, &folder), text, "docs/COMMAND.md, line {line}");
                ran += 1;
            }
            _ => panic!("docs/COMMAND.md, line {line}: {kind:?} is no kind of example"),
        }
    }
    assert!(ran >= 8, "only {ran} examples");
}
