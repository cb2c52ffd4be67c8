//! The examples of the package, in C and in Rust: how they are built, and how they end.

use std::ffi::OsStr;
use std::fs::File;
use std::io::Write;
use std::path::{Path, PathBuf};
use std::process::{Command, Stdio};

/// The statuses that they end with.
pub const WELL: Option<i32> = Some(0);
pub const NONE: Option<i32> = Some(1);
pub const REFUSED: Option<i32> = Some(2);
pub const FAILED: Option<i32> = Some(3);
pub const USAGE: Option<i32> = Some(64);

/// The package's folder.
fn bindings() -> PathBuf {
    Path::new(env!("ROOT")).join("bindings")
}

/// Runs a command that is to end well.
fn done(command: &mut Command) {
    let ended = command.output().unwrap_or_else(|e| panic!("{command:?}: {e}"));
    assert!(ended.status.success(), "{command:?}: {}", String::from_utf8_lossy(&ended.stderr));
}

/// A C program, compiled with all warnings against the header and the library.
pub fn c_program(source: &Path, folder: &Path) -> PathBuf {
    let program = folder.join(source.file_stem().unwrap());
    let mut cc = Command::new("cc");
    cc.args(["-std=c99", "-pedantic", "-Wall", "-Wextra", "-Werror", "-O1", "-I"]).arg(bindings()).arg(source);
    done(cc.args([env!("LIBRARY"), "-o"]).arg(&program));
    program
}

/// What an example is written in.
#[derive(Clone, Copy, Debug, PartialEq, Eq)]
pub enum Language {
    C,
    Rust,
}

/// An example that is built.
pub struct Example {
    pub language: Language,
    program: PathBuf,
}

/// How a program ended: with which status, or by a signal, and what it wrote and said.
#[derive(Clone, Debug, PartialEq, Eq)]
pub struct Ended {
    pub status: Option<i32>,
    pub page: String,
    pub said: String,
}

impl Example {
    /// Builds it in this folder, in which both languages have one of their own.
    pub fn built(language: Language, name: &str, folder: &Path) -> Example {
        let folder = folder.join(format!("{language:?}-examples"));
        std::fs::create_dir_all(&folder).unwrap();
        let program = match language {
            Language::C => c_program(&bindings().join(format!("examples/{name}.c")), &folder),
            Language::Rust => {
                done(cargo(&folder, "build").args(["--example", name]));
                folder.join("release/examples").join(name)
            }
        };
        Example { language, program }
    }

    /// A call of it with these words.
    pub fn command(&self, words: &[impl AsRef<OsStr>]) -> Command {
        let mut command = Command::new(&self.program);
        command.args(words);
        command
    }

    /// What it does with these words on this text.
    pub fn run(&self, words: &[impl AsRef<OsStr>], text: &[u8]) -> Ended {
        ended(self.command(words).stdout(Stdio::piped()).stderr(Stdio::piped()), text)
    }
}

/// Cargo in the package, with a folder for what it builds.
pub fn cargo(folder: &Path, word: &str) -> Command {
    let mut cargo = Command::new(env!("CARGO"));
    cargo.current_dir(bindings()).env("CARGO_TARGET_DIR", folder).args([word, "--offline", "--release", "--quiet"]);
    cargo
}

/// Starts a command, gives it this text, and waits for its end.
pub fn ended(command: &mut Command, text: &[u8]) -> Ended {
    let mut child = command.stdin(Stdio::piped()).spawn().expect("the command starts");
    // A program that reads nothing may have ended.
    let _ = child.stdin.take().unwrap().write_all(text);
    of_output(child.wait_with_output().unwrap())
}

/// What a program left, in words.
pub fn of_output(output: std::process::Output) -> Ended {
    let words = |bytes| String::from_utf8(bytes).expect("words");
    Ended { status: output.status.code(), page: words(output.stdout), said: words(output.stderr) }
}

/// A file that takes no byte.
pub fn full() -> Stdio {
    File::options().write(true).open("/dev/full").expect("/dev/full").into()
}

/// A pipe that nobody reads: that of a program which has ended.
pub fn closed_pipe() -> Stdio {
    let mut child = Command::new("true").stdin(Stdio::piped()).spawn().expect("true starts");
    let mut pipe = child.stdin.take().unwrap();
    child.wait().unwrap();
    // A child that another thread has begun holds all that this process had open, until it runs its program.
    while pipe.write(b"\n").is_ok() {
        std::thread::sleep(std::time::Duration::from_millis(1));
    }
    pipe.into()
}

/// A standard input that cannot be read: a folder.
pub fn unreadable() -> Stdio {
    File::open("/").expect("a folder is opened").into()
}
