//! What is read and written. A page is written whole, or it is said that it was not.

use std::ffi::OsString;
use std::fs::{self, File};
use std::io::{self, ErrorKind, IsTerminal, Read, Write};
use std::os::fd::AsFd;
use std::os::unix::fs::MetadataExt;
use std::path::{Path, PathBuf};
use std::sync::atomic::{AtomicBool, AtomicUsize, Ordering};

/// What a sheet is read from.
#[derive(Clone, Debug, PartialEq, Eq)]
pub enum Input {
    Stdin,
    File(PathBuf),
}

impl Input {
    /// The operand `-` is standard input.
    pub fn named(name: OsString) -> Input {
        if name == "-" { Input::Stdin } else { Input::File(PathBuf::from(name)) }
    }

    /// The file that it is, if it is one.
    pub fn path(&self) -> Option<&Path> {
        match self {
            Input::Stdin => None,
            Input::File(path) => Some(path),
        }
    }

    /// How messages call it. A terminal would obey control characters.
    pub fn name(&self) -> String {
        match self {
            Input::Stdin => "standard input".to_string(),
            Input::File(path) => path.display().to_string().replace(char::is_control, "?"),
        }
    }

    /// The text, of which one byte more than the longest is enough to have a longer one refused. Where it cannot be read, why.
    pub fn read(&self) -> Result<Vec<u8>, String> {
        let mut text = Vec::new();
        let read = match self {
            Input::Stdin => open_stdin().and_then(|input| input.take(LONGEST).read_to_end(&mut text)),
            Input::File(path) => File::open(path).and_then(|file| file.take(LONGEST).read_to_end(&mut text)),
        };
        read.map(|_| text).map_err(|error| format!("{}: {}", self.name(), reason(&error)))
    }
}

const LONGEST: u64 = tugrokt::MAX_BYTES as u64 + 1;

/// Why something failed, without the number that Rust puts behind it.
pub fn reason(error: &io::Error) -> String {
    let said = error.to_string();
    said.split(" (os error").next().unwrap_or(&said).to_string()
}

// Before `main`, Rust's runtime opens /dev/null in place of a standard stream that is closed. A page would be lost there without a word, and a
// sheet would seem empty; so it is asked earlier which of the two are closed.
static NO_STDIN: AtomicBool = AtomicBool::new(false);
static NO_STDOUT: AtomicBool = AtomicBool::new(false);

#[used]
#[link_section = ".init_array"]
static AT_START: extern "C" fn() = note_closed;

extern "C" fn note_closed() {
    extern "C" {
        fn fcntl(fd: i32, command: i32, ...) -> i32;
    }
    const F_GETFD: i32 = 1;
    // SAFETY: F_GETFD only asks for the flags of a descriptor, and answers below 0 where it is closed.
    NO_STDIN.store(unsafe { fcntl(0, F_GETFD) } < 0, Ordering::Relaxed);
    NO_STDOUT.store(unsafe { fcntl(1, F_GETFD) } < 0, Ordering::Relaxed);
}

// As files, since Rust's own standard streams take one that cannot be read for an empty one, and what is written to one that cannot be written
// for done.

fn open_stdin() -> io::Result<File> {
    if NO_STDIN.load(Ordering::Relaxed) {
        return Err(io::Error::other("it is closed"));
    }
    if io::stdin().is_terminal() {
        say("tugrokt: reading a sheet from the terminal; end it with control-D\n");
    }
    io::stdin().as_fd().try_clone_to_owned().map(File::from)
}

fn open_stdout() -> io::Result<File> {
    if NO_STDOUT.load(Ordering::Relaxed) {
        return Err(io::Error::other("it is closed"));
    }
    io::stdout().as_fd().try_clone_to_owned().map(File::from)
}

/// Words on standard error. Where they cannot be said there, there is nobody to tell.
pub fn say(words: &str) {
    let _ = io::stderr().lock().write_all(words.as_bytes());
}

/// Why a page is not whole on standard output.
pub enum Unwritten {
    /// Nobody reads it any more, and so nobody wants to hear of it.
    Closed,
    Failed(String),
}

/// Writes to standard output, where there is anything to write.
pub fn write_out(page: &[u8]) -> Result<(), Unwritten> {
    if page.is_empty() {
        return Ok(());
    }
    open_stdout().and_then(|mut out| out.write_all(page)).map_err(|error| match error.kind() {
        ErrorKind::BrokenPipe => Unwritten::Closed,
        _ => Unwritten::Failed(format!("standard output: {}", reason(&error))),
    })
}

/// Puts a file in place whole, or says why not: what is written next to it takes its name only when it is complete. A link stays, and what it
/// names is replaced. What is no plain file, as a device, is written to as it is, and so is standard output under another name.
pub fn put_file(path: &Path, bytes: &[u8]) -> Result<(), String> {
    let placed = match fs::metadata(path) {
        Ok(found) if is_stdout(&found) => open_stdout().and_then(|mut out| out.write_all(bytes)),
        Ok(found) if !found.is_file() && !found.is_dir() => File::options().write(true).open(path).and_then(|mut file| file.write_all(bytes)),
        _ => replace(&fs::canonicalize(path).unwrap_or_else(|_| path.to_path_buf()), bytes),
    };
    placed.map_err(|error| format!("{}: {}", path.display(), reason(&error)))
}

/// Whether a file is the one that standard output goes to.
fn is_stdout(file: &fs::Metadata) -> bool {
    open_stdout().and_then(|out| out.metadata()).is_ok_and(|out| (out.dev(), out.ino()) == (file.dev(), file.ino()))
}

fn replace(path: &Path, bytes: &[u8]) -> io::Result<()> {
    // No other file of this call or of one that runs beside it has this name, however long the file's own is.
    static PARTS: AtomicUsize = AtomicUsize::new(0);
    let part = path.with_file_name(format!(".tugrokt.{}.{}.part", std::process::id(), PARTS.fetch_add(1, Ordering::Relaxed)));
    let placed = fs::write(&part, bytes).and_then(|()| fs::rename(&part, path));
    if placed.is_err() {
        let _ = fs::remove_file(&part);
    }
    placed
}
