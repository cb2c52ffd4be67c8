//! Many files by several threads, and what is told of them.

use std::collections::BTreeMap;
use std::io::{self, IsTerminal};
use std::sync::atomic::{AtomicBool, AtomicUsize, Ordering};
use std::sync::mpsc;
use std::thread;
use std::time::{Duration, Instant};

use crate::files::say;

/// Has each of the inputs worked on, so many at a time, and hands the results over in the order of the inputs until one of them is not taken.
pub fn in_order<I: Sync, R: Send>(inputs: &[I], jobs: usize, work: impl Fn(&I) -> R + Sync, mut take: impl FnMut(R) -> bool) {
    let next = AtomicUsize::new(0);
    let stopped = AtomicBool::new(false);
    let (sender, results) = mpsc::channel();
    let (next, stopped, work) = (&next, &stopped, &work);
    thread::scope(|scope| {
        for _ in 0..jobs.min(inputs.len()) {
            let sender = sender.clone();
            scope.spawn(move || {
                while !stopped.load(Ordering::Relaxed) {
                    let i = next.fetch_add(1, Ordering::Relaxed);
                    let Some(input) = inputs.get(i) else { break };
                    // Nobody takes it where the call has been stopped.
                    let _ = sender.send((i, work(input)));
                }
            });
        }
        drop(sender);
        let mut early = BTreeMap::new();
        let mut turn = 0;
        for (i, result) in results {
            early.insert(i, result);
            while let Some(result) = early.remove(&turn) {
                turn += 1;
                if !take(result) {
                    stopped.store(true, Ordering::Relaxed);
                    return;
                }
            }
        }
    });
}

/// What became of a file.
#[derive(Clone, Copy, Debug, PartialEq, Eq)]
pub enum End {
    Plan,
    Fits,
    None,
    Refused,
    Failed,
}

/// How many files there are, and what became of those that are done.
pub struct Tally {
    all: usize,
    /// Of each end that a file may have, how many.
    ends: [(End, &'static str, usize); 5],
}

impl Tally {
    pub fn new(all: usize) -> Tally {
        let ends = [(End::Plan, "planned"), (End::Fits, "fit"), (End::None, "none"), (End::Refused, "refused"), (End::Failed, "failed")];
        Tally { all, ends: ends.map(|(end, name)| (end, name, 0)) }
    }

    pub fn count(&mut self, end: End) {
        for entry in self.ends.iter_mut().filter(|entry| entry.0 == end) {
            entry.2 += 1;
        }
    }

    fn done(&self) -> usize {
        self.ends.iter().map(|entry| entry.2).sum()
    }

    /// As `4 planned, 1 refused`.
    fn ends(&self) -> String {
        let shown: Vec<String> = self.ends.iter().filter(|entry| entry.2 > 0).map(|(_, name, count)| format!("{count} {name}")).collect();
        shown.join(", ")
    }

    /// As `5 sheets: 4 planned, 1 refused`.
    pub fn summary(&self) -> String {
        let sheets = if self.all == 1 { "sheet" } else { "sheets" };
        format!("{} {sheets}: {}", self.done(), self.ends())
    }
}

/// How far the call is, on a terminal.
pub struct Progress {
    shown: Option<Instant>,
    terminal: bool,
}

/// How long what is shown stays.
const PAUSE: Duration = Duration::from_millis(100);

/// To the front of the line, and what stands there is cleared.
const CLEAR: &str = "\r\x1b[K";

impl Progress {
    pub fn new(wanted: bool) -> Progress {
        Progress { shown: None, terminal: wanted && io::stderr().is_terminal() }
    }

    pub fn show(&mut self, tally: &Tally) {
        if self.terminal && self.shown.is_none_or(|shown| shown.elapsed() >= PAUSE) {
            say(&format!("{CLEAR}{} of {}: {}", tally.done(), tally.all, tally.ends()));
            self.shown = Some(Instant::now());
        }
    }

    /// Before anything else is said.
    pub fn clear(&mut self) {
        if self.shown.take().is_some() {
            say(CLEAR);
        }
    }
}
