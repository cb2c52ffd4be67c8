//! How a call ends.

use std::process::ExitCode;

/// What the exit status says. Of several files the largest counts.
#[derive(Clone, Copy, Debug, PartialEq, Eq, PartialOrd, Ord)]
#[repr(u8)]
pub enum Status {
    /// A plan, a sheet that fits, or what else was asked for.
    Done = 0,
    /// No plan is lawful.
    None = 1,
    /// The planner refused the sheet.
    Refused = 2,
    /// Reading or writing failed.
    Failed = 3,
    /// The words of the call are wrong. (BSD's `EX_USAGE`.)
    Usage = 64,
}

impl From<Status> for ExitCode {
    fn from(status: Status) -> ExitCode {
        ExitCode::from(status as u8)
    }
}
