//! The two houses that write sheets, and what the numbers of their lines mean. All else is the same for both.

use crate::questions::{is_stretch, is_window};

#[derive(Clone, Copy, Debug, PartialEq, Eq)]
pub enum House {
    Ours,
    /// The partner gives a start and a length, and knows only ceilings.
    Partner,
}

/// The slots of so many hours from a start on, where they lie inside the day.
fn slots_of(start: u16, hours: u16, day: usize) -> Option<(u16, u16)> {
    let inside = 1 <= start && 1 <= hours && start as usize + hours as usize - 1 <= day;
    inside.then(|| (start, start + hours - 1))
}

impl House {
    pub const BOTH: [House; 2] = [House::Ours, House::Partner];

    pub fn other(self) -> House {
        match self {
            House::Ours => House::Partner,
            House::Partner => House::Ours,
        }
    }

    /// The window that a unit's two numbers give, and nothing where question 7 is answered no. A partner's job cannot be carried.
    pub fn window(self, one: u16, two: u16, span: usize) -> Option<(u16, u16)> {
        match self {
            House::Ours => is_window(one, two, span).then_some((one, two)),
            House::Partner => slots_of(one, two, span),
        }
    }

    /// The same of a rule.
    pub fn stretch(self, one: u16, two: u16, span: usize) -> Option<(u16, u16)> {
        match self {
            House::Ours => is_stretch(one, two, span).then_some((one, two)),
            House::Partner => slots_of(one, two, span),
        }
    }

    /// The low and the high that the last numbers of a rule give.
    pub fn count(self, numbers: &[u16]) -> (u16, u16) {
        match self {
            House::Ours => (numbers[0], numbers[1]),
            House::Partner => (0, numbers[0]),
        }
    }
}
