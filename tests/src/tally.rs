//! Counts what the cases of a test were, so that a run shows what it has tried.

use std::io::Write;

use crate::sheet::{Sheet, Solved};

/// The answers to a sheet.
pub const PLAN: &str = "with a plan";
pub const CARRIES: &str = "with a plan that carries units";
pub const NONE: &str = "with none";

/// One more than the number of the last question.
const QUESTIONS: usize = 28;

pub fn answer(sheet: &Sheet, solved: Option<&Solved>) -> &'static str {
    match solved {
        Some(solved) if solved.plan.iter().any(|&place| sheet.slot_at(place).is_none()) => CARRIES,
        Some(_) => PLAN,
        None => NONE,
    }
}

#[derive(Clone, Debug)]
pub struct Tally {
    name: &'static str,
    seed: u64,
    answers: Vec<(&'static str, usize)>,
    refused: [usize; QUESTIONS],
}

impl Tally {
    /// A test that has no random cases has seed 0.
    pub fn new(name: &'static str, seed: u64) -> Tally {
        Tally { name, seed, answers: vec![], refused: [0; QUESTIONS] }
    }

    pub fn seed(&self) -> u64 {
        self.seed
    }

    pub fn all(&self) -> usize {
        self.answers.iter().map(|a| a.1).sum::<usize>() + self.refused.iter().sum::<usize>()
    }

    pub fn count(&self, answer: &str) -> usize {
        self.answers.iter().find(|a| a.0 == answer).map_or(0, |a| a.1)
    }

    pub fn refused_by(&self, number: usize) -> usize {
        self.refused[number]
    }

    /// One case more: refused by this question or, if that is 0, with this answer.
    pub fn add(&mut self, refusal: usize, answer: &'static str) {
        if refusal != 0 {
            self.refused[refusal] += 1;
        } else if let Some(known) = self.answers.iter_mut().find(|a| a.0 == answer) {
            known.1 += 1;
        } else {
            self.answers.push((answer, 1));
        }
    }

    /// One line on standard error, past the test harness, which keeps what a passing test prints to itself.
    pub fn report(&self) {
        let mut line = format!("{}: {} cases", self.name, self.all());
        for (answer, times) in &self.answers {
            line += &format!(", {times} {answer}");
        }
        for (number, times) in self.refused.iter().enumerate().filter(|(_, &times)| times > 0) {
            line += &format!(", {times} refused by {number}");
        }
        if let Ok(shift) = std::env::var("TUGROKT_SEED") {
            line += &format!("; TUGROKT_SEED={shift}");
        }
        let _ = writeln!(std::io::stderr(), "{line}; seed {}", self.seed);
    }
}
