//! A model of the wave planner, written from docs/RULES.md alone, and generators of sheets and texts.
//!
//! The model shares no code and no table with the planner. Small sheets are answered by enumeration of all plans (`enumerated`), which
//! shares no algorithm with it either. Large sheets are answered by shortest paths (`computed`): Floyd and Warshall's and Bellman and
//! Ford's algorithms, as in the planner, so that half proves less by itself; the two halves are held against each other on small
//! sheets. `calls`, `network` and `program` run the planner itself, and `examples` the programs that show how it is called.

pub mod calls;
pub mod cases;
pub mod comparing;
pub mod computed;
pub mod damage;
pub mod enumerated;
pub mod examples;
pub mod faults;
pub mod house;
pub mod merging;
pub mod network;
pub mod page;
pub mod pairs;
pub mod program;
pub mod questions;
pub mod random;
pub mod reading;
pub mod room;
pub mod sheet;
pub mod tally;

/// How many random cases a test runs: `default`, times `TUGROKT_EFFORT` where that is set.
pub fn effort(default: usize) -> usize {
    let factor = std::env::var("TUGROKT_EFFORT").ok().and_then(|s| s.parse::<f64>().ok()).unwrap_or(1.0);
    ((default as f64 * factor) as usize).max(1)
}

/// The seed of a test: its own, shifted by `TUGROKT_SEED` where that is set. Every failing case prints it.
pub fn seed(own: u64) -> u64 {
    let shift = std::env::var("TUGROKT_SEED").ok().and_then(|s| s.parse::<u64>().ok()).unwrap_or(0);
    own.wrapping_add(shift.wrapping_mul(0x9e37_79b9_7f4a_7c15))
}
