//! The pass, one middle boundary of it and the finder of negative cycles, by the library that the crate `network_border` makes for these
//! tests. The functions ask something of their caller, which is tested here before each call. `tests/declarations.rs` holds the
//! declarations to the Rattle source.

use crate::computed::is_feasible;
use tugrokt::MAX_BOUNDARIES;

/// The largest weight.
pub const MAX_WEIGHT: i16 = 300;

extern "C" {
    fn tugrokt_pass(t: *mut i16, t_length: usize, w: usize) -> usize;
    fn tugrokt_middle(t: *mut i16, t_length: usize, w: usize, m: usize) -> usize;
    fn tugrokt_cycle(d: *const i16, d_length: usize, w: usize, out: *mut u16, out_length: usize) -> usize;
}

/// How a pass over a table of weights ends.
#[derive(Clone, Copy, Debug, PartialEq, Eq)]
pub enum Outcome {
    Finished,
    Stopped,
}

fn outcome(code: usize) -> Outcome {
    match code {
        0 => Outcome::Finished,
        1 => Outcome::Stopped,
        _ => panic!("{code} is no outcome"),
    }
}

/// Is this a table of `w` boundaries whose numbers are no further from 0 than the largest weight?
fn is_small(table: &[i16], w: usize) -> bool {
    let sized = 0 < w && w <= MAX_BOUNDARIES && w * w <= table.len();
    sized && table[..w * w].iter().all(|d| (-MAX_WEIGHT..=MAX_WEIGHT).contains(d))
}

fn has_zero_diagonal(table: &[i16], w: usize) -> bool {
    (0..w).all(|a| table[a * w + a] == 0)
}

/// Are these weights such as a sheet's limits: small, not below 0 forward, and 0 from a boundary to itself?
fn is_limited(table: &[i16], w: usize) -> bool {
    is_small(table, w) && has_zero_diagonal(table, w) && (0..w).all(|a| table[a * w + a..(a + 1) * w].iter().all(|d| *d >= 0))
}

/// Closes the table of `w` boundaries in place. `None` where it does not hold weights such as a sheet's limits.
pub fn pass(table: &mut [i16], w: usize) -> Option<Outcome> {
    // SAFETY: what the function asks was tested.
    is_limited(table, w).then(|| unsafe { pass_over_limits(table, w) })
}

/// The same for weights that are known to be such, and are not tested.
///
/// # Safety
/// The table's first `w * w` places hold the limits of a sheet of `w` boundaries.
pub unsafe fn pass_over_limits(table: &mut [i16], w: usize) -> Outcome {
    // SAFETY: the pointer comes from a reference with the length beside it, and the caller answers for the rest.
    outcome(unsafe { tugrokt_pass(table.as_mut_ptr(), table.len(), w) })
}

/// One middle boundary, in place. `None` where there is no such boundary, or some number is too large.
pub fn middle(table: &mut [i16], w: usize, m: usize) -> Option<Outcome> {
    if !is_small(table, w) || m >= w {
        return None;
    }
    // SAFETY: the pointer comes from a reference with the length beside it, and what the function asks was tested.
    Some(outcome(unsafe { tugrokt_middle(table.as_mut_ptr(), table.len(), w, m) }))
}

/// A negative cycle of the weights, at the front of `out`: its length. `None` where the weights are not such as the function asks:
/// small, zeros on the diagonal, and no potential feasible.
pub fn negative_cycle(weights: &[i16], w: usize, out: &mut [u16]) -> Option<usize> {
    if w < 2 || out.len() < w || !is_small(weights, w) || !has_zero_diagonal(weights, w) {
        return None;
    }
    let limits: Vec<i64> = weights[..w * w].iter().map(|d| i64::from(*d)).collect();
    if is_feasible(&limits, w) {
        return None;
    }
    // SAFETY: the pointers come from references with the lengths beside them, and what the function asks was tested.
    Some(unsafe { tugrokt_cycle(weights.as_ptr(), weights.len(), w, out.as_mut_ptr(), out.len()) })
}
