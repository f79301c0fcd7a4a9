//! Answers of R-4, each held by itself: the walk of `judge::earth` has no say here.
//!
//! `chain` asks what the request says of the record that is named, `changed` tries by experiment what it
//! says is proved, `short` lays an earth fault at the board and looks where it draws on.

pub mod chain;
pub mod changed;
pub mod short;

use crate::paper::Paper;
use crate::plan::{plan, Plan};

const PAPER: Paper = Paper::AS_WRITTEN;

fn need(holds: bool, what: &str) -> Result<(), String> {
    if holds {
        return Ok(());
    }
    Err(format!("earth: {what}"))
}

/// Phase a to earth at this label, Zf = 0. A label not of twelve bytes makes no fault of it.
fn to_earth(label: &[u8]) -> Vec<u8> {
    [&b"FT"[..], label, &[1, 0, 0, 0, 0, 0]].concat()
}

/// The second reading of an accepted network, and the board of this label in it.
pub fn planned(net: &[u8], label: &[u8]) -> Result<Plan, String> {
    let none = "earth: an answer, and no board has this label";
    plan(net, &to_earth(label)).ok_or(none.into())
}

/// From the board to the source.
pub fn chain_of(plan: &Plan) -> Vec<usize> {
    std::iter::successors(Some(plan.k), |&r| plan.records[r].up).collect()
}
