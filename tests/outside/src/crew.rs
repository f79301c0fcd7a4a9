//! What the crew sees of an earth fault without earth return, in the phases as they are shown:
//! no sequence, no law and no formula of the paper goes in. Other faults are not looked at.

use crate::laws::phases;
use crate::plan::{plan, Plan};
use crate::ring::Num;

fn need(holds: bool, what: &str) -> Result<(), String> {
    if holds {
        return Ok(());
    }
    Err(format!("crew: {what}"))
}

/// True if there was something to look at.
pub fn check(net: &[u8], fault: &[u8], buffer: &[i64], amps: u64) -> Result<bool, String> {
    let plan = plan(net, fault).ok_or("crew: bytes that can't have been accepted")?;
    if !plan.without_return() {
        return Ok(false);
    }
    let n = plan.records.len();
    need(buffer.len() >= 13 + 24 * n, "buffer too short")?;
    need(amps == 0, "amps to earth without a way back")?;
    let out = phases(&buffer[1..13]);
    let to_earth = out.iter().copied().sum::<Num>();
    need(to_earth == Num::ZERO, "a current to earth")?;
    match plan.kind {
        1 => one_phase(&plan, &buffer[..13 + 24 * n])?,
        _ => two_phases(&plan, buffer)?,
    }
    Ok(true)
}

/// Nothing flows. Where k's boards hang together the faulted phase is at earth and each healthy one
/// has the voltage between phases; everywhere else every phase has what it had.
fn one_phase(plan: &Plan, buffer: &[i64]) -> Result<(), String> {
    let d = i128::from(buffer[0]);
    need(buffer[1..13].iter().all(|&x| x == 0), "a fault current")?;
    for (r, board) in buffer[13..].chunks(24).enumerate() {
        let (v, at) = (phases(&board[..12]), r + 1);
        let still = board[12..].iter().all(|&x| x == 0);
        need(still, &format!("a current in record {at}"))?;
        for (m, volts) in v.iter().enumerate() {
            let times = match (plan.joined[r], m == plan.phase) {
                (true, true) => 0,
                (true, false) => 3,
                (false, _) => 1,
            };
            let square = volts.norm() == Some(times * d * d);
            need(square, &format!("board {at}, phase {m}: its voltage"))?;
        }
    }
    Ok(())
}

/// Both faulted phases of k are at earth.
fn two_phases(plan: &Plan, buffer: &[i64]) -> Result<(), String> {
    let v = phases(&buffer[13 + 24 * plan.k..]);
    let earth = |i: usize| v[(plan.phase + i) % 3] == Num::ZERO;
    need(earth(1) && earth(2), "a faulted phase of k")
}
