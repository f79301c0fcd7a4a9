//! an earth fault, kind 1 or 3, at a board without earth return.

use super::answer::Triple;
use super::chains::{earth_path, Sums};
use super::fault::Short;
use super::network::Grid;
use crate::paper::{Paper, Rise};
use crate::ring::Num;

/// Fault currents and their divisor: all 0 over 1 in kind 1, as for kind 2 with Zf = 0 in kind 3.
pub fn currents(paper: &Paper, s: &Sums, short: &Short) -> (Triple, Num) {
    let (one, none) = (Num::whole(1), Num::ZERO);
    match short.kind {
        1 if paper.unearthed.dead => ([none, none, none], one),
        1 => ([one, one, one], s.z1 + s.z2 + short.zf.times(3)),
        _ => {
            let zf = short.zf.times(paper.unearthed.zf_times);
            ([none, one, -one], s.z1 + s.z2 + zf)
        }
    }
}

/// The boards whose W0 is not zero any more.
pub fn moved(paper: &Paper, grid: &Grid, short: &Short) -> Vec<bool> {
    let count = grid.boards.len();
    if !paper.unearthed.faults.contains(&short.kind) {
        return vec![false; count];
    }
    if !paper.unearthed.joined_only {
        let unearthed = |j| earth_path(paper, grid, j).is_none();
        return (0..count).map(unearthed).collect();
    }
    joined(paper, grid, short.board)
}

/// k and the boards joined to it by kinds 2 and 3: from board to board over such records, up and
/// down, until no new board is met.
fn joined(paper: &Paper, grid: &Grid, k: usize) -> Vec<bool> {
    let mut met = vec![false; grid.boards.len()];
    met[k] = true;
    let mut open = vec![k];
    while let Some(b) = open.pop() {
        for next in neighbours(paper, grid, b) {
            if !met[next] {
                met[next] = true;
                open.extend(paper.unearthed.joins_far.then_some(next));
            }
        }
    }
    met
}

/// The feeder, if this board's own record joins; those fed from here whose records do.
fn neighbours(paper: &Paper, grid: &Grid, b: usize) -> Vec<usize> {
    let rule = &paper.unearthed;
    let joins = |r: usize| rule.joining.contains(&grid.boards[r].kind);
    let above = grid.up[b].filter(|_| rule.joins_up && joins(b));
    let fed = |r: &usize| rule.joins_down && grid.up[*r] == Some(b) && joins(*r);
    let below = (0..grid.boards.len()).filter(fed);
    above.into_iter().chain(below).collect()
}

/// W0 of a board whose W0 is moved, times D; `w1` is the same of any board's W1.
pub fn w0(paper: &Paper, short: &Short, d: i128, j: usize, w1: impl Fn(usize) -> Num) -> Num {
    let rule = &paper.unearthed;
    let w0 = match (short.kind, rule.rise) {
        (1, _) => Num::whole(d).times(rule.w0),
        (_, Rise::FaultedW1) => w1(short.board),
        (_, Rise::OwnW1) => w1(j),
        (_, Rise::MinusFaultedW1) => -w1(short.board),
        (_, Rise::One) => Num::whole(d),
    };
    if rule.w0_turned {
        return w0;
    }
    // Only under the fault "W0 not turned with the phase": takes back what `show` does.
    w0.turn(-8 * short.phase as i64)
}

#[cfg(test)]
mod tests {
    use super::joined;
    use crate::judge::network::read;
    use crate::make::{case_of, Case};
    use crate::paper::Paper;
    use crate::plan::plan;
    use crate::stream::SOLVE;

    /// The walk from board to board here and the marking in `plan` find the same boards.
    #[test]
    fn joined_in_two_ways() {
        let mut met = 0;
        for index in 0..2_000 {
            let Case::Solve(c) = case_of(SOLVE, 2_026, index) else {
                continue;
            };
            let (Ok(grid), Some(plan)) = (read(&Paper::AS_WRITTEN, &c.net), plan(&c.net, &c.fault))
            else {
                continue;
            };
            assert_eq!(joined(&Paper::AS_WRITTEN, &grid, plan.k), plan.joined);
            met += 1;
        }
        assert!(met > 1_000);
    }
}
