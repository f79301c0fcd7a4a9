//! Sums by walking: nothing is carried from a feeder to its boards, every sum starts at the board.

use super::network::Grid;
use crate::paper::Paper;
use crate::ring::Num;

/// The records from board `r` back to the source, both included.
pub fn chain(grid: &Grid, r: usize) -> Vec<usize> {
    // A feeder is an earlier record, and record 1 has none before it: this ends.
    std::iter::successors(Some(r), |&q| grid.up[q]).collect()
}

/// The part of the chain that zero sequence runs over, down from its starting record; or none.
pub fn earth_path(paper: &Paper, grid: &Grid, r: usize) -> Option<Vec<usize>> {
    let mut path = Vec::new();
    for q in chain(grid, r) {
        path.push(q);
        match grid.boards[q].kind {
            0 => return Some(path),
            4 if paper.kind4_starts => return Some(path),
            2..=4 => {}
            // Only under the fault "kind 5 passes zero sequence".
            5 if !paper.kind5_blocks => {}
            _ if paper.none_is_none => return None,
            _ => return Some(path),
        }
    }
    None
}

/// What a record adds to the zero sequence: z0, with 3 zn where the kind has neutrals to earth.
pub fn zero_term(paper: &Paper, grid: &Grid, r: usize) -> Num {
    let b = &grid.boards[r];
    match b.kind {
        0 | 3 | 4 => b.z(2) + b.z(3).times(paper.zn_times),
        2 => b.z(2),
        _ => Num::ZERO,
    }
}

pub fn term(paper: &Paper, grid: &Grid, sequence: usize, r: usize) -> Num {
    let b = &grid.boards[r];
    match sequence {
        0 => zero_term(paper, grid, r),
        2 if paper.own_z2 => b.z(1),
        _ => b.z(0),
    }
}

pub struct Sums {
    pub z1: Num,
    pub z2: Num,
    pub z0: Option<Num>,
}

impl Sums {
    /// Rule 11.
    pub fn over(&self, most: i128) -> bool {
        let large = |z: &Num| z.0.iter().any(|&part| part > most);
        large(&self.z1) || large(&self.z2) || self.z0.iter().any(large)
    }
}

pub fn sums(paper: &Paper, grid: &Grid, r: usize) -> Sums {
    let all = chain(grid, r);
    let add = |s: usize, over: &[usize]| over.iter().map(|&q| term(paper, grid, s, q)).sum();
    Sums {
        z1: add(1, &all),
        z2: add(2, &all),
        z0: earth_path(paper, grid, r).map(|path| add(0, &path)),
    }
}

/// The sum of the clocks on the chain.
pub fn turn(grid: &Grid, r: usize) -> i64 {
    let clocks = |q: usize| i64::from(grid.boards[q].clock);
    chain(grid, r).into_iter().map(clocks).sum()
}
