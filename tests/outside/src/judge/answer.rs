//! Demand 2: the values of the equations, written out board by board.

use super::chains::{chain, earth_path, sums, term, turn};
use super::fault::Short;
use super::network::Grid;
use super::{amps, chains::Sums, unearthed};
use crate::paper::Paper;
use crate::ring::Num;
use std::convert::TryFrom;

/// Sequence values 0, 1, 2 (in this order), as numerators over D.
pub type Triple = [Num; 3];

/// The fault currents referred to the odd phase, and D. G is the paper's; none without earth return.
fn currents(paper: &Paper, s: &Sums, g: Option<Num>, short: &Short) -> (Triple, i128) {
    let (one, none) = (Num::whole(1), Num::ZERO);
    let (over, divisor) = match (short.kind, g) {
        (0, _) => ([none, one, none], s.z1 + short.zf),
        (2, _) => ([none, one, -one], s.z1 + s.z2 + short.zf),
        (1, Some(g)) => ([one, one, one], s.z1 + s.z2 + g),
        (_, Some(g)) => ([-s.z2, s.z2 + g, -g], s.z1 * s.z2 + s.z1 * g + s.z2 * g),
        (_, None) => unearthed::currents(paper, s, short),
    };
    let d = divisor.norm().expect("the divisor is R + jX");
    assert!(d > 0, "the divisor is never zero");
    (over.map(|n| n * divisor.conj()), d)
}

/// Phases a, b, c of a value: phase (p+i) mod 3 shows t^8p (X0 + t^(8i-d) X1 + t^(4i+d) X2).
fn show(paper: &Paper, phase: usize, d: i64, x: Triple) -> Triple {
    let p = if paper.phase_counts { phase } else { 0 };
    let mut shown = [Num::ZERO; 3];
    for i in 0..3 {
        let steps = i as i64;
        let plus = x[1].turn(8 * steps - paper.lag * d);
        let minus = x[2].turn(4 * steps - paper.negative_turn * paper.lag * d);
        shown[(p + i) % 3] = (x[0] + plus + minus).turn(8 * p as i64);
    }
    shown
}

/// What the fault at k makes of one board.
struct Scene<'a> {
    paper: &'a Paper,
    grid: &'a Grid,
    short: &'a Short,
    i: Triple,
    d: i128,
    /// Records on k's chain, and on its zero-sequence sum.
    on_chain: Vec<bool>,
    on_earth: Vec<bool>,
    start: Option<usize>,
    /// Boards whose W0 is what an earth fault without earth return makes of it.
    moved: Vec<bool>,
}

fn marks(count: usize, list: &[usize]) -> Vec<bool> {
    let mut marks = vec![false; count];
    list.iter().for_each(|&r| marks[r] = true);
    marks
}

impl Scene<'_> {
    /// The shared impedance of j and k: j's chain is walked, records also on k's are summed.
    fn shared(&self, sequence: usize, j: usize) -> Num {
        let add = |path: Vec<usize>, common: &[bool]| {
            let both = path.into_iter().filter(|&q| common[q]);
            both.map(|q| term(self.paper, self.grid, sequence, q)).sum()
        };
        if sequence != 0 {
            return add(chain(self.grid, j), &self.on_chain);
        }
        let Some(path) = earth_path(self.paper, self.grid, j) else {
            return Num::ZERO;
        };
        if path.last().copied() == self.start {
            return add(path, &self.on_earth);
        }
        if self.paper.same_start_only || self.start.is_none() {
            return Num::ZERO;
        }
        // Only under the fault "zero sequence shared without the same start".
        let common = chain(self.grid, j);
        add(common, &self.on_chain)
    }

    fn voltages(&self, j: usize) -> Triple {
        let drop = |s: usize| self.shared(s, j) * self.i[s];
        let w0 = if self.moved[j] {
            let w1 = |board: usize| self.w1(board);
            unearthed::w0(self.paper, self.short, self.d, j, w1)
        } else {
            -drop(0)
        };
        [w0, self.w1(j), -drop(2)]
    }

    fn w1(&self, j: usize) -> Num {
        Num::whole(self.d) - self.shared(1, j) * self.i[1]
    }

    fn record_currents(&self, r: usize) -> Triple {
        let pass = |on: bool, i: Num| if on { i } else { Num::ZERO };
        [
            pass(self.on_earth[r], self.i[0]),
            pass(self.on_chain[r], self.i[1]),
            pass(self.on_chain[r], self.i[2]),
        ]
    }

    fn board(&self, j: usize, out: &mut [i64]) {
        let d = turn(self.grid, j) - turn(self.grid, self.short.board);
        let at = |x| show(self.paper, self.short.phase, d, x);
        put(&at(self.voltages(j)), &mut out[..12]);
        put(&at(self.record_currents(j)), &mut out[12..24]);
    }
}

fn put(phases: &Triple, out: &mut [i64]) {
    for (place, &x) in out.iter_mut().zip(phases.iter().flat_map(|n| n.0.iter())) {
        *place = i64::try_from(x).expect("every number fits 64 bits");
    }
}

/// Fills the buffer; the amps.
pub fn write(paper: &Paper, grid: &Grid, short: &Short, out: &mut [i64]) -> u64 {
    let k = short.board;
    let count = grid.boards.len();
    let sums = sums(paper, grid, k);
    let z0 = sums.z0.filter(|_| paper.unearthed.no_return_only);
    let g = z0.map(|z0| z0 + short.zf.times(paper.zf_times));
    let (i, d) = currents(paper, &sums, g, short);
    let earth = earth_path(paper, grid, k);
    let scene = Scene {
        paper,
        grid,
        short,
        i,
        d,
        on_chain: marks(count, &chain(grid, k)),
        on_earth: marks(count, earth.as_deref().unwrap_or(&[])),
        start: earth.and_then(|path| path.last().copied()),
        moved: match g {
            None => unearthed::moved(paper, grid, short),
            Some(_) => vec![false; count],
        },
    };
    let out_of_network = show(paper, short.phase, 0, i);
    out[0] = i64::try_from(d).expect("D fits 64 bits");
    put(&out_of_network, &mut out[1..13]);
    for (j, part) in out[13..13 + 24 * count].chunks_exact_mut(24).enumerate() {
        scene.board(j, part);
    }
    amps::cut(paper, grid, short, out_of_network, d)
}
