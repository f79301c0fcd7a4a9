//! where the earth return of a board starts, or what stops it. The chain is walked from the board
//! to the source until a record decides; nothing is known of any other board.

use super::chains::chain;
use super::network::{self, Grid};
use super::{refusal, Verdict, LABEL};
use crate::paper::{Named, Paper};

/// All that an answer says. Fields it does not have are 0: it hands back no part, and a refusal knows of
/// no earth return.
#[derive(Clone, Copy, Debug, PartialEq, Eq, Default)]
pub struct Traced {
    pub number: u32,
    /// The record where the zero sequence starts, or that stops it.
    pub place: u32,
    /// 1: there is an earth return.
    pub earthed: u32,
    pub whose: u32,
    pub start: u32,
    pub length: u32,
}

/// A refusal says here what it says everywhere.
impl From<Verdict> for Traced {
    fn from(v: Verdict) -> Traced {
        Traced {
            number: v.number,
            place: v.place,
            earthed: 0,
            whose: v.whose,
            start: v.start,
            length: v.length,
        }
    }
}

pub fn trace(paper: &Paper, net: &[u8], label: &[u8]) -> Traced {
    match asked(paper, net, label) {
        Ok((grid, board)) => found(paper, &grid, board),
        Err(refused) => refused.into(),
    }
}

/// Rules 1 to 11 and 21, then 14: the network, and the index of the board that is meant.
fn asked(paper: &Paper, net: &[u8], label: &[u8]) -> Result<(Grid, usize), Verdict> {
    let grid = network::read(paper, net)?;
    let board = twelve(paper, label).and_then(|l| grid.places.find(paper, 14, &l));
    match board {
        Some(k) => Ok((grid, k)),
        None => Err(refusal(14, 0, LABEL, 0, label.len())),
    }
}

/// The bytes that are looked for. A label is padded or cut only under a wrong reading.
fn twelve(paper: &Paper, label: &[u8]) -> Option<Vec<u8>> {
    let fits = match label.len() {
        0..=11 => !paper.earth.short_refused,
        12 => true,
        _ => !paper.earth.long_refused,
    };
    let mut bytes = label.to_vec();
    bytes.resize(12, b' ');
    fits.then_some(bytes)
}

fn found(paper: &Paper, grid: &Grid, board: usize) -> Traced {
    let (earthed, decides) = walk(paper, grid, board);
    let named = decides.map(|r| match paper.earth.named {
        Named::Deciding => r,
        Named::ItsFeeder => grid.up[r].unwrap_or(r),
        Named::Board => board,
        Named::Source => 0,
    });
    Traced {
        place: named.map_or(0, |r| r as u32 + 1),
        earthed: u32::from(earthed),
        ..Traced::default()
    }
}

/// Whether zero sequence comes to the board, and the record that decides it. Only under a wrong reading
/// there is none: a source starts the zero sequence or stops it.
fn walk(paper: &Paper, grid: &Grid, board: usize) -> (bool, Option<usize>) {
    let rule = &paper.earth;
    let is = |kinds: &[u8], r: usize| kinds.contains(&grid.boards[r].kind);
    let chain = chain(grid, board);
    let mut stops = chain.iter().copied().filter(|&r| is(rule.stops, r));
    for &r in &chain {
        if is(rule.starts, r) {
            return (true, Some(r));
        }
        if is(rule.stops, r) {
            let far = stops.next_back().filter(|_| !rule.nearest);
            return (false, far.or(Some(r)));
        }
    }
    (false, None)
}
