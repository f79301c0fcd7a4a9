//! Rules 1 to 11 and 21: the network's bytes. The writer asks 3, 6 to 11 and 21 too, so these
//! look at decoded boards and not at bytes.

use super::board::{word, Board, HEAD, RECORD};
use super::{refusal, Verdict, NETWORK};
use crate::paper::{Paper, Seen};
use crate::ring::Num;
use std::collections::HashMap;

/// Boards and how they hang together.
pub struct Grid {
    pub volts: u16,
    pub unit: u16,
    pub boards: Vec<Board>,
    /// The record that carries the feeder's label, if an earlier one does.
    pub up: Vec<Option<usize>>,
    /// An earlier record carries the same label.
    pub again: Vec<bool>,
    /// Where each label stands.
    pub places: Places,
}

/// Labels to records. Each label is entered once for every rule that looks for one, as that rule
/// reads it: under a wrong reading they may not all compare alike.
#[derive(Default)]
pub struct Places(HashMap<(u32, [u8; 12]), usize>);

impl Places {
    pub fn find(&self, paper: &Paper, rule: u32, label: &[u8]) -> Option<usize> {
        let key = (rule, paper.labels.sought(rule, label));
        self.0.get(&key).copied()
    }

    /// The first of equal ones stays, if it has to be the only one.
    fn enter(&mut self, paper: &Paper, label: &[u8], r: usize) {
        for rule in [7, 8, 14] {
            let key = (rule, paper.labels.held(rule, label));
            let place = self.0.entry(key).or_insert(r);
            if !paper.labels_unique {
                *place = r;
            }
        }
    }
}

pub fn read(paper: &Paper, net: &[u8]) -> Result<Grid, Verdict> {
    head(paper, net)?;
    let records = &net[HEAD..];
    let boards = Board::decode_all(records);
    let grid = join(paper, word(net, 2), word(net, 4), boards);
    let marked = |r: usize| records[RECORD * r..].starts_with(b"BD");
    match first_broken(paper, &grid, 5, marked) {
        Some((number, r)) => Err(refusal(number, r + 1, NETWORK, HEAD + RECORD * r, RECORD)),
        None => Ok(grid),
    }
}

/// Rules 1 to 4.
fn head(paper: &Paper, net: &[u8]) -> Result<(), Verdict> {
    for rule in paper.order(1, 4) {
        if breaks_head(paper, rule, net) {
            let part = if rule == 1 { net.len() } else { HEAD };
            return Err(refusal(rule, 0, NETWORK, 0, part));
        }
    }
    Ok(())
}

fn breaks_head(paper: &Paper, rule: u32, net: &[u8]) -> bool {
    match rule {
        1 => net.len() < HEAD,
        2 => net.get(..2) != Some(b"HD"),
        3 => !head_fits(paper, word(net, 2), word(net, 4), word(net, 6).into()),
        _ => net.len() != HEAD + RECORD * usize::from(word(net, 6)),
    }
}

/// Rule 3.
pub fn head_fits(paper: &Paper, volts: u16, unit: u16, count: usize) -> bool {
    let volts_fit = (1..=1000).contains(&volts);
    let unit_fits = (10..=1000).contains(&unit);
    volts_fit && unit_fits && (1..=paper.most_boards).contains(&count)
}

/// Labels go into the map as the boards pass, so a feeder can only be found among earlier ones.
pub fn join(paper: &Paper, volts: u16, unit: u16, boards: Vec<Board>) -> Grid {
    let mut places = Places::default();
    let (mut up, mut again) = (Vec::new(), Vec::new());
    for (r, b) in boards.iter().enumerate() {
        again.push(places.find(paper, 7, &b.label).is_some());
        up.push(places.find(paper, 8, &b.feeder));
        places.enter(paper, &b.label, r);
    }
    if !paper.looks_back {
        let key = |b: &Board| paper.labels.held(7, &b.label);
        let same = |a: &Board| boards.iter().filter(|b| key(b) == key(a)).count();
        again = boards.iter().map(|a| same(a) > 1).collect();
    }
    Grid {
        volts,
        unit,
        boards,
        up,
        again,
        places,
    }
}

/// The number of the first broken rule, of `first` to 11 and 21, and the index of its record. Whether a
/// record has its mark (5) only the reader can say.
pub fn first_broken(
    paper: &Paper,
    grid: &Grid,
    first: u32,
    marked: impl Fn(usize) -> bool,
) -> Option<(u32, usize)> {
    let breaks = |rule: u32, r: usize| match rule {
        5 => !marked(r),
        _ => breaks(paper, grid, rule, r),
    };
    let number = |rule: u32| match rule {
        21 => paper.forgotten.number,
        _ => rule,
    };
    let broken = |rule: u32, r: usize| breaks(rule, r).then_some((number(rule), r));
    paper.passes(first).iter().find_map(|rules| {
        let mut records = 0..grid.boards.len();
        records.find_map(|r| rules.iter().find_map(|&rule| broken(rule, r)))
    })
}

/// Rules 6 to 11 and 21.
fn breaks(paper: &Paper, grid: &Grid, rule: u32, r: usize) -> bool {
    let b = &grid.boards[r];
    match rule {
        6 => !well_formed(&b.label),
        7 => paper.labels_unique && grid.again[r],
        8 if r == 0 => b.feeder != [b' '; 12],
        8 => grid.up[r].is_none(),
        9 => !kind_fits(b, r),
        10 => b.parts.iter().any(|&p| p > 4095) || !keeps_kind_rule(b),
        21 => forgotten(paper, b) && seen(paper, grid, r),
        _ => super::chains::sums(paper, grid, r).over(paper.sum_most),
    }
}

/// Strip the closing spaces; what is left must be letters, and at least one.
fn well_formed(label: &[u8]) -> bool {
    let end = label.iter().rposition(|&c| c != b' ').map_or(0, |i| i + 1);
    end > 0 && label[..end].iter().all(|c| (0x21..=0x7e).contains(c))
}

/// Rule 9: the columns "Kind" and "Clock", and sources in record 1 only.
fn kind_fits(b: &Board, r: usize) -> bool {
    let clock_fits = match b.kind {
        0..=3 => b.clock == 0,
        4 => b.clock < 12 && b.clock % 2 == 1,
        5 => b.clock < 12,
        _ => false,
    };
    clock_fits && (b.kind < 2) == (r == 0)
}

/// Rule 10: the column "Must hold".
fn keeps_kind_rule(b: &Board) -> bool {
    let [z1, z2, z0, zn] = std::array::from_fn(|i| b.z(i));
    let none = Num::ZERO;
    match b.kind {
        0 => z1 != none && z2 != none,
        1 => z1 != none && z2 != none && z0 == none && zn == none,
        2 => z1 == z2 && zn == none,
        3 | 4 => z1 == z2,
        _ => z1 == z2 && z0 == none && zn == none,
    }
}

/// Rule 21: a transformer with z1 zero.
fn forgotten(paper: &Paper, b: &Board) -> bool {
    let rule = &paper.forgotten;
    rule.kinds.contains(&b.kind) && rule.zero.iter().all(|&i| b.parts[i] == 0)
}

/// Not every one is seen under a wrong reading only.
fn seen(paper: &Paper, grid: &Grid, r: usize) -> bool {
    let (before, after) = (&grid.boards[..r], &grid.boards[r + 1..]);
    match paper.forgotten.seen {
        Seen::Every => true,
        Seen::Last => !after.iter().any(|b| forgotten(paper, b)),
        Seen::FirstTransformer => before.iter().all(|b| b.kind < 3),
    }
}
