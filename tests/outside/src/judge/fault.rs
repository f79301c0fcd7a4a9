//! Rules 12 to 17 and 19: the fault's bytes, and room for the answer. 18 is withdrawn.

use super::board::word;
use super::network::Grid;
use super::{chains, refusal, room_needed, Verdict, FAULT};
use crate::paper::Paper;
use crate::ring::Num;

pub struct Short {
    /// Index of the faulted record, from 0.
    pub board: usize,
    pub kind: u8,
    pub phase: usize,
    pub zf: Num,
}

/// Rules 12 to 17 and 19; `room` is the length of the answer buffer.
pub fn read(paper: &Paper, grid: &Grid, bytes: &[u8], room: usize) -> Result<Short, Verdict> {
    for rule in paper.order(12, 19) {
        if breaks(paper, grid, bytes, room, rule) {
            // 19 asks about room, so it shows no bytes.
            let (number, place, part) = match rule {
                18 => (18, board(paper, grid, bytes).map_or(0, |k| k + 1), 20),
                19 => (paper.unearthed.room_number, 0, 0),
                _ => (rule, 0, bytes.len()),
            };
            return Err(refusal(number, place, FAULT, 0, part));
        }
    }
    Ok(Short {
        board: board(paper, grid, bytes).expect("rule 14 held"),
        kind: bytes[14],
        phase: usize::from(bytes[15]),
        zf: Num::ohms(word(bytes, 16).into(), word(bytes, 18).into()),
    })
}

fn board(paper: &Paper, grid: &Grid, bytes: &[u8]) -> Option<usize> {
    grid.places.find(paper, 14, &bytes[2..14])
}

fn breaks(paper: &Paper, grid: &Grid, bytes: &[u8], room: usize, rule: u32) -> bool {
    let large = |at: usize| word(bytes, at) > paper.zf_most;
    match rule {
        12 => bytes.len() != 20,
        13 => bytes.get(..2) != Some(b"FT"),
        14 => board(paper, grid, bytes).is_none(),
        15 => bytes[14] > 3,
        16 => bytes[15] > 2 || (bytes[14] == 0 && bytes[15] != 0),
        17 => {
            let tested = paper.unearthed.zf_tested || !no_return(paper, grid, bytes);
            tested && (large(16) || large(18))
        }
        // Only under the fault "18 still there".
        18 => no_return(paper, grid, bytes),
        _ => room < room_needed(grid.boards.len()),
    }
}

/// An earth fault at a board without earth return.
fn no_return(paper: &Paper, grid: &Grid, bytes: &[u8]) -> bool {
    let earthed = |k| chains::earth_path(paper, grid, k).is_some();
    let to_earth = bytes[14] == 1 || bytes[14] == 3;
    to_earth && !board(paper, grid, bytes).is_some_and(earthed)
}
