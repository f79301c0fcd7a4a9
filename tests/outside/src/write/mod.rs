//! the network file from volts, unit and decoded boards.
//!
//! The boards are judged as they are given, by the rules that the reader asks; only then are bytes
//! laid down. `readback` goes the other way, from bytes over the reader, and sees what slips here.

pub mod readback;
pub mod table;

use crate::judge::board::{Board, HEAD, RECORD};
use crate::judge::network::{first_broken, head_fits, join, Grid};
use crate::judge::NETWORK;
use crate::paper::{Paper, WriterTest};

/// What a write says beside the bytes of its output.
#[derive(Clone, Copy, Debug, PartialEq, Eq)]
pub struct Written {
    pub number: u32,
    pub place: u32,
    /// Bytes of the file; 0 on a refusal.
    pub file: u32,
    /// The part shown, always empty: decoded boards are no bytes, and 20 asks about room.
    pub whose: u32,
    pub start: u32,
    pub length: u32,
}

fn said(number: u32, place: usize, file: usize) -> Written {
    Written {
        number,
        place: place as u32,
        file: file as u32,
        whose: NETWORK,
        start: 0,
        length: 0,
    }
}

pub fn file_length(boards: usize) -> usize {
    HEAD + RECORD * boards
}

/// `out` is written only when the boards are accepted, and only as far as the file goes.
pub fn write(paper: &Paper, volts: u16, unit: u16, boards: &[Board], out: &mut [u8]) -> Written {
    let grid = join(paper, volts, unit, boards.to_vec());
    if let Some((number, place)) = refused(paper, &grid, out.len()) {
        return said(number, place, 0);
    }
    let file = lay(&grid);
    out[..file.len()].copy_from_slice(&file);
    said(0, 0, file.len())
}

/// The first refusal and its place.
fn refused(paper: &Paper, grid: &Grid, room: usize) -> Option<(u32, usize)> {
    let count = grid.boards.len();
    paper.writer_tests.iter().find_map(|test| match test {
        WriterTest::Head if head_fits(paper, grid.volts, grid.unit, count) => None,
        WriterTest::Head => Some((3, 0)),
        // A mark is what the writer puts there itself: 5 is never asked.
        WriterTest::Boards => {
            first_broken(paper, grid, 6, |_| true).map(|(number, r)| (number, r + 1))
        }
        WriterTest::Room => (room < file_length(count) + paper.spare_room).then_some((20, 0)),
    })
}

/// The file, field by field in the order of 01, 'Files'.
fn lay(grid: &Grid) -> Vec<u8> {
    let mut file = b"HD".to_vec();
    let count = grid.boards.len() as u16;
    for number in [grid.volts, grid.unit, count] {
        file.extend(number.to_le_bytes());
    }
    for b in &grid.boards {
        file.extend(b"BD");
        file.extend(b.label);
        file.extend(b.feeder);
        file.extend([b.kind, b.clock]);
        b.parts.iter().for_each(|p| file.extend(p.to_le_bytes()));
    }
    file
}
