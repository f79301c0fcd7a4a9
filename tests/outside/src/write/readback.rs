//! What R-1 promises, held of an answer by itself: this program's own writer has no say here.
//!
//! A board of a case comes as the bytes of a record, so a file can be laid down from it by putting
//! head and marks right, without decoding anything; the reader then says whether it is one.

use super::{file_length, write};
use crate::judge::board::{Board, RECORD};
use crate::judge::network::{self, Grid};
use crate::make::WriteCase;
use crate::paper::Paper;
use crate::stream::write::{untouched, WriteAnswer};

const PAPER: Paper = Paper::AS_WRITTEN;

fn need(holds: bool, what: &str) -> Result<(), String> {
    if holds {
        return Ok(());
    }
    Err(format!("read back: {what}"))
}

/// The bytes that the case's file would have, sound or not. N fits: a stream has 372 at most.
pub fn laid_down(case: &WriteCase) -> Vec<u8> {
    let count = (case.boards.len() / RECORD) as u16;
    let mut file = b"HD".to_vec();
    for number in [case.volts, case.unit, count] {
        file.extend(number.to_le_bytes());
    }
    for board in case.boards.chunks_exact(RECORD) {
        file.extend(b"BD");
        file.extend(&board[2..]);
    }
    file
}

/// All promises; the one that is broken, if any.
pub fn check(case: &WriteCase, got: &WriteAnswer) -> Result<(), String> {
    need(got.out.len() == case.room, "bytes of the output")?;
    let (file, length) = (laid_down(case), got.verdict.file as usize);
    need(length <= case.room, "a file longer than the output")?;
    let kept = got.out[length..] == untouched(case.room)[length..];
    let place = got.verdict.place;
    match got.verdict.number {
        0 => accepted(case, &got.out[..length], &file)?,
        20 => {
            need(network::read(&PAPER, &file).is_ok(), "20 comes last")?;
            need(file.len() > case.room, "20, and the file has room")?;
        }
        n => {
            let read = network::read(&PAPER, &file).err();
            let alike = read.is_some_and(|v| (v.number, v.place) == (n, place));
            need(alike, "the reader does not refuse this so")?;
        }
    }
    let placed = place == 0 || matches!(got.verdict.number, 6..=11 | 21);
    need(placed, "a place where none is due")?;
    let empty = got.verdict.number == 0 || length == 0;
    need(empty, "a length on a refusal")?;
    need(kept, "bytes changed that are not the file's")
}

fn accepted(case: &WriteCase, written: &[u8], file: &[u8]) -> Result<(), String> {
    let Ok(grid) = network::read(&PAPER, written) else {
        return need(false, "the reader refuses what was written");
    };
    let head = (grid.volts, grid.unit) == (case.volts, case.unit);
    need(head, "volts or unit are not those given")?;
    let same = grid.boards == Board::decode_all(&case.boards);
    need(same, "the boards are not those given")?;
    need(written == file, "not the bytes given, but for the marks")
}

/// A self-test: what the reader took from these bytes, written again, gives them again. True if the
/// reader took anything.
pub fn copied(net: &[u8]) -> Result<bool, String> {
    let Ok(grid) = network::read(&PAPER, net) else {
        return Ok(false);
    };
    let Grid {
        volts,
        unit,
        boards,
        ..
    } = grid;
    let mut out = untouched(net.len() + 1);
    let last = out[net.len()];
    let said = write(&PAPER, volts, unit, &boards, &mut out);
    let due = (0, file_length(boards.len()));
    let same = (said.number, said.file as usize) == due && out[..net.len()] == *net;
    if same && out[net.len()] == last {
        return Ok(true);
    }
    Err(format!("what was read is not written again ({said:?})"))
}
