//! The verdict, as the paper says it, by methods of its own: labels in a hash map keyed by what
//! is compared, every sum by walking a chain back to the source, all arithmetic in checked i128.

pub mod amps;
pub mod answer;
pub mod board;
pub mod chains;
pub mod earth;
pub mod fault;
pub mod network;
mod unearthed;

use crate::paper::Paper;

/// Whose bytes a part is of, in the numbers of the stream.
pub const NETWORK: u32 = 1;
pub const FAULT: u32 = 2;
pub const LABEL: u32 = 3;

/// Everything an outcome says beside the buffer. Fields an outcome does not have are 0.
#[derive(Clone, Copy, Debug, PartialEq, Eq, Default)]
pub struct Verdict {
    pub number: u32,
    pub place: u32,
    pub boards: u32,
    pub amps: u64,
    pub whose: u32,
    pub start: u32,
    pub length: u32,
}

/// A refusal has number, place and part only: N and amps stay 0.
pub fn refusal(number: u32, place: usize, whose: u32, start: usize, length: usize) -> Verdict {
    Verdict {
        number,
        place: place as u32,
        whose,
        start: start as u32,
        length: length as u32,
        ..Verdict::default()
    }
}

/// How many numbers an answer takes.
pub fn room_needed(boards: usize) -> usize {
    13 + 24 * boards
}

/// Judges one call; `buffer` is written only when the call is accepted.
pub fn judge(paper: &Paper, net: &[u8], flt: &[u8], buffer: &mut [i64]) -> Verdict {
    match accept(paper, net, flt, buffer) {
        Ok(v) | Err(v) => v,
    }
}

fn accept(paper: &Paper, net: &[u8], flt: &[u8], out: &mut [i64]) -> Result<Verdict, Verdict> {
    let grid = network::read(paper, net)?;
    let short = fault::read(paper, &grid, flt, out.len())?;
    let amps = answer::write(paper, &grid, &short, out);
    Ok(Verdict {
        number: 0,
        place: short.board as u32 + 1,
        boards: grid.boards.len() as u32,
        amps,
        whose: NETWORK,
        start: 8 + 44 * short.board as u32,
        length: 44,
    })
}
