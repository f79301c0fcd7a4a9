//! An answer of `write`: number, place, the file's length, whose bytes are shown, where they start,
//! how many they are, the room (four bytes each), and all bytes of the output. No bytes are shown.

use super::{fill, word, Taken};
use crate::judge::board::Board;
use crate::make::{WriteCase, MOST_OUT};
use crate::paper::Paper;
use crate::write::{write, Written};
use std::io::Read;

#[derive(Clone, PartialEq, Eq)]
pub struct WriteAnswer {
    pub verdict: Written,
    pub out: Vec<u8>,
}

/// What stands in the output before a call, so that one sees what was not written.
pub fn untouched(room: usize) -> Vec<u8> {
    (0..room).map(|i| ((7 * i + 3) % 256) as u8).collect()
}

pub fn answer(paper: &Paper, case: &WriteCase) -> WriteAnswer {
    let mut out = untouched(case.room);
    let boards = Board::decode_all(&case.boards);
    let verdict = write(paper, case.volts, case.unit, &boards, &mut out);
    WriteAnswer { verdict, out }
}

impl WriteAnswer {
    pub fn bytes(&self) -> Vec<u8> {
        let v = &self.verdict;
        let room = self.out.len() as u32;
        let numbers = [v.number, v.place, v.file, v.whose, v.start, v.length, room];
        let mut bytes: Vec<u8> = numbers.iter().flat_map(|x| x.to_le_bytes()).collect();
        bytes.extend(&self.out);
        bytes
    }
}

/// The rest of an answer, behind its number.
pub fn take(from: &mut impl Read, number: u32) -> Taken<WriteAnswer> {
    let mut rest = [0; 24];
    if fill(from, &mut rest)? < 24 {
        return Ok(Err("output ends inside an answer's head".into()));
    }
    let verdict = Written {
        number,
        place: word(&rest, 0),
        file: word(&rest, 4),
        whose: word(&rest, 8),
        start: word(&rest, 12),
        length: word(&rest, 16),
    };
    let room = word(&rest, 20) as usize;
    if room > MOST_OUT {
        return Ok(Err(format!("an output of {room} bytes, {verdict:?}")));
    }
    let mut out = vec![0; room];
    if fill(from, &mut out)? < room {
        return Ok(Err("output ends inside a written file".into()));
    }
    Ok(Ok(WriteAnswer { verdict, out }))
}
