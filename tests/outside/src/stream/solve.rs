//! An answer of `solve`: number, place, N (four bytes each), amps (eight), whose bytes are shown,
//! where they start, how many they are (four each), these bytes themselves, how many elements the
//! buffer has (four), and the elements (eight each).

use super::{fill, part, word, Taken};
use crate::judge::{judge, Verdict, NETWORK};
use crate::make::{SolveCase, MOST_NET, MOST_ROOM};
use crate::paper::Paper;
use std::io::Read;

#[derive(Clone, PartialEq, Eq)]
pub struct SolveAnswer {
    pub verdict: Verdict,
    /// The bytes that the verdict's part names.
    pub shown: Vec<u8>,
    pub buffer: Vec<i64>,
}

/// What stands in the buffer before a call, so that one sees what was not written.
pub fn filled(room: usize) -> Vec<i64> {
    (1..=room as i64).map(|i| 1_000_003 * i).collect()
}

pub fn answer(paper: &Paper, case: &SolveCase) -> SolveAnswer {
    let mut buffer = filled(case.room);
    let verdict = judge(paper, &case.net, &case.fault, &mut buffer);
    SolveAnswer {
        verdict,
        shown: part(lent(&verdict, case), verdict.start, verdict.length),
        buffer,
    }
}

/// Whose bytes are shown.
fn lent<'a>(v: &Verdict, case: &'a SolveCase) -> &'a [u8] {
    match v.whose {
        NETWORK => &case.net,
        _ => &case.fault,
    }
}

impl SolveAnswer {
    pub fn bytes(&self) -> Vec<u8> {
        let v = &self.verdict;
        let mut bytes = Vec::with_capacity(36 + self.shown.len() + 8 * self.buffer.len());
        for x in [v.number, v.place, v.boards] {
            bytes.extend(x.to_le_bytes());
        }
        bytes.extend(v.amps.to_le_bytes());
        for x in [v.whose, v.start, v.length] {
            bytes.extend(x.to_le_bytes());
        }
        bytes.extend(&self.shown);
        bytes.extend((self.buffer.len() as u32).to_le_bytes());
        bytes.extend(self.buffer.iter().flat_map(|x| x.to_le_bytes()));
        bytes
    }
}

fn verdict(number: u32, rest: &[u8; 28]) -> Verdict {
    Verdict {
        number,
        place: word(rest, 0),
        boards: word(rest, 4),
        amps: u64::from(word(rest, 8)) | u64::from(word(rest, 12)) << 32,
        whose: word(rest, 16),
        start: word(rest, 20),
        length: word(rest, 24),
    }
}

/// The rest of an answer, behind its number.
pub fn take(from: &mut impl Read, number: u32) -> Taken<SolveAnswer> {
    let mut rest = [0; 28];
    if fill(from, &mut rest)? < 28 {
        return Ok(Err("output ends inside an answer's head".into()));
    }
    let verdict = verdict(number, &rest);
    // No more bytes can be shown than were lent.
    let length = verdict.length as usize;
    if length > MOST_NET {
        return Ok(Err(format!("{length} bytes shown, {verdict:?}")));
    }
    let mut shown = vec![0; length];
    let mut count = [0; 4];
    if fill(from, &mut shown)? < length || fill(from, &mut count)? < 4 {
        let what = format!("output ends inside the shown bytes, {verdict:?}");
        return Ok(Err(what));
    }
    let count = word(&count, 0) as usize;
    if count > MOST_ROOM {
        return Ok(Err(format!("count {count}, {verdict:?}")));
    }
    let mut bytes = vec![0; 8 * count];
    if fill(from, &mut bytes)? < bytes.len() {
        return Ok(Err("output ends inside a buffer".into()));
    }
    let number = |b: &[u8]| i64::from_le_bytes(std::array::from_fn(|i| b[i]));
    Ok(Ok(SolveAnswer {
        verdict,
        shown,
        buffer: bytes.chunks_exact(8).map(number).collect(),
    }))
}
