//! Cases and answers as bytes: little endian, one after the other.
//!
//! A case is four numbers of four bytes and two parts: which entry point is asked, the room, the
//! lengths of the parts, the parts. `solve`, `write` and `earth` say how their answers are laid out.

pub mod earth;
pub mod solve;
pub mod write;

use self::earth::EarthAnswer;
use self::solve::SolveAnswer;
use self::write::WriteAnswer;
use crate::judge::board::{word as half, RECORD};
use crate::make::{Case, EarthCase, SolveCase, WriteCase};
use crate::make::{MOST_BOARDS, MOST_FAULT, MOST_LABEL, MOST_NET, MOST_OUT, MOST_ROOM};
use crate::paper::Paper;
use std::io::{self, ErrorKind, Read, Write};

/// The entry points by their numbers.
pub const SOLVE: u32 = 1;
pub const WRITE: u32 = 2;
pub const EARTH: u32 = 3;

#[derive(Clone, PartialEq, Eq)]
pub enum Answer {
    Solve(SolveAnswer),
    Write(WriteAnswer),
    Earth(EarthAnswer),
}

/// The answer under some reading of the paper (`Paper::AS_WRITTEN`, or one with a fault in it).
pub fn answer(paper: &Paper, case: &Case) -> Answer {
    match case {
        Case::Solve(c) => Answer::Solve(solve::answer(paper, c)),
        Case::Write(c) => Answer::Write(write::answer(paper, c)),
        Case::Earth(c) => Answer::Earth(earth::answer(paper, c)),
    }
}

pub fn write_case(out: &mut impl Write, case: &Case) -> io::Result<()> {
    let head: Vec<u8>;
    let (entry, room, first, second) = match case {
        Case::Solve(c) => (SOLVE, c.room, &c.net, &c.fault),
        Case::Write(c) => {
            head = [c.volts, c.unit].map(u16::to_le_bytes).concat();
            (WRITE, c.room, &c.boards, &head)
        }
        Case::Earth(c) => (EARTH, 0, &c.net, &c.label),
    };
    let lengths = [room, first.len(), second.len()].map(|l| l as u32);
    for number in [entry].iter().chain(&lengths) {
        out.write_all(&number.to_le_bytes())?;
    }
    out.write_all(first)?;
    out.write_all(second)
}

pub enum Input {
    Case(Case),
    End,
    Cut,
}

fn word(bytes: &[u8], at: usize) -> u32 {
    u32::from_le_bytes(std::array::from_fn(|i| bytes[at + i]))
}

/// Reads as much as there is, up to the whole of `into`.
fn fill(from: &mut impl Read, into: &mut [u8]) -> io::Result<usize> {
    let mut done = 0;
    while done < into.len() {
        match from.read(&mut into[done..]) {
            Ok(0) => break,
            Ok(n) => done += n,
            Err(e) if e.kind() == ErrorKind::Interrupted => {}
            Err(e) => return Err(e),
        }
    }
    Ok(done)
}

/// Whether a case may have this entry point, room and lengths.
fn asked_rightly(entry: u32, room: usize, first: usize, second: usize) -> bool {
    match entry {
        SOLVE => room <= MOST_ROOM && first <= MOST_NET && second <= MOST_FAULT,
        WRITE => {
            let boards = first % RECORD == 0 && first <= RECORD * MOST_BOARDS;
            room <= MOST_OUT && boards && second == 4
        }
        // Nothing is lent to be written.
        EARTH => room == 0 && first <= MOST_NET && second <= MOST_LABEL,
        _ => false,
    }
}

pub fn read_case(from: &mut impl Read) -> io::Result<Input> {
    let mut head = [0; 16];
    match fill(from, &mut head)? {
        0 => return Ok(Input::End),
        16 => {}
        _ => return Ok(Input::Cut),
    }
    let entry = word(&head, 0);
    let [room, first, second] = [4, 8, 12].map(|at| word(&head, at) as usize);
    if !asked_rightly(entry, room, first, second) {
        return Ok(Input::Cut);
    }
    let mut bytes = vec![0; first + second];
    if fill(from, &mut bytes)? < bytes.len() {
        return Ok(Input::Cut);
    }
    let second = bytes.split_off(first);
    Ok(Input::Case(case_from(entry, room, bytes, second)))
}

fn case_from(entry: u32, room: usize, first: Vec<u8>, second: Vec<u8>) -> Case {
    let note = String::from("from a stream");
    match entry {
        WRITE => Case::Write(WriteCase {
            room,
            volts: half(&second, 0),
            unit: half(&second, 2),
            boards: first,
            note,
        }),
        EARTH => Case::Earth(EarthCase {
            net: first,
            label: second,
            note,
        }),
        _ => Case::Solve(SolveCase {
            room,
            net: first,
            fault: second,
            note,
        }),
    }
}

pub fn write_answer(out: &mut impl Write, a: &Answer) -> io::Result<()> {
    out.write_all(&match a {
        Answer::Solve(a) => a.bytes(),
        Answer::Write(a) => a.bytes(),
        Answer::Earth(a) => a.bytes(),
    })
}

/// The bytes that a part names.
fn part(whole: &[u8], start: u32, length: u32) -> Vec<u8> {
    let (start, length) = (start as usize, length as usize);
    let mut part: Vec<u8> = whole.iter().skip(start).take(length).copied().collect();
    // A wrong reading may name bytes that are not there; its stream has to be as long as it says.
    part.resize(length, 0);
    part
}

/// What `batch` may say next.
pub enum Reply {
    Answer(Answer),
    /// "END\n", "BUDG" or "CUT\n": no answer begins so, since its first number is at most 21.
    Mark([u8; 4]),
    /// The output stops where something should stand, or can't be an answer.
    Broken(String),
}

/// An answer's bytes, or why they can't be one.
type Taken<T> = io::Result<Result<T, String>>;

/// The mark behind the last answer; or what stands there instead.
pub fn read_mark(from: &mut impl Read) -> Taken<[u8; 4]> {
    let mut mark = [0; 4];
    Ok(match fill(from, &mut mark)? {
        4 if is_mark(&mark) => Ok(mark),
        4 => Err("an answer too many".into()),
        got => Err(format!("output ends after {got} of 4 bytes")),
    })
}

fn is_mark(bytes: &[u8; 4]) -> bool {
    [b"END\n", b"BUDG", b"CUT\n"].contains(&bytes)
}

/// What was said to `case`: the entry point that it asks decides how the answer is laid out.
pub fn read_reply(from: &mut impl Read, case: &Case) -> io::Result<Reply> {
    let mut first = [0; 4];
    let got = fill(from, &mut first)?;
    if got < 4 {
        return Ok(Reply::Broken(format!("output ends after {got} of 4 bytes")));
    }
    if is_mark(&first) {
        return Ok(Reply::Mark(first));
    }
    let number = u32::from_le_bytes(first);
    let taken = match case {
        Case::Solve(_) => solve::take(from, number)?.map(Answer::Solve),
        Case::Write(_) => write::take(from, number)?.map(Answer::Write),
        Case::Earth(_) => earth::take(from, number)?.map(Answer::Earth),
    };
    Ok(taken.map_or_else(Reply::Broken, Reply::Answer))
}

/// Acts as `batch`: answers what stands on `from`; `budget` cases at most.
pub fn serve(from: &mut impl Read, out: &mut impl Write, budget: u64) -> io::Result<()> {
    for _ in 0..budget {
        match read_case(from)? {
            Input::Case(case) => write_answer(out, &answer(&Paper::AS_WRITTEN, &case))?,
            Input::End => return out.write_all(b"END\n"),
            Input::Cut => return out.write_all(b"CUT\n"),
        }
    }
    out.write_all(b"BUDG")
}

#[cfg(test)]
mod tests {
    use super::*;

    /// Some answers show many bytes, some none; some have a buffer, some none; some are files, some
    /// name a record.
    #[test]
    fn answers_are_read_as_written() {
        for index in 0..400 {
            let case = crate::make::case(1, index);
            let due = answer(&Paper::AS_WRITTEN, &case);
            let mut bytes = Vec::new();
            write_answer(&mut bytes, &due).unwrap();
            match read_reply(&mut &bytes[..], &case).unwrap() {
                Reply::Answer(got) => assert!(got == due),
                _ => panic!("case {index} is not read as an answer"),
            }
            for end in (0..bytes.len()).take(200) {
                let cut = read_reply(&mut &bytes[..end], &case).unwrap();
                assert!(matches!(cut, Reply::Broken(_)), "case {index} cut at {end}");
            }
        }
    }

    /// A case that has gone through a stream is asked in the same bytes again.
    #[test]
    fn cases_are_read_as_written() {
        for index in 0..400 {
            let mut bytes = Vec::new();
            write_case(&mut bytes, &crate::make::case(2, index)).unwrap();
            let Input::Case(read) = read_case(&mut &bytes[..]).unwrap() else {
                panic!("case {index} is not read as one");
            };
            let mut again = Vec::new();
            write_case(&mut again, &read).unwrap();
            assert!(again == bytes, "case {index}");
        }
    }
}
