//! Runs another program as `batch`: feeds cases, reads answers, compares.

use crate::compare::{check, report, Finding};
use crate::make::{self, Case};
use crate::stream::{read_mark, read_reply, write_case, Reply, EARTH, SOLVE, WRITE};
use crate::tally::Tally;
use std::io::{BufReader, Read, Write};
use std::process::{Child, ChildStdout, Command, Stdio};
use std::thread::JoinHandle;

/// Cases that one process is given at most.
const CHUNK: u64 = 4_000;

/// What does not agree, and at which case if it is one.
pub struct Difference {
    at: Option<(u64, Case)>,
    finding: Finding,
}

impl From<Difference> for String {
    fn from(d: Difference) -> String {
        let who = "the program and the outside implementation";
        match &d.at {
            Some((index, case)) => report(who, *index, case, &d.finding),
            None => format!("DIFFERENCE between {who}: {}", d.what()),
        }
    }
}

impl From<std::io::Error> for Difference {
    fn from(e: std::io::Error) -> Difference {
        Difference::apart(e.to_string())
    }
}

impl Difference {
    fn apart(what: String) -> Difference {
        Difference {
            at: None,
            finding: Finding::Program(what),
        }
    }

    pub fn what(&self) -> &str {
        match &self.finding {
            Finding::Program(what) | Finding::Own(what) => what,
        }
    }
}

/// How many cases were answered, and the mark that ended the answers.
type Ended = (u64, [u8; 4]);

/// Compares the answers on `from` with those due to the cases.
pub fn compare(
    from: &mut impl Read,
    cases: impl Iterator<Item = (u64, Case)>,
    tally: &mut Tally,
) -> Result<Ended, Difference> {
    let mut answered = 0;
    for (index, case) in cases {
        let result = match read_reply(from, &case)? {
            Reply::Answer(got) => check(index, &case, &got, tally),
            Reply::Mark(mark) => return ended(from, answered, mark),
            Reply::Broken(what) => Err(Finding::Program(what)),
        };
        if let Err(finding) = result {
            let at = Some((index, case));
            return Err(Difference { at, finding });
        }
        answered += 1;
    }
    match read_mark(from)? {
        Ok(mark) => ended(from, answered, mark),
        Err(what) => Err(Difference::apart(format!("after the last answer: {what}"))),
    }
}

/// Nothing may follow the mark.
fn ended(from: &mut impl Read, n: u64, mark: [u8; 4]) -> Result<Ended, Difference> {
    let mut rest = Vec::new();
    from.read_to_end(&mut rest)?;
    if rest.is_empty() {
        return Ok((n, mark));
    }
    let what = format!("{} bytes after the closing mark", rest.len());
    Err(Difference::apart(what))
}

struct Batch {
    child: Child,
    answers: BufReader<ChildStdout>,
    feeder: JoinHandle<()>,
}

/// Starts the command and feeds it from a thread, so that neither side waits on a full pipe.
fn start(command: &[String], stream: Vec<u8>) -> Result<Batch, String> {
    let mut child = Command::new(&command[0])
        .args(&command[1..])
        .stdin(Stdio::piped())
        .stdout(Stdio::piped())
        .spawn()
        .map_err(|e| format!("{}: {e}", command[0]))?;
    let mut input = child.stdin.take().ok_or("no standard input")?;
    let output = child.stdout.take().ok_or("no standard output")?;
    // A program whose budget is used up stops reading: that is no error here.
    let feeder = std::thread::spawn(move || drop(input.write_all(&stream)));
    Ok(Batch {
        child,
        answers: BufReader::with_capacity(1 << 16, output),
        feeder,
    })
}

fn stop(mut batch: Batch) -> Result<(), String> {
    drop(batch.answers);
    let status = batch.child.wait().map_err(|e| e.to_string())?;
    drop(batch.feeder.join());
    if status.success() {
        return Ok(());
    }
    Err(format!("the program ended with {status}"))
}

pub fn stream_of(seed: u64, first: u64, end: u64) -> Vec<u8> {
    let mut bytes = Vec::new();
    for index in first..end {
        write_case(&mut bytes, &make::case(seed, index)).expect("memory takes all");
    }
    bytes
}

/// What a process answers, compared. A difference is told before how the process ended, which may be by it.
fn heard(
    mut batch: Batch,
    cases: impl Iterator<Item = (u64, Case)>,
    t: &mut Tally,
) -> Result<Ended, String> {
    match compare(&mut batch.answers, cases, t) {
        Ok(end) => stop(batch).map(|()| end),
        Err(difference) => {
            // The process may still be writing; it is ours, so it is ended by its own handle.
            drop(batch.child.kill());
            let mut told = String::from(difference);
            if let Err(status) = stop(batch) {
                told += &format!("\n {status} (it is stopped at the first difference)");
            }
            Err(told)
        }
    }
}

/// One process, cases `first` to `end` - 1; how many it answered.
fn chunk(seed: u64, first: u64, end: u64, cmd: &[String], t: &mut Tally) -> Result<u64, String> {
    let cases = (first..end).map(|i| (i, make::case(seed, i)));
    let (answered, mark) = heard(start(cmd, stream_of(seed, first, end))?, cases, t)?;
    match &mark {
        b"END\n" if answered == end - first => Ok(answered),
        b"BUDG" if answered > 0 => Ok(answered),
        _ => Err(format!(
            "{:?} after {answered} of {} cases",
            String::from_utf8_lossy(&mark),
            end - first
        )),
    }
}

pub fn run(seed: u64, count: u64, command: &[String], tally: &mut Tally) -> Result<u64, String> {
    let (mut next, mut processes, mut size) = (0, 0, CHUNK);
    while next < count {
        let end = count.min(next + size);
        let answered = chunk(seed, next, end, command, tally)?;
        // A budget met once is kept to afterwards.
        if answered < end - next {
            size = answered;
        }
        next += answered;
        processes += 1;
    }
    Ok(processes)
}

/// One case, as given, to the command.
pub fn one(case: Case, command: &[String], tally: &mut Tally) -> Result<(), String> {
    let mut bytes = Vec::new();
    write_case(&mut bytes, &case).expect("memory takes all");
    heard(start(command, bytes)?, std::iter::once((0, case)), tally).map(|_| ())
}

/// Heads that no case may have: entry point, room, lengths of the two parts.
const WRONG_HEADS: [[u32; 4]; 24] = [
    [0, 0, 0, 0],
    [4, 0, 52, 12],
    [256 + SOLVE, 0, 0, 0],
    [256 + EARTH, 0, 52, 12],
    [u32::MAX, 0, 0, 0],
    [SOLVE, 6_401, 0, 0],
    [SOLVE, 0, 16_401, 0],
    [SOLVE, 0, 0, 65],
    [WRITE, 16_401, 44, 4],
    [WRITE, 52, 43, 4],
    [WRITE, 52, 45, 4],
    [WRITE, 8, 1, 4],
    [WRITE, 16_400, 16_412, 4],
    [WRITE, 52, 44, 0],
    [WRITE, 52, 44, 3],
    [WRITE, 52, 44, 5],
    [WRITE, 52, 44, 20],
    [EARTH, 1, 52, 12],
    // Room as an answer of `solve` would need it.
    [EARTH, 37, 52, 12],
    [EARTH, u32::MAX, 0, 0],
    [EARTH, 0, 16_401, 12],
    [EARTH, 0, u32::MAX, 12],
    [EARTH, 0, 52, 65],
    [EARTH, 0, 52, u32::MAX],
];

/// Three streams in twelve have such a head, so that 96 have each of them once.
fn has_wrong_head(index: u64) -> bool {
    index % 6 == 5 || index % 12 == 6
}

/// How a stream may end behind its whole cases, and with which mark it must be answered.
fn ending(seed: u64, index: u64) -> (Vec<u8>, &'static [u8; 4]) {
    let round = index / 6;
    if has_wrong_head(index) {
        let earlier = (0..index).filter(|&i| has_wrong_head(i)).count();
        let head = WRONG_HEADS[earlier % WRONG_HEADS.len()];
        let mut bytes: Vec<u8> = head.iter().flat_map(|n| n.to_le_bytes()).collect();
        // Its parts are all there, as far as there is an end to them: only the head is wrong.
        let parts = head[2].saturating_add(head[3]).min(20_000) as usize;
        bytes.resize(bytes.len() + parts, b' ');
        return (bytes, b"CUT\n");
    }
    let mut bytes = Vec::new();
    let entry = [SOLVE, WRITE, EARTH][round as usize % 3];
    let case = make::case_of(entry, seed, index);
    write_case(&mut bytes, &case).expect("memory takes all");
    let length = bytes.len();
    let keep = match index % 6 {
        0 => 0,
        1 => 1 + round as usize % 15,
        2 => 16.min(length - 1),
        3 => length - 1,
        _ => length / 2,
    };
    bytes.truncate(keep);
    (bytes, if keep == 0 { b"END\n" } else { b"CUT\n" })
}

/// Streams cut inside a case, or with a head that none may have, must give the whole cases before
/// it and "CUT\n"; those that end behind a whole case "END\n".
pub fn cuts(seed: u64, count: u64, command: &[String], tally: &mut Tally) -> Result<(), String> {
    for index in 0..count {
        let (whole, from) = (index % 4, index * 4);
        let mut bytes = stream_of(seed, from, from + whole);
        let (last, due) = ending(seed, index);
        bytes.extend(&last);
        let cases = (from..from + whole).map(|i| (i, make::case(seed, i)));
        if heard(start(command, bytes)?, cases, tally)? != (whole, *due) {
            let told = &last[..last.len().min(16)];
            return Err(format!(
                "stream {index}, {whole} cases and {} bytes ({told:02x?}..): wrong end",
                last.len()
            ));
        }
    }
    Ok(())
}
