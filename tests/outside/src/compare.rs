//! One answer of the proved program held against this one, field by field and number by number.

use crate::earth::{chain, changed, short};
use crate::judge::room_needed;
use crate::make::{Case, EarthCase, SolveCase, WriteCase};
use crate::paper::Paper;
use crate::stream::earth::{answer as traced, EarthAnswer};
use crate::stream::solve::{answer as solved, SolveAnswer};
use crate::stream::write::{answer as written, WriteAnswer};
use crate::stream::Answer;
use crate::tally::Tally;
use crate::write::readback;
use crate::{crew, laws, solve};
use std::fmt::{Debug, Display};

/// Networks up to this size are always solved by elimination too, one in four of the larger.
const SMALL: u32 = 12;

/// What a comparison finds, by whose fault it is.
pub enum Finding {
    Program(String),
    /// This program contradicts itself; nothing is said of the other.
    Own(String),
}

impl From<String> for Finding {
    fn from(what: String) -> Finding {
        Finding::Program(what)
    }
}

/// Who can see a wrong answer without this program's own answer to the case.
#[derive(Clone, Copy, PartialEq, Eq)]
pub enum Witness {
    Laws,
    Solve,
    Crew,
    ReadBack,
    Chain,
    Changed,
    Short,
}

/// An answer is held against the due one, and then by itself against what the papers promise.
pub fn check(index: u64, case: &Case, got: &Answer, tally: &mut Tally) -> Result<(), Finding> {
    match (case, got) {
        (Case::Solve(case), Answer::Solve(got)) => check_solved(index, case, got, tally),
        (Case::Write(case), Answer::Write(got)) => Ok(check_written(case, got, tally)?),
        (Case::Earth(case), Answer::Earth(got)) => Ok(check_traced(case, got, tally)?),
        _ => Err(Finding::Own("an answer to another entry point".into())),
    }
}

fn check_solved(
    index: u64,
    case: &SolveCase,
    got: &SolveAnswer,
    tally: &mut Tally,
) -> Result<(), Finding> {
    let due = solved(&Paper::AS_WRITTEN, case);
    tally.count_solved(case, &due.verdict);
    same(&due, got)?;
    if got.verdict.number == 0 {
        tally.laws += 1;
        laws::check(&case.net, &case.fault, &got.buffer, got.verdict.amps)?;
        if got.verdict.boards <= SMALL || index & 3 == 0 {
            tally.solved += 1;
            solve::check(&case.net, &case.fault, &got.buffer)?;
        }
        let seen = crew::check(&case.net, &case.fault, &got.buffer, got.verdict.amps)?;
        tally.crew += u64::from(seen);
    }
    // Of this program alone: what its reader takes, its writer gives again.
    let copied = readback::copied(&case.net).map_err(Finding::Own)?;
    tally.copied += u64::from(copied);
    Ok(())
}

fn check_written(case: &WriteCase, got: &WriteAnswer, tally: &mut Tally) -> Result<(), String> {
    let due = written(&Paper::AS_WRITTEN, case);
    tally.count_written(case, &due.verdict);
    same_file(&due, got)?;
    tally.read_back += 1;
    readback::check(case, got)
}

fn check_traced(case: &EarthCase, got: &EarthAnswer, tally: &mut Tally) -> Result<(), String> {
    let due = traced(&Paper::AS_WRITTEN, case);
    tally.count_traced(case, &due.verdict);
    same_record(&due, got)?;
    chain::check(case, got)?;
    tally.add_trials(&changed::check(case, got)?);
    short::check(case, got)
}

/// Those who, each alone and without this program's own answer, see that an answer is wrong.
pub fn alone(case: &Case, got: &Answer) -> Vec<Witness> {
    let mut seen = Vec::new();
    match (case, got) {
        (Case::Solve(case), Answer::Solve(got)) => {
            let boards = case.net.len().saturating_sub(8) / 44;
            if got.verdict.number != 0 || got.buffer.len() < room_needed(boards) {
                return seen;
            }
            if laws::check(&case.net, &case.fault, &got.buffer, got.verdict.amps).is_err() {
                seen.push(Witness::Laws);
            }
            if solve::check(&case.net, &case.fault, &got.buffer).is_err() {
                seen.push(Witness::Solve);
            }
            if crew::check(&case.net, &case.fault, &got.buffer, got.verdict.amps).is_err() {
                seen.push(Witness::Crew);
            }
        }
        (Case::Write(case), Answer::Write(got)) if readback::check(case, got).is_err() => {
            seen.push(Witness::ReadBack);
        }
        (Case::Earth(case), Answer::Earth(got)) => {
            if chain::check(case, got).is_err() {
                seen.push(Witness::Chain);
            }
            if changed::check(case, got).is_err() {
                seen.push(Witness::Changed);
            }
            if short::check(case, got).is_err() {
                seen.push(Witness::Short);
            }
        }
        _ => {}
    }
    seen
}

pub fn same(due: &SolveAnswer, got: &SolveAnswer) -> Result<(), String> {
    same_said(&due.verdict, &got.verdict)?;
    same_shown(&due.shown, &got.shown, &due.verdict)?;
    let name = |i: usize| format!("number {i} of the buffer ({})", place_name(i, due));
    first_other(&due.buffer, &got.buffer, name)
}

pub fn same_file(due: &WriteAnswer, got: &WriteAnswer) -> Result<(), String> {
    same_said(&due.verdict, &got.verdict)?;
    let name = |i: usize| format!("byte {i} of the output ({})", byte_name(i, due));
    first_other(&due.out, &got.out, name)
}

pub fn same_record(due: &EarthAnswer, got: &EarthAnswer) -> Result<(), String> {
    same_said(&due.verdict, &got.verdict)?;
    same_shown(&due.shown, &got.shown, &due.verdict)
}

fn same_said<V: PartialEq + Debug>(due: &V, got: &V) -> Result<(), String> {
    if due == got {
        return Ok(());
    }
    Err(format!("due {due:?}\n got {got:?}"))
}

fn same_shown(due: &[u8], got: &[u8], verdict: &impl Debug) -> Result<(), String> {
    if due == got {
        return Ok(());
    }
    let (due, got) = (hex(due), hex(got));
    Err(format!("bytes shown: due {due}\n got {got}, {verdict:?}"))
}

/// Where two lists differ first.
fn first_other<T: PartialEq + Display>(
    due: &[T],
    got: &[T],
    name: impl Fn(usize) -> String,
) -> Result<(), String> {
    if due.len() != got.len() {
        return Err(format!("count: due {}, got {}", due.len(), got.len()));
    }
    match due.iter().zip(got).position(|(d, g)| d != g) {
        Some(i) => Err(format!("{}: due {}, got {}", name(i), due[i], got[i])),
        None => Ok(()),
    }
}

fn place_name(i: usize, due: &SolveAnswer) -> String {
    if due.verdict.number != 0 {
        return "a refusal, not to be written".into();
    }
    match i {
        0 => "D".into(),
        1..=12 => format!("fault current, phase {}", phase(i - 1)),
        _ if i >= room_needed(due.verdict.boards as usize) => "after the answer".into(),
        _ => {
            let (r, at) = ((i - 13) / 24 + 1, (i - 13) % 24);
            let what = if at < 12 { "voltage" } else { "current" };
            format!("record {r}, {what}, phase {}", phase(at))
        }
    }
}

fn byte_name(i: usize, due: &WriteAnswer) -> String {
    if due.verdict.number != 0 {
        return "a refusal, not to be written".into();
    }
    match i {
        0..=7 => "head".into(),
        _ if i >= due.verdict.file as usize => "after the file".into(),
        _ => format!("record {}, its byte {}", (i - 8) / 44 + 1, (i - 8) % 44),
    }
}

fn phase(at: usize) -> char {
    ['a', 'b', 'c'][at / 4 % 3]
}

pub fn hex(bytes: &[u8]) -> String {
    if bytes.is_empty() {
        return "-".into();
    }
    bytes.iter().map(|b| format!("{b:02x}")).collect()
}

/// A finding in a case, with what is needed to see it again.
pub fn report(who: &str, index: u64, case: &Case, finding: &Finding) -> String {
    let (note, again) = match case {
        Case::Solve(c) => {
            let (net, fault) = (hex(&c.net), hex(&c.fault));
            (&c.note, format!("solve {net} {fault} {}", c.room))
        }
        Case::Write(c) => {
            let boards = hex(&c.boards);
            let again = format!("write {boards} {} {} {}", c.volts, c.unit, c.room);
            (&c.note, again)
        }
        Case::Earth(c) => {
            let (net, label) = (hex(&c.net), hex(&c.label));
            (&c.note, format!("earth {net} {label}"))
        }
    };
    let at = format!("case {index} ({note})");
    match finding {
        Finding::Program(what) => {
            format!("DIFFERENCE between {who} at {at}\n {what}\n outside replay {again}")
        }
        Finding::Own(what) => format!(
            "self-test: {at}: {what}: the comparison itself is at fault\n outside replay {again}"
        ),
    }
}
