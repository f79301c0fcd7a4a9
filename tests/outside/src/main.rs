//! A second hand's reading of the paper, to test the proved program from outside. See README.md.

mod compare;
mod crew;
mod earth;
mod edges;
mod faults;
mod field;
mod figures;
mod judge;
mod laws;
mod make;
mod paper;
mod plan;
mod process;
mod ring;
mod rng;
mod solve;
mod stream;
mod table;
mod tally;
mod write;

use make::Case;
use std::fs::File;
use std::io::{self, BufReader, BufWriter, Read, Write};
use std::process::ExitCode;
use std::time::Instant;
use stream::earth::EarthAnswer;
use stream::solve::SolveAnswer;
use stream::Answer;

const USAGE: &str = "outside make SEED COUNT > stream
outside answer [BUDGET] < stream > answers
outside compare SEED COUNT ANSWERS|-
outside run SEED COUNT -- COMMAND ARGS..
outside cuts SEED COUNT -- COMMAND ARGS..
outside figures
outside faults
outside hunt SEED COUNT
outside edges SEED COUNT
outside replay solve HEXNET HEXFAULT ROOM [-- COMMAND ARGS..]   (- for no bytes)
outside replay write HEXBOARDS VOLTS UNIT ROOM [-- COMMAND ARGS..]
outside replay earth HEXNET HEXLABEL [-- COMMAND ARGS..]";

/// Ok: all agree. Err: what does not; an empty one is a wrong command line.
type Outcome = Result<(), String>;

fn main() -> ExitCode {
    let args: Vec<String> = std::env::args().skip(1).collect();
    match command(&args) {
        Ok(()) => ExitCode::SUCCESS,
        Err(what) if what.is_empty() => {
            eprintln!("{USAGE}");
            ExitCode::from(2)
        }
        Err(what) => {
            println!("{what}");
            ExitCode::from(1)
        }
    }
}

fn number(text: &str) -> Result<u64, String> {
    text.parse().map_err(|_| String::new())
}

fn small(text: &str) -> Result<u16, String> {
    text.parse().map_err(|_| String::new())
}

fn command(args: &[String]) -> Outcome {
    // Behind "--" stands the program to be tested.
    let end = args.iter().position(|a| a == "--");
    let (words, program) = args.split_at(end.unwrap_or(args.len()));
    let words: Vec<&str> = words.iter().map(String::as_str).collect();
    match (&words[..], program) {
        (["make", seed, count], []) => make_stream(number(seed)?, number(count)?),
        (["answer"], []) => serve(u64::MAX),
        (["answer", budget], []) => serve(number(budget)?),
        (["compare", seed, count, from], []) => compare_file(number(seed)?, number(count)?, from),
        (["run", seed, count], [_, _, ..]) => run(number(seed)?, number(count)?, &program[1..]),
        (["cuts", seed, count], [_, _, ..]) => cuts(number(seed)?, number(count)?, &program[1..]),
        (["figures"], []) => figures(),
        (["faults"], []) => faults::all(),
        (["hunt", seed, count], []) => faults::hunt(number(seed)?, number(count)?),
        (["edges", seed, count], []) => edges(number(seed)?, number(count)?),
        (["replay", case @ ..], []) => replay(replayed(case)?, &[]),
        (["replay", case @ ..], [_, _, ..]) => replay(replayed(case)?, &program[1..]),
        _ => Err(String::new()),
    }
}

fn figures() -> Outcome {
    if figures::all() {
        return Ok(());
    }
    Err("figures: the outside implementation itself is at fault".into())
}

fn told(e: io::Error) -> String {
    e.to_string()
}

fn make_stream(seed: u64, count: u64) -> Outcome {
    let mut out = BufWriter::new(io::stdout().lock());
    for index in 0..count {
        stream::write_case(&mut out, &make::case(seed, index)).map_err(told)?;
    }
    out.flush().map_err(told)
}

fn serve(budget: u64) -> Outcome {
    let mut from = BufReader::new(io::stdin().lock());
    let mut out = BufWriter::with_capacity(1 << 16, io::stdout().lock());
    stream::serve(&mut from, &mut out, budget).map_err(told)?;
    out.flush().map_err(told)
}

fn compare_file(seed: u64, count: u64, from: &str) -> Outcome {
    let mut answers: Box<dyn Read> = match from {
        "-" => Box::new(BufReader::new(io::stdin().lock())),
        path => Box::new(BufReader::new(File::open(path).map_err(told)?)),
    };
    let mut tally = tally::Tally::default();
    let cases = (0..count).map(|i| (i, make::case(seed, i)));
    let result = process::compare(&mut answers, cases, &mut tally);
    tally.print();
    let (answered, mark) = result?;
    if answered < count || &mark != b"END\n" {
        let mark = String::from_utf8_lossy(&mark).into_owned();
        return Err(format!("{mark:?} after {answered} of {count} cases"));
    }
    println!("{count} cases agree");
    Ok(())
}

fn run(seed: u64, count: u64, command: &[String]) -> Outcome {
    let began = Instant::now();
    let mut tally = tally::Tally::default();
    let result = process::run(seed, count, command, &mut tally);
    tally.print();
    let processes = result?;
    let seconds = began.elapsed().as_secs_f64();
    println!("{count} cases agree, {processes} processes, {seconds:.1} s");
    Ok(())
}

fn cuts(seed: u64, count: u64, command: &[String]) -> Outcome {
    let mut tally = tally::Tally::default();
    process::cuts(seed, count, command, &mut tally)?;
    println!("{count} cut streams end as they should");
    Ok(())
}

/// What the maker's cases meet, by this program's own judgement; no other program is run.
fn edges(seed: u64, count: u64) -> Outcome {
    let mut tally = tally::Tally::default();
    for index in 0..count {
        let case = make::case(seed, index);
        let due = stream::answer(&paper::Paper::AS_WRITTEN, &case);
        let who = "this program's answers and what the papers promise of them";
        compare::check(index, &case, &due, &mut tally)
            .map_err(|finding| compare::report(who, index, &case, &finding))?;
    }
    tally.print();
    tally.print_edges();
    Ok(())
}

fn unhex(text: &str) -> Result<Vec<u8>, String> {
    let digits = if text == "-" { "" } else { text };
    if digits.len() % 2 != 0 || !digits.is_ascii() {
        return Err(String::new());
    }
    (0..digits.len() / 2)
        .map(|i| u8::from_str_radix(&digits[2 * i..2 * i + 2], 16).map_err(|_| String::new()))
        .collect()
}

fn replayed(words: &[&str]) -> Result<Case, String> {
    let note = String::from("replayed");
    match words {
        ["solve", net, fault, room] => Ok(Case::Solve(make::SolveCase {
            room: number(room)? as usize,
            net: unhex(net)?,
            fault: unhex(fault)?,
            note,
        })),
        ["write", boards, volts, unit, room] => Ok(Case::Write(make::WriteCase {
            room: number(room)? as usize,
            volts: small(volts)?,
            unit: small(unit)?,
            boards: unhex(boards).and_then(whole_boards)?,
            note,
        })),
        ["earth", net, label] => Ok(Case::Earth(make::EarthCase {
            net: unhex(net)?,
            label: unhex(label)?,
            note,
        })),
        _ => Err(String::new()),
    }
}

fn whole_boards(bytes: Vec<u8>) -> Result<Vec<u8>, String> {
    match bytes.len() % 44 {
        0 => Ok(bytes),
        over => Err(format!("{over} bytes after the last board of 44")),
    }
}

fn replay(case: Case, command: &[String]) -> Outcome {
    match (&case, stream::answer(&paper::Paper::AS_WRITTEN, &case)) {
        (Case::Solve(case), Answer::Solve(due)) => replay_solve(case, &due)?,
        (Case::Write(case), Answer::Write(due)) => {
            println!("{:?}", due.verdict);
            println!("output {}", compare::hex(&due.out));
            write::readback::check(case, &due)?;
            println!("the reader agrees");
        }
        (Case::Earth(case), Answer::Earth(due)) => replay_earth(case, &due)?,
        _ => {}
    }
    if !command.is_empty() {
        process::one(case, command, &mut tally::Tally::default())?;
        println!("the program agrees");
    }
    Ok(())
}

fn replay_solve(case: &make::SolveCase, due: &SolveAnswer) -> Outcome {
    println!("{:?}", due.verdict);
    println!("shown {}", compare::hex(&due.shown));
    print!("{}", figures::text(case, due));
    if due.verdict.number == 0 {
        laws::check(&case.net, &case.fault, &due.buffer, due.verdict.amps)?;
        solve::check(&case.net, &case.fault, &due.buffer)?;
        println!("laws hold, and give these numbers only");
        if crew::check(&case.net, &case.fault, &due.buffer, due.verdict.amps)? {
            println!("and the crew sees what it should");
        }
    }
    Ok(())
}

fn replay_earth(case: &make::EarthCase, due: &EarthAnswer) -> Outcome {
    println!("{:?}", due.verdict);
    println!("shown {}", compare::hex(&due.shown));
    println!("{}", figures::earth::text(due));
    earth::chain::check(case, due)?;
    earth::short::check(case, due)?;
    println!("reader, chain and an earth fault there agree");
    let trials = earth::changed::check(case, due)?;
    let (tried, accepted) = (trials.tried, trials.accepted);
    println!("files changed off the chain {tried}, still accepted and true {accepted}");
    Ok(())
}
