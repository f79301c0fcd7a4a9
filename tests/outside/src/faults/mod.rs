//! The self-test: deliberate faults, each in a case made by hand to show it. All must be caught,
//! or the comparison is not worth much.
//!
//! An answer with the fault in it takes the way of the real program's answers: bytes of a stream,
//! read and compared. The right answer to the same case takes it too, and must pass. No case is
//! drawn, so nothing depends on a seed; `hunt` says how soon the drawn cases meet the same faults.

mod earth;
mod forgotten;
mod list;
mod premise;
mod typed;
mod unearthed;
mod writer;

use crate::compare::{alone, Witness};
use crate::figures::paper_records;
use crate::judge::room_needed;
use crate::make::labels::label;
use crate::make::model::Draft;
use crate::make::{self, Case, EarthCase, SolveCase, WriteCase};
use crate::paper::Paper;
use crate::process::compare;
use crate::stream::earth::EarthAnswer;
use crate::stream::solve::SolveAnswer;
use crate::stream::write::WriteAnswer;
use crate::stream::{answer, write_answer, Answer, EARTH, WRITE};
use crate::tally::Tally;
use crate::write::file_length;

enum Fault {
    /// A wrong reading of the paper: the judge is run with one sentence changed.
    Reading(fn(&mut Paper)),
    /// This rule and the next tested in the wrong order.
    Order(u32),
    /// Damage to a right answer.
    Solved(fn(&mut SolveAnswer, &SolveCase)),
    Written(fn(&mut WriteAnswer, &WriteCase)),
    Traced(fn(&mut EarthAnswer, &EarthCase)),
    /// Damage to the stream of a right answer.
    Stream(fn(&mut Vec<u8>)),
}

/// Makes of the paper's network a case that shows the fault.
enum Made {
    /// With an earth fault at HALL, and one number more than the answer needs.
    Solve(fn(&mut Draft)),
    /// To be written, in one byte more than the file needs.
    Write(fn(&mut Draft)),
    /// The label whose earth return is asked for.
    Earth(fn(&mut Draft) -> Vec<u8>),
    /// Any of these, where two labels meet.
    Met(typed::Meeting),
    /// Of this entry point; an earth return is asked for at the fault's label.
    Any(u32, fn(&mut Draft)),
}

impl Made {
    fn case(&self, note: &str) -> Case {
        match self {
            Made::Solve(change) => to_solve(note, change),
            Made::Write(change) => to_write(note, change),
            Made::Earth(change) => to_trace(note, change),
            Made::Met(m) => of_entry(m.entry, note, |d| m.arrange(d)),
            Made::Any(entry, change) => of_entry(*entry, note, change),
        }
    }
}

fn of_entry(entry: u32, note: &str, change: impl Fn(&mut Draft)) -> Case {
    match entry {
        WRITE => to_write(note, change),
        EARTH => to_trace(note, |d| {
            change(d);
            d.fault_label.to_vec()
        }),
        _ => to_solve(note, change),
    }
}

/// How titles begin.
fn entry_name(entry: u32) -> &'static str {
    match entry {
        WRITE => "write: ",
        EARTH => "earth: ",
        _ => "",
    }
}

fn to_solve(note: &str, change: impl Fn(&mut Draft)) -> Case {
    let mut draft = paper_draft();
    draft.room = room_needed(draft.recs.len()) + 1;
    change(&mut draft);
    Case::Solve(make::finish(draft, note))
}

fn to_write(note: &str, change: impl Fn(&mut Draft)) -> Case {
    let mut draft = paper_draft();
    draft.room = file_length(draft.recs.len()) + 1;
    // A mark that is none: what stands there is not to be looked at.
    draft.recs.iter_mut().for_each(|r| r.mark = *b"xy");
    change(&mut draft);
    Case::Write(make::finish_file(&draft, note))
}

fn to_trace(note: &str, change: impl Fn(&mut Draft) -> Vec<u8>) -> Case {
    let mut draft = paper_draft();
    let label = change(&mut draft);
    Case::Earth(make::finish_earth(&draft, label, note))
}

/// The paper's network with phase a of HALL to earth.
fn paper_draft() -> Draft {
    let recs = paper_records();
    Draft {
        mark: *b"HD",
        volts: 230,
        unit: 1000,
        count: recs.len() as u16,
        room: 0,
        up: vec![None, Some(0), Some(0)],
        recs,
        net_length: None,
        fault_mark: *b"FT",
        fault_label: label(b"HALL"),
        fault_kind: 1,
        phase: 0,
        zf: [0, 0],
        fault_length: None,
        filler: 0,
    }
}

struct Row {
    name: &'static str,
    fault: Fault,
    made: Made,
    /// Who must see it too, each alone and without the judge's own answer.
    alone: &'static [Witness],
}

fn rows() -> Vec<Row> {
    let mut rows = drawn();
    rows.extend(list::streams());
    rows.extend(writer::streams());
    rows.extend(earth::streams());
    rows.extend(typed::others());
    rows.extend(forgotten::others());
    rows
}

/// Those that any case may show, not only the one made for it.
fn drawn() -> Vec<Row> {
    let mut rows = list::drawn();
    rows.extend(unearthed::drawn());
    rows.extend(writer::drawn());
    rows.extend(typed::drawn());
    rows.extend(earth::drawn());
    rows.extend(forgotten::drawn());
    rows
}

impl Row {
    /// The fault, and where two labels meet if that shows it, or who is asked.
    fn title(&self) -> String {
        match &self.made {
            Made::Met(m) => format!("{}, {}", self.name, m.told()),
            Made::Any(entry, _) => format!("{}{}", entry_name(*entry), self.name),
            _ => self.name.into(),
        }
    }

    fn wrong(&self, case: &Case) -> (Answer, Vec<u8>) {
        let mut paper = Paper::AS_WRITTEN;
        match self.fault {
            Fault::Reading(change) => change(&mut paper),
            Fault::Order(rule) => paper.exchanged = rule,
            _ => {}
        }
        let mut a = answer(&paper, case);
        match (&self.fault, &mut a, case) {
            (Fault::Solved(damage), Answer::Solve(a), Case::Solve(case)) => damage(a, case),
            (Fault::Written(damage), Answer::Write(a), Case::Write(case)) => damage(a, case),
            (Fault::Traced(damage), Answer::Earth(a), Case::Earth(case)) => damage(a, case),
            _ => {}
        }
        let mut bytes = stream(&a);
        if let Fault::Stream(damage) = self.fault {
            damage(&mut bytes);
        }
        (a, bytes)
    }

    /// What the comparison says of the fault; or what is wrong with the comparison.
    fn tried(&self) -> Result<String, String> {
        let case = self.made.case(self.name);
        let right = stream(&answer(&Paper::AS_WRITTEN, &case));
        if let Some(what) = complaint(&case, &right) {
            let beside = format!("the right answer beside '{}'", self.title());
            return Err(format!("{beside} was not let pass ({what})"));
        }
        let (got, bytes) = self.wrong(&case);
        let fault = format!("the deliberate fault '{}'", self.title());
        let what = complaint(&case, &bytes).ok_or(format!("{fault} was not caught"))?;
        let seen = alone(&case, &got);
        match self.alone.iter().find(|who| !seen.contains(who)) {
            Some(who) => Err(format!("{fault} was not caught by {}", name(*who))),
            None => Ok(what),
        }
    }
}

fn name(who: Witness) -> &'static str {
    match who {
        Witness::Laws => "laws alone",
        Witness::Solve => "solve alone",
        Witness::Crew => "the crew alone",
        Witness::ReadBack => "the reader alone",
        Witness::Chain => "the chain alone",
        Witness::Changed => "changed files alone",
        Witness::Short => "an earth fault alone",
    }
}

/// The whole stream of one answer.
fn stream(a: &Answer) -> Vec<u8> {
    let mut bytes = Vec::new();
    write_answer(&mut bytes, a).expect("memory takes all");
    bytes.extend(b"END\n");
    bytes
}

/// What the comparison says of a stream with one answer; none where it passes.
fn complaint(case: &Case, mut bytes: &[u8]) -> Option<String> {
    let cases = std::iter::once((0, case.clone()));
    match compare(&mut bytes, cases, &mut Tally::default()) {
        Ok((1, mark)) if &mark == b"END\n" => None,
        Ok((n, mark)) => Some(format!("{:?} after {n}", String::from_utf8_lossy(&mark))),
        Err(difference) => Some(difference.what().into()),
    }
}

/// All faults; none may go by.
pub fn all() -> Result<(), String> {
    let mut missed = Vec::new();
    let mut see = |name: &str, seen: &[Witness], tried: Result<String, String>| match tried {
        Ok(what) => {
            let also = seen.iter().map(|who| format!(", by {}", self::name(*who)));
            println!("caught  {name}{}", also.collect::<String>());
            println!("          {}", what.replace('\n', "\n          "));
        }
        Err(what) => missed.push(format!(
            "self-test: {what}: the comparison itself is at fault"
        )),
    };
    let (rows, slips) = (rows(), premise::slips());
    for row in &rows {
        see(&row.title(), row.alone, row.tried());
    }
    for slip in &slips {
        see(slip.name, &[], slip.tried());
    }
    let all = rows.len() + slips.len();
    let caught = all - missed.len();
    println!("{caught} of {all} deliberate faults caught");
    if missed.is_empty() {
        return Ok(());
    }
    Err(missed.join("\n"))
}

/// How soon the drawn cases of a seed meet the faults: a measure of the maker, no self-test.
pub fn hunt(seed: u64, count: u64) -> Result<(), String> {
    let mut unmet = Vec::new();
    for row in drawn() {
        let met = (0..count).find(|&index| {
            let case = make::case(seed, index);
            complaint(&case, &row.wrong(&case).1).is_some()
        });
        match met {
            Some(index) => println!("case {index:6} meets  {}", row.name),
            None => unmet.push(row.name),
        }
    }
    if unmet.is_empty() {
        return Ok(());
    }
    let names = unmet.join(", ");
    Err(format!("not met by {count} cases of seed {seed}: {names}"))
}

#[cfg(test)]
mod tests {
    #[test]
    fn faults_are_caught() {
        assert_eq!(super::all(), Ok(()));
    }
}
