//! What the cases have met: every rule, every kind of fault, every edge of every range.

use crate::earth::changed::Trials;
use crate::edges::earth::{way, Way};
use crate::edges::forgotten::Entry;
use crate::edges::unearthed::{around, Around};
use crate::edges::Edges;
use crate::judge::earth::Traced;
use crate::judge::Verdict;
use crate::make::{EarthCase, SolveCase, WriteCase};
use crate::write::Written;
use std::collections::BTreeMap;

/// Outcomes of one entry point by their number.
#[derive(Default)]
struct Outcomes {
    rules: [u64; 22],
    /// Refusals by rule, at record 1, the last record, one between.
    places: BTreeMap<(u32, &'static str), u64>,
}

impl Outcomes {
    fn count(&mut self, number: u32, place: u32, last: usize) {
        self.rules[number as usize] += 1;
        let at = match place {
            _ if number == 0 => return,
            0 => return,
            1 => "first",
            p if p as usize == last => "last",
            _ => "between",
        };
        *self.places.entry((number, at)).or_default() += 1;
    }

    fn print(&self, entry: &str, rules: &[u32]) {
        println!("{entry:5} rule   cases   first    last between");
        for &rule in rules {
            let at = |p| self.places.get(&(rule, p)).copied().unwrap_or(0);
            let (a, b, c) = (at("first"), at("last"), at("between"));
            let n = self.rules[rule as usize];
            println!("{rule:10} {n:7} {a:7} {b:7} {c:7}");
        }
    }

    fn all(&self) -> u64 {
        self.rules.iter().sum()
    }
}

/// Accepted earth faults without earth return.
#[derive(Default)]
struct WithoutReturn {
    /// Kinds 1 and 3, by phase.
    by_phase: [[u64; 3]; 2],
    /// How many have joined boards there, and other parts without earth return.
    above: u64,
    below: u64,
    beside: u64,
    other_parts: u64,
}

impl WithoutReturn {
    fn count(&mut self, fault: &[u8], a: &Around) {
        self.by_phase[usize::from(fault[14] / 2)][usize::from(fault[15])] += 1;
        self.above += u64::from(a.above > 0);
        self.below += u64::from(a.below > 0);
        self.beside += u64::from(a.beside > 0);
        self.other_parts += u64::from(a.other_parts > 0);
    }

    fn print(&self) {
        let all: u64 = self.by_phase.iter().flatten().sum();
        println!("  without earth return, kinds 1 and 3: {all}");
        for (kind, by_phase) in ["1", "3"].iter().zip(&self.by_phase) {
            println!("    fault kind {kind}: phases a, b, c {by_phase:?}");
        }
        let (above, below, beside) = (self.above, self.below, self.beside);
        println!("    boards joined above k {above}, below {below}, beside {beside}");
        println!("    other parts without earth return {}", self.other_parts);
    }
}

/// Answers of `earth`, and labels that were none.
#[derive(Default)]
struct Traces {
    /// Stopped, and with an earth return, by how far away the record named is.
    ways: [[u64; 6]; 2],
    /// 14 by the label's bytes.
    lengths: [u64; 8],
    trials: Trials,
}

const WAYS: &str = "own record, 1, 2, 3 to 9, 10 to 99, 100 and more away";
const LENGTHS: &str = "0, 1, 2 to 10, 11, 12, 13, 14 to 63, 64";

impl Traces {
    fn answered(&mut self, earthed: u32, way: &Way) {
        let far = match way.length() {
            near @ 0..=2 => near,
            3..=9 => 3,
            10..=99 => 4,
            _ => 5,
        };
        self.ways[earthed as usize][far] += 1;
    }

    fn unknown(&mut self, length: usize) {
        let at = match length {
            0 | 1 => length,
            2..=10 => 2,
            11..=13 => length - 8,
            14..=63 => 6,
            _ => 7,
        };
        self.lengths[at] += 1;
    }

    fn print(&self) {
        let [stopped, from] = &self.ways;
        println!("  earth return from record r: {WAYS} {from:?}");
        println!("  none, stopped at record r: the same {stopped:?}");
        println!("  14 by bytes of the label: {LENGTHS} {:?}", self.lengths);
        let (tried, taken) = (self.trials.tried, self.trials.accepted);
        println!("  files changed off the chain {tried}, still accepted and true {taken}");
        let earthing = self.trials.earthing;
        println!("    of these beside no earth return with a new kind 4 record {earthing}");
    }
}

#[derive(Default)]
pub struct Tally {
    to_solve: Outcomes,
    to_write: Outcomes,
    to_trace: Outcomes,
    traces: Traces,
    /// By fault kind and phase.
    accepted: [[u64; 3]; 4],
    without_return: WithoutReturn,
    pub laws: u64,
    pub solved: u64,
    /// Answers held against what the crew sees.
    pub crew: u64,
    /// Write answers held against the reader.
    pub read_back: u64,
    /// Networks that were read and written again.
    pub copied: u64,
    edges: Edges,
}

impl Tally {
    pub fn count_solved(&mut self, case: &SolveCase, v: &Verdict) {
        let last = case.net.len().saturating_sub(8) / 44;
        self.to_solve.count(v.number, v.place, last);
        self.edges.look_solved(case, v);
        self.edges.look_typed(case, v);
        let records = case.net.get(8..).unwrap_or(&[]);
        self.edges
            .look_forgotten(Entry::Solve, records, v.number, v.place);
        let (f, no_return) = (&case.fault, around(case, v));
        if let Some(a) = &no_return {
            self.edges.look_unearthed(case, v, a);
        }
        if v.number == 0 {
            self.accepted[usize::from(f[14])][usize::from(f[15])] += 1;
            no_return
                .iter()
                .for_each(|a| self.without_return.count(f, a));
        }
    }

    pub fn count_written(&mut self, case: &WriteCase, v: &Written) {
        let last = case.boards.len() / 44;
        self.to_write.count(v.number, v.place, last);
        self.edges.look_written(case, v);
        self.edges.look_typed_boards(case, v);
        self.edges
            .look_forgotten(Entry::Write, &case.boards, v.number, v.place);
    }

    pub fn count_traced(&mut self, case: &EarthCase, v: &Traced) {
        let last = case.net.len().saturating_sub(8) / 44;
        self.to_trace.count(v.number, v.place, last);
        let way = way(case, v);
        self.edges.look_traced(case, v, way.as_ref());
        let records = case.net.get(8..).unwrap_or(&[]);
        self.edges
            .look_forgotten(Entry::Earth, records, v.number, v.place);
        match &way {
            Some(way) => self.traces.answered(v.earthed, way),
            None if v.number == 14 => self.traces.unknown(case.label.len()),
            None => {}
        }
    }

    pub fn add_trials(&mut self, more: &Trials) {
        self.traces.trials.tried += more.tried;
        self.traces.trials.accepted += more.accepted;
        self.traces.trials.earthing += more.earthing;
    }

    pub fn print(&self) {
        // In the order of their tests: 21 stands between 10 and 11. 18 is withdrawn.
        let network: Vec<u32> = (0..=10).chain([21, 11]).collect();
        let fault: &[u32] = &[12, 13, 14, 15, 16, 17, 19];
        self.to_solve.print("solve", &[&network, fault].concat());
        self.to_write
            .print("write", &[0, 3, 6, 7, 8, 9, 10, 21, 11, 20]);
        self.to_trace
            .print("earth", &[&network[..], &[14]].concat());
        let all = [&self.to_solve, &self.to_write, &self.to_trace].map(Outcomes::all);
        let (cases, [solve, write, earth]) = (all.iter().sum::<u64>(), all);
        println!("cases {cases}: {solve} solve, {write} write, {earth} earth");
        let taken = self.to_solve.rules[0];
        println!("solve: accepted {taken}, refused {}", solve - taken);
        for (kind, by_phase) in self.accepted.iter().enumerate() {
            println!("  fault kind {kind}: phases a, b, c {by_phase:?}");
        }
        self.without_return.print();
        let (laws, again, crew) = (self.laws, self.solved, self.crew);
        println!(
            "  laws held {laws} times, solved again {again} times, seen as a crew {crew} times"
        );
        let taken = self.to_write.rules[0];
        println!("write: accepted {taken}, refused {}", write - taken);
        println!("  held against the reader {} times", self.read_back);
        println!("  networks of solve cases written again {}", self.copied);
        let taken = self.to_trace.rules[0];
        println!("earth: answered {taken}, refused {}", earth - taken);
        self.traces.print();
    }

    pub fn print_edges(&self) {
        self.edges.print();
    }
}
