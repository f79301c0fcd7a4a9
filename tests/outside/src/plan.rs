//! A second reading of accepted bytes, for `laws`, `solve`, `crew` and `earth` only: it shares nothing
//! with `judge`.
//!
//! Labels are looked for from the front, by the standard library's comparison without regard to case
//! turn and earth return are carried from feeder to board.

use crate::paper::Premise;
use crate::ring::Num;

pub struct Record {
    pub up: Option<usize>,
    pub kind: u8,
    pub clock: i64,
    /// The impedance in zero, positive and negative sequence (zero: the kind table's term).
    pub z: [Num; 3],
    pub earthed: bool,
    /// The clocks summed down to here.
    pub turn: i64,
}

pub struct Plan {
    pub volts: u128,
    pub unit: u128,
    pub records: Vec<Record>,
    pub k: usize,
    pub kind: u8,
    pub phase: usize,
    pub zf: Num,
    /// k and the boards joined to it by kinds 2 and 3.
    pub joined: Vec<bool>,
}

impl Plan {
    /// The two faults of R-2: kinds 1 and 3 without earth return.
    pub fn without_return(&self) -> bool {
        matches!(self.kind, 1 | 3) && !self.records[self.k].earthed
    }

    /// Whether demand 3 is given that this board's zero-sequence voltage is zero: a board with no
    /// earth return, but for those that R-2 leaves out.
    pub fn given_zero(&self, premise: Premise, r: usize) -> bool {
        let left_out = match premise {
            Premise::AsWritten => self.without_return() && self.joined[r],
            Premise::Everywhere => false,
            Premise::Nowhere => true,
            Premise::NotAtK => self.without_return() && r == self.k,
            Premise::AnyFault => self.joined[r],
        };
        !self.records[r].earthed && !left_out
    }
}

/// A record of kind 2 or 3 with one end among the joined boards brings the other in. All records
/// are gone through until none brings a board more.
fn joined(records: &[Record], k: usize) -> Vec<bool> {
    let mut in_it = vec![false; records.len()];
    in_it[k] = true;
    let mut more = true;
    while more {
        more = false;
        for (r, record) in records.iter().enumerate() {
            if let (2 | 3, Some(u)) = (record.kind, record.up) {
                more |= in_it[r] != in_it[u];
                let either = in_it[r] || in_it[u];
                in_it[r] = either;
                in_it[u] = either;
            }
        }
    }
    in_it
}

fn pair(b: &[u8]) -> Num {
    let part = |i: usize| i128::from(b[i]) + 256 * i128::from(b[i + 1]);
    Num::ohms(part(0), part(2))
}

fn place_of(net: &[u8], label: &[u8]) -> Option<usize> {
    let mut boards = net[8..].chunks(44);
    boards.position(|b| b[2..14].eq_ignore_ascii_case(label))
}

/// None where the bytes are none that could have been accepted.
pub fn plan(net: &[u8], fault: &[u8]) -> Option<Plan> {
    if net.len() < 52 || net.len() % 44 != 8 || fault.len() != 20 {
        return None;
    }
    let mut records: Vec<Record> = Vec::new();
    for b in net[8..].chunks(44) {
        let (own, up) = (place_of(net, &b[2..14]), place_of(net, &b[14..26]));
        // Each is the first of its label, and all but the source are fed by an earlier one.
        let first = own == Some(records.len());
        if !first || up.map_or(!records.is_empty(), |u| u >= records.len()) {
            return None;
        }
        // And no transformer is without impedance.
        if (3..=5).contains(&b[26]) && pair(&b[28..]) == Num::ZERO {
            return None;
        }
        let record = record(b, up, &records);
        records.push(record);
    }
    let word = |i: usize| u128::from(net[i]) + 256 * u128::from(net[i + 1]);
    let k = place_of(net, &fault[2..14])?;
    Some(Plan {
        volts: word(2),
        unit: word(4),
        joined: joined(&records, k),
        records,
        k,
        kind: fault[14],
        phase: usize::from(fault[15]),
        zf: pair(&fault[16..]),
    })
}

fn record(b: &[u8], up: Option<usize>, before: &[Record]) -> Record {
    let (kind, clock) = (b[26], i64::from(b[27]));
    let neutral = match kind {
        2 => Num::ZERO,
        _ => pair(&b[40..]).times(3),
    };
    let feeder = up.map(|u| &before[u]);
    let earthed = match kind {
        0 | 4 => true,
        1 | 5 => false,
        _ => feeder.is_some_and(|f| f.earthed),
    };
    Record {
        up,
        kind,
        clock,
        z: [pair(&b[36..]) + neutral, pair(&b[28..]), pair(&b[32..])],
        earthed,
        turn: clock + feeder.map_or(0, |f| f.turn),
    }
}
