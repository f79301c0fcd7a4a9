//! Demand 3 on one answer, from outside: only the bytes and the numbers of the buffer go in.
//!
//! The laws are tested in true phase values: sequences are always taken against phase a, never
//! against the odd phase, and every board keeps its own side. A transformer turns its feeder's
//! voltage on the way down and its current on the way up, so nothing is referred to the fault's
//! side by the paper's own formula; the two differ by a turn, which is no remainder.

use crate::paper::Premise;
use crate::plan::{plan, Plan};
use crate::ring::Num;

type Triple = [Num; 3];

/// Three times the sequence values 0, 1, 2 of phases a, b, c (three times, to stay whole).
fn sequences(v: Triple) -> Triple {
    [
        v[0] + v[1] + v[2],
        v[0] + v[1].turn(4) + v[2].turn(8),
        v[0] + v[1].turn(8) + v[2].turn(4),
    ]
}

/// By how much a sequence is turned from the feeder's side to the board's: lag, lead, nothing.
pub fn passing(sequence: usize, clock: i64) -> i64 {
    [0, -clock, clock][sequence]
}

pub fn phases(numbers: &[i64]) -> Triple {
    std::array::from_fn(|p| Num(std::array::from_fn(|i| numbers[4 * p + i].into())))
}

/// Values of the buffer, times D; sequence values times 3 D.
struct Values {
    d: i128,
    fault: Triple,
    fault_at: Triple,
    fault_seq: Triple,
    v: Vec<Triple>,
    i: Vec<Triple>,
}

fn values(plan: &Plan, buffer: &[i64]) -> Option<Values> {
    let n = plan.records.len();
    if buffer.len() < 13 + 24 * n {
        return None;
    }
    let fault = phases(&buffer[1..13]);
    let boards: Vec<&[i64]> = buffer[13..].chunks(24).take(n).collect();
    Some(Values {
        d: buffer[0].into(),
        fault,
        fault_at: phases(boards[plan.k]),
        fault_seq: sequences(fault),
        v: boards.iter().map(|b| sequences(phases(b))).collect(),
        i: boards.iter().map(|b| sequences(phases(&b[12..]))).collect(),
    })
}

/// All laws; what is broken, if anything.
pub fn check(net: &[u8], fault: &[u8], buffer: &[i64], amps: u64) -> Result<(), String> {
    given(Premise::AsWritten, net, fault, buffer, amps)
}

/// The same under some reading of demand 3's premise.
pub fn given(
    premise: Premise,
    net: &[u8],
    fault: &[u8],
    buffer: &[i64],
    amps: u64,
) -> Result<(), String> {
    let plan = plan(net, fault).ok_or("laws: bytes that can't have been accepted")?;
    let x = values(&plan, buffer).ok_or("laws: buffer too short")?;
    if x.d <= 0 {
        return Err("laws: D is not positive".into());
    }
    for r in 0..plan.records.len() {
        for s in 1..3 {
            ohm(&plan, &x, r, s)?;
        }
        ohm_zero(&plan, &x, r)?;
        if plan.given_zero(premise, r) {
            let zero = x.v[r][0] == Num::ZERO;
            need(zero, "voltage without earth return", r, 0)?;
        }
        for s in 0..3 {
            node(&plan, &x, r, s)?;
        }
    }
    connection(&plan, &x)?;
    whole_amps(&plan, &x, amps)
}

fn need(holds: bool, what: &str, r: usize, s: usize) -> Result<(), String> {
    if holds {
        return Ok(());
    }
    Err(format!("laws: {what}, record {}, sequence {s}", r + 1))
}

/// Positive and negative sequence; the source's feeder voltage is 1 and 0 on the fault's side,
/// which stands behind the source's by the turn of the faulted board.
fn ohm(plan: &Plan, x: &Values, r: usize, s: usize) -> Result<(), String> {
    let record = &plan.records[r];
    let feeder = match record.up {
        Some(u) => x.v[u][s],
        None if s == 1 => Num::whole(3 * x.d).turn(plan.records[plan.k].turn),
        None => Num::ZERO,
    };
    let right = feeder.turn(passing(s, record.clock)) - record.z[s] * x.i[r][s];
    need(x.v[r][s] == right, "Ohm's law", r, s)
}

fn ohm_zero(plan: &Plan, x: &Values, r: usize) -> Result<(), String> {
    let record = &plan.records[r];
    let (v, i) = (x.v[r][0], x.i[r][0]);
    if !record.earthed {
        need(i == Num::ZERO, "current without earth return", r, 0)?;
    }
    let feeder = match (record.kind, record.up) {
        (1 | 5, _) => return Ok(()),
        (2 | 3, Some(u)) => x.v[u][0],
        _ => Num::ZERO,
    };
    need(v == feeder - record.z[0] * i, "Ohm's law", r, 0)
}

/// What comes in by the record goes out by the records fed here and by the fault.
fn node(plan: &Plan, x: &Values, b: usize, s: usize) -> Result<(), String> {
    let mut out = if b == plan.k {
        x.fault_seq[s]
    } else {
        Num::ZERO
    };
    for (c, record) in plan.records.iter().enumerate() {
        if record.up == Some(b) && takes_from_feeder(record.kind, s) {
            out = out + x.i[c][s].turn(-passing(s, record.clock));
        }
    }
    need(x.i[b][s] == out, "Kirchhoff's law", b, s)
}

/// Zero sequence is drawn from the feeder board by kinds 2 and 3 only.
pub fn takes_from_feeder(kind: u8, sequence: usize) -> bool {
    sequence != 0 || kind == 2 || kind == 3
}

/// The fault's condition, in the phases it names.
fn connection(plan: &Plan, x: &Values) -> Result<(), String> {
    let at = |list: &Triple, i: usize| list[(plan.phase + i) % 3];
    let v = |i: usize| at(&x.fault_at, i);
    let c = |i: usize| at(&x.fault, i);
    let zf = plan.zf;
    let none = Num::ZERO;
    let rest = |i: usize| v(i) - zf * c(i);
    let holds = match plan.kind {
        0 => rest(0) == rest(1) && rest(1) == rest(2) && c(0) + c(1) + c(2) == none,
        1 => rest(0) == none && c(1) == none && c(2) == none,
        2 => c(0) == none && c(1) == -c(2) && v(1) - v(2) == zf * c(1),
        _ => c(0) == none && v(1) == v(2) && v(2) == zf * (c(1) + c(2)),
    };
    if holds {
        return Ok(());
    }
    Err("laws: the fault's connection".into())
}

/// n n D D unit unit <= |I D|^2 (volts 10^6)^2 < the same with n + 1, in 256 bits.
fn whole_amps(plan: &Plan, x: &Values, amps: u64) -> Result<(), String> {
    let current = match plan.kind {
        0 | 1 => x.fault[plan.phase],
        2 => x.fault[(plan.phase + 1) % 3],
        _ => x.fault_seq[0],
    };
    let square = current.norm().ok_or("laws: |I| squared is no fraction")?;
    let scale = plan.volts * 1_000_000;
    let limit = wide(square.unsigned_abs(), scale * scale);
    let d2 = x.d.unsigned_abs().pow(2);
    let at = |n: u128| wide(d2, (n * plan.unit).pow(2));
    let n = u128::from(amps);
    if amps < 1 << 40 && at(n) <= limit && limit < at(n + 1) {
        return Ok(());
    }
    Err(format!("laws: {amps} amps"))
}

/// The 256-bit product, high half first so that tuples compare as numbers.
fn wide(a: u128, b: u128) -> (u128, u128) {
    let low = u128::from(u64::MAX);
    let (ah, al, bh, bl) = (a >> 64, a & low, b >> 64, b & low);
    let (ll, hl, lh) = (al * bl, ah * bl, al * bh);
    let mid = (ll >> 64) + (hl & low) + (lh & low);
    let high = ah * bh + (hl >> 64) + (lh >> 64) + (mid >> 64);
    (high, (mid << 64) | (ll & low))
}

#[cfg(test)]
mod tests {
    use super::wide;

    #[test]
    fn wide_products() {
        let m = u128::MAX;
        assert_eq!(wide(m, m), (m - 1, 1));
        assert_eq!(wide(m, 2), (1, m - 1));
        assert_eq!(wide(1 << 64, 1 << 64), (1, 0));
        assert_eq!(wide(12_345, 678), (0, 12_345 * 678));
    }
}
