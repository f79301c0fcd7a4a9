//! The second method: the laws as one linear system with every value unknown, solved by plain
//! Gauss elimination. No chain, no sum, no formula of the four faults goes in.
//!
//! The elimination runs modulo a prime of 64 bits in all four images of t. That it finds full rank
//! there shows that the system has one solution only in the paper's own numbers (a determinant that
//! is zero stays zero modulo any prime); `laws` shows exactly, in i128, that the buffer is one.

use crate::field::{self, add, inverse, mul, sub};
use crate::laws::{passing, takes_from_feeder};
use crate::paper::Premise;
use crate::plan::{plan, Plan};
use crate::ring::Num;
use std::collections::BTreeMap;

/// Coefficients by unknown, and the right side.
type Row = (Vec<(usize, Num)>, Num);

const ONE: Num = Num::whole(1);

fn volt(r: usize, s: usize) -> usize {
    6 * r + s
}

fn amp(r: usize, s: usize) -> usize {
    6 * r + 3 + s
}

/// Fault currents stand after all records.
fn out(plan: &Plan, s: usize) -> usize {
    6 * plan.records.len() + s
}

fn zero(list: Vec<(usize, Num)>) -> Row {
    (list, Num::ZERO)
}

fn ohm_rows(plan: &Plan, r: usize, rows: &mut Vec<Row>) {
    let record = &plan.records[r];
    for s in 0..3 {
        if s == 0 && matches!(record.kind, 1 | 5) {
            continue;
        }
        let mut list = vec![(volt(r, s), ONE), (amp(r, s), record.z[s])];
        let mut right = Num::ZERO;
        match record.up {
            Some(u) if takes_from_feeder(record.kind, s) => {
                list.push((volt(u, s), -ONE.turn(passing(s, record.clock))));
            }
            None if s == 1 => right = ONE.turn(plan.records[plan.k].turn),
            _ => {}
        }
        rows.push((list, right));
    }
    if !record.earthed {
        rows.push(zero(vec![(amp(r, 0), ONE)]));
    }
}

fn node_rows(plan: &Plan, b: usize, rows: &mut Vec<Row>) {
    for s in 0..3 {
        let mut list = vec![(amp(b, s), ONE)];
        for (c, record) in plan.records.iter().enumerate() {
            if record.up == Some(b) && takes_from_feeder(record.kind, s) {
                list.push((amp(c, s), -ONE.turn(-passing(s, record.clock))));
            }
        }
        if b == plan.k {
            list.push((out(plan, s), -ONE));
        }
        rows.push(zero(list));
    }
}

/// Factor times a phase value, spread over the three sequence unknowns from `first` on.
fn phase(first: usize, m: usize, factor: Num) -> Vec<(usize, Num)> {
    let m = m as i64;
    let turned = [factor, factor.turn(8 * m), factor.turn(4 * m)];
    (first..).zip(turned).collect()
}

fn connection_rows(plan: &Plan) -> Vec<Row> {
    let m = |i: usize| (plan.phase + i) % 3;
    let v = |i: usize, factor: Num| phase(volt(plan.k, 0), m(i), factor);
    let c = |i: usize, factor: Num| phase(out(plan, 0), m(i), factor);
    let zf = plan.zf;
    let differ = |i, l| [v(i, ONE), c(i, -zf), v(l, -ONE), c(l, zf)].concat();
    let list = match plan.kind {
        0 => vec![
            differ(0, 1),
            differ(1, 2),
            [c(0, ONE), c(1, ONE), c(2, ONE)].concat(),
        ],
        1 => vec![[v(0, ONE), c(0, -zf)].concat(), c(1, ONE), c(2, ONE)],
        2 => vec![
            c(0, ONE),
            [c(1, ONE), c(2, ONE)].concat(),
            [v(1, ONE), v(2, -ONE), c(1, -zf)].concat(),
        ],
        _ => vec![
            c(0, ONE),
            [v(1, ONE), v(2, -ONE)].concat(),
            [v(2, ONE), c(1, -zf), c(2, -zf)].concat(),
        ],
    };
    list.into_iter().map(zero).collect()
}

fn system(plan: &Plan, premise: Premise) -> Vec<Row> {
    let mut rows = Vec::new();
    for r in 0..plan.records.len() {
        ohm_rows(plan, r, &mut rows);
        if plan.given_zero(premise, r) {
            rows.push(zero(vec![(volt(r, 0), ONE)]));
        }
        node_rows(plan, r, &mut rows);
    }
    rows.extend(connection_rows(plan));
    rows
}

/// A row in one image of t: columns in order, zeros left out, the right side in the last column.
type Sparse = Vec<(usize, u64)>;

fn image(row: &Row, unknowns: usize, w: u64) -> Sparse {
    let (list, right) = row;
    let mut sums: BTreeMap<usize, u64> = BTreeMap::new();
    for &(column, x) in list.iter().chain(&[(unknowns, *right)]) {
        let sum = sums.entry(column).or_default();
        *sum = add(*sum, field::map(x, w));
    }
    sums.into_iter().filter(|&(_, x)| x != 0).collect()
}

/// row - factor * other, zeros left out.
fn less(row: &Sparse, factor: u64, other: &Sparse) -> Sparse {
    let mut out = Sparse::with_capacity(row.len() + other.len());
    let (mut i, mut k) = (0, 0);
    while i < row.len() || k < other.len() {
        let left = row.get(i).map_or(usize::MAX, |e| e.0);
        let right = other.get(k).map_or(usize::MAX, |e| e.0);
        let mut value = 0;
        if left <= right {
            value = row[i].1;
            i += 1;
        }
        if right <= left {
            value = sub(value, mul(factor, other[k].1));
            k += 1;
        }
        if value != 0 {
            out.push((left.min(right), value));
        }
    }
    out
}

/// Forward elimination; one row for each unknown, beginning there. Or what is wrong: some unknown is
/// left free, or a row is left that says 0 = something.
fn eliminate(rows: Vec<Sparse>, unknowns: usize) -> Result<Vec<Sparse>, &'static str> {
    let mut waiting: Vec<Vec<Sparse>> = vec![Vec::new(); unknowns + 1];
    for row in rows.into_iter().filter(|row| !row.is_empty()) {
        waiting[row[0].0].push(row);
    }
    let mut done = Vec::with_capacity(unknowns);
    for c in 0..unknowns {
        let mut list = std::mem::take(&mut waiting[c]);
        let shortest = (0..list.len()).min_by_key(|&i| list[i].len());
        let shortest = shortest.ok_or("leave a value open")?;
        let pivot = list.swap_remove(shortest);
        let scale = if list.is_empty() {
            0
        } else {
            inverse(pivot[0].1)
        };
        for row in list {
            let rest = less(&row, mul(row[0].1, scale), &pivot);
            if let Some(&(first, _)) = rest.first() {
                waiting[first].push(rest);
            }
        }
        done.push(pivot);
    }
    match waiting[unknowns].is_empty() {
        true => Ok(done),
        false => Err("contradict each other"),
    }
}

fn back(rows: &[Sparse], unknowns: usize) -> Vec<u64> {
    // The right side is an unknown of value -1 on the left.
    let mut x = vec![0; unknowns + 1];
    x[unknowns] = sub(0, 1);
    for row in rows.iter().rev() {
        let known = row[1..].iter();
        let sum = known.fold(0, |sum, &(i, a)| add(sum, mul(a, x[i])));
        x[row[0].0] = sub(0, mul(sum, inverse(row[0].1)));
    }
    x
}

/// Phases a, b, c of three sequence values, times D; `a` is the 120 degree operator's image.
fn phases(x: &[u64], a: u64, d: u64) -> [u64; 3] {
    let a2 = mul(a, a);
    let sum = |plus: u64, minus: u64| mul(d, add(x[0], add(plus, minus)));
    [
        sum(x[1], x[2]),
        sum(mul(a2, x[1]), mul(a, x[2])),
        sum(mul(a, x[1]), mul(a2, x[2])),
    ]
}

/// Solves the laws and holds the solution against every number of the buffer.
pub fn check(net: &[u8], fault: &[u8], buffer: &[i64]) -> Result<(), String> {
    given(Premise::AsWritten, net, fault, buffer)
}

/// The same under some reading of demand 3's premise.
pub fn given(premise: Premise, net: &[u8], fault: &[u8], buffer: &[i64]) -> Result<(), String> {
    let plan = plan(net, fault).ok_or("solve: bytes that can't have been accepted")?;
    let n = plan.records.len();
    let rows = system(&plan, premise);
    let unknowns = 6 * n + 3;
    let shown: Vec<Num> = buffer[1..13 + 24 * n]
        .chunks(4)
        .map(|c| Num(std::array::from_fn(|i| c[i].into())))
        .collect();
    for w in field::roots() {
        let images = rows.iter().map(|row| image(row, unknowns, w)).collect();
        let steps =
            eliminate(images, unknowns).map_err(|what| format!("solve: the laws {what}"))?;
        let x = back(&steps, unknowns);
        let (d, a) = (field::whole(buffer[0].into()), field::pow(w, 4));
        // Fault currents come first in the buffer and last among the unknowns.
        let order = std::iter::once(6 * n).chain((0..6 * n).step_by(3));
        for (place, first) in order.enumerate() {
            let right = phases(&x[first..first + 3], a, d);
            let left = &shown[3 * place..3 * place + 3];
            if (0..3).any(|m| field::map(left[m], w) != right[m]) {
                return Err(format!("solve: numbers from place {}", 1 + 12 * place));
            }
        }
    }
    Ok(())
}
