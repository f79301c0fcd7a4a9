//! The deliberate faults of `solve`, and beside each what is done to the paper's network and fault
//! to show it.

use super::Fault::{Order, Reading, Solved, Stream};
use super::{Fault, Made, Row};
use crate::compare::Witness;
use crate::judge::{refusal, room_needed, FAULT, NETWORK};
use crate::make::labels::label;
use crate::make::model::Draft;
use crate::make::SolveCase;
use crate::stream::solve::{filled, SolveAnswer};

fn as_it_is(_: &mut Draft) {}

fn at(d: &mut Draft, board: &str, kind: u8, phase: u8) {
    d.fault_label = label(board.as_bytes());
    d.fault_kind = kind;
    d.phase = phase;
}

/// The source loses its earth, and with it BOOTH-WEST-1 its earth return: an earth fault there.
fn unearthed(d: &mut Draft) {
    d.recs[0].kind = 1;
    d.recs[0].z[4..].fill(0);
    at(d, "BOOTH-WEST-1", 1, 0);
}

fn nowhere() -> [u8; 12] {
    label(b"NOWHERE")
}

// Who must see a fault beside the comparison. `laws` look at values and amps, `solve` at values.
const NOBODY: &[Witness] = &[];
const LAWS: &[Witness] = &[Witness::Laws];
const BOTH: &[Witness] = &[Witness::Laws, Witness::Solve];
const EVERY: &[Witness] = &[Witness::Laws, Witness::Solve, Witness::Crew];

fn row(name: &'static str, fault: Fault, case: fn(&mut Draft), alone: &'static [Witness]) -> Row {
    Row {
        name,
        fault,
        made: Made::Solve(case),
        alone,
    }
}

/// Those that any case may show, not only the one made for it.
pub fn drawn() -> Vec<Row> {
    let mut rows = readings();
    rows.extend(values());
    rows.extend(verdicts());
    rows.extend(orders());
    rows
}

fn readings() -> Vec<Row> {
    let reading = |name, change, case, alone| row(name, Reading(change), case, alone);
    vec![
        reading("zn once", |p| p.zn_times = 1, |d| at(d, "GEN", 1, 0), BOTH),
        reading("Zf once in G", |p| p.zf_times = 1, |d| d.zf = [3, 4], BOTH),
        reading(
            "kind 4 passes zero sequence",
            |p| p.kind4_starts = false,
            as_it_is,
            BOTH,
        ),
        reading(
            "negative turned as positive",
            |p| p.negative_turn = 1,
            as_it_is,
            BOTH,
        ),
        reading("board side leads", |p| p.lag = -1, as_it_is, BOTH),
        // The request's own two boards: to the eleventh letter they are one.
        reading(
            "labels of eleven letters",
            |p| p.labels.count = 11,
            |d| {
                d.recs[2].label = label(b"BOOTH-WEST-2");
                at(d, "BOOTH-WEST-2", 1, 0);
            },
            NOBODY,
        ),
        reading(
            "later entry wins",
            |p| p.labels_unique = false,
            |d| {
                d.recs[2].label = d.recs[1].label;
                at(d, "BOOTH-WEST-1", 1, 0);
            },
            BOTH,
        ),
        reading(
            "no return read as Z0 = 0",
            |p| p.none_is_none = false,
            unearthed,
            EVERY,
        ),
        reading(
            "Z0 shared across starts",
            |p| p.same_start_only = false,
            as_it_is,
            BOTH,
        ),
        // Record 2 breaks 9, record 3 breaks 8.
        reading(
            "rule by rule, not record by record",
            |p| p.record_by_record = false,
            |d| {
                d.recs[1].clock = 1;
                d.recs[2].feeder = nowhere();
            },
            NOBODY,
        ),
        reading(
            "source's z2 taken for z1",
            |p| p.own_z2 = false,
            |d| {
                d.recs[0].z[3] = 40;
                at(d, "GEN", 2, 0);
            },
            BOTH,
        ),
        // 9,959 and a part of an ampere.
        reading(
            "amps rounded up",
            |p| p.amps_cut = false,
            |d| at(d, "GEN", 2, 0),
            LAWS,
        ),
        reading(
            "Zf to 1,366",
            |p| p.zf_most = 1366,
            |d| d.zf = [0, 1366],
            NOBODY,
        ),
        // j20 of the source and j4,075.
        reading(
            "sums to 4,094",
            |p| p.sum_most = 4094,
            |d| {
                d.recs[1].z[1] = 4075;
                d.recs[1].z[3] = 4075;
            },
            NOBODY,
        ),
        reading(
            "phase of the fault ignored",
            |p| p.phase_counts = false,
            |d| at(d, "BOOTH-WEST-1", 1, 1),
            BOTH,
        ),
    ]
}

/// Damage to the numbers of an answer.
fn values() -> Vec<Row> {
    let output = |name, damage, case, alone| row(name, Solved(damage), case, alone);
    vec![
        output("last number off by one", last_off, as_it_is, BOTH),
        output("amps one less", amps_less, as_it_is, LAWS),
        output(
            "phases b and c exchanged",
            exchanged,
            |d| d.fault_kind = 3,
            BOTH,
        ),
        // D 400 and every number a multiple of 20; all laws are kept.
        output("D reduced", reduced, |d| at(d, "GEN", 0, 0), NOBODY),
        output("record currents from the board", reversed, as_it_is, BOTH),
        output("board 1 only, rest zero", first_only, as_it_is, BOTH),
        output("buffer left as found", as_found, as_it_is, BOTH),
        output("one number after the end", write_after, as_it_is, NOBODY),
        output(
            "write on a refusal",
            write_on_refusal,
            |d| d.phase = 3,
            NOBODY,
        ),
        output("buffer one number short", buffer_short, as_it_is, NOBODY),
    ]
}

/// Damage to what an answer says beside its numbers.
fn verdicts() -> Vec<Row> {
    let output = |name, damage, case| row(name, Solved(damage), case, NOBODY);
    let fault_refused = |d: &mut Draft| d.fault_mark = *b"TF";
    vec![
        output("fault's length before the network", length_first, |d| {
            d.mark = *b"DH";
            d.fault_length = Some(19);
        }),
        output("place one on", |a, _| a.verdict.place += 1, as_it_is),
        output("N kept on a refusal", count_on_refusal, fault_refused),
        output("part one byte short", part_short, as_it_is),
        output(
            "part starts after the mark",
            |a, _| a.verdict.start += 2,
            as_it_is,
        ),
        output(
            "whose bytes exchanged",
            |a, _| a.verdict.whose = 3 - a.verdict.whose,
            as_it_is,
        ),
        output("a shown byte of a record changed", shown_off, as_it_is),
        output(
            "a shown byte of the fault changed",
            shown_off,
            fault_refused,
        ),
        output("another record's bytes shown", shown_other, as_it_is),
    ]
}

/// In the stream of HALL's answer the shown bytes, 44 of them, start at 32.
pub fn streams() -> Vec<Row> {
    let stream = |name, damage| row(name, Stream(damage), as_it_is, NOBODY);
    vec![
        stream("shown bytes left out of the stream", |s| {
            s.drain(32..76);
        }),
        stream("a shown byte too few", |s| {
            s.remove(75);
        }),
        stream("a shown byte too many", |s| s.insert(76, 0)),
        stream("the answer twice", |s| {
            let answer = s[..s.len() - 4].to_vec();
            s.splice(..0, answer);
        }),
        stream("cut off in the buffer", |s| s.truncate(100)),
        stream("no closing mark", |s| s.truncate(s.len() - 4)),
        stream("another closing mark", |s| {
            let end = s.len() - 4;
            s[end..].copy_from_slice(b"CUT\n");
        }),
        stream("a byte after the closing mark", |s| s.push(0)),
    ]
}

/// Every rule exchanged with the next, where one list holds both (4 and 5, 11 and 12 stand apart),
/// and both broken. 6 and 7 are left out: a label of wrong form equals none that was let through,
/// so no case breaks both and their order can't be seen. Where 21 stands between 10 and 11 is for
/// `forgotten` to show.
fn orders() -> Vec<Row> {
    let order = |name, rule, case| row(name, Order(rule), case, NOBODY);
    vec![
        order("1 and 2 exchanged", 1, |d| {
            d.net_length = Some(7);
            d.mark = *b"DH";
        }),
        order("2 and 3 exchanged", 2, |d| {
            d.mark = *b"DH";
            d.volts = 0;
        }),
        order("3 and 4 exchanged", 3, |d| {
            d.volts = 0;
            d.net_length = Some(139);
        }),
        order("5 and 6 exchanged", 5, |d| {
            d.recs[1].mark = *b"DB";
            d.recs[1].label[0] = b' ';
        }),
        order("7 and 8 exchanged", 7, |d| {
            d.recs[2].label = d.recs[0].label;
            d.recs[2].feeder = nowhere();
        }),
        order("8 and 9 exchanged", 8, |d| {
            d.recs[2].feeder = nowhere();
            d.recs[2].kind = 6;
        }),
        order("9 and 10 exchanged", 9, |d| {
            d.recs[2].clock = 10;
            d.recs[2].z[0] = 1;
        }),
        order("10 and 11 exchanged", 10, |d| {
            d.recs[1].z[0] = 4096;
            d.recs[1].z[2] = 4096;
        }),
        order("12 and 13 exchanged", 12, |d| {
            d.fault_length = Some(19);
            d.fault_mark = *b"TF";
        }),
        order("13 and 14 exchanged", 13, |d| {
            d.fault_mark = *b"TF";
            d.fault_label = nowhere();
        }),
        order("14 and 15 exchanged", 14, |d| at(d, "NOWHERE", 4, 0)),
        order("15 and 16 exchanged", 15, |d| at(d, "HALL", 4, 3)),
        order("16 and 17 exchanged", 16, |d| {
            d.phase = 3;
            d.zf = [1366, 0];
        }),
        // 18 is withdrawn: 19 follows 17, with an earth return and without.
        order("17 and 19 exchanged", 17, |d| {
            d.zf = [1366, 0];
            d.room = 0;
        }),
        order("17 and 19 exchanged, no earth return", 17, |d| {
            unearthed(d);
            d.zf = [1366, 0];
            d.room = 84;
        }),
    ]
}

fn length_first(a: &mut SolveAnswer, case: &SolveCase) {
    let length = case.fault.len();
    if (1..12).contains(&a.verdict.number) && length != 20 {
        a.verdict = refusal(12, 0, FAULT, 0, length);
        a.shown = case.fault.clone();
    }
}

fn part_short(a: &mut SolveAnswer, _: &SolveCase) {
    a.shown.pop();
    a.verdict.length = a.shown.len() as u32;
}

fn shown_off(a: &mut SolveAnswer, _: &SolveCase) {
    a.shown.iter_mut().last().into_iter().for_each(|b| *b ^= 1);
}

fn shown_other(a: &mut SolveAnswer, case: &SolveCase) {
    if accepted(a).is_some() {
        a.shown = case.net[8..52].to_vec();
    }
}

fn accepted(a: &SolveAnswer) -> Option<usize> {
    (a.verdict.number == 0).then(|| room_needed(a.verdict.boards as usize))
}

fn last_off(a: &mut SolveAnswer, _: &SolveCase) {
    if let Some(need) = accepted(a) {
        a.buffer[need - 1] += 1;
    }
}

fn amps_less(a: &mut SolveAnswer, _: &SolveCase) {
    a.verdict.amps = a.verdict.amps.saturating_sub(1);
}

fn write_on_refusal(a: &mut SolveAnswer, _: &SolveCase) {
    if accepted(a).is_none() && !a.buffer.is_empty() {
        a.buffer[0] = 0;
    }
}

fn write_after(a: &mut SolveAnswer, _: &SolveCase) {
    if let Some(next) = accepted(a).filter(|&n| n < a.buffer.len()) {
        a.buffer[next] = 0;
    }
}

fn buffer_short(a: &mut SolveAnswer, _: &SolveCase) {
    a.buffer.pop();
}

fn count_on_refusal(a: &mut SolveAnswer, case: &SolveCase) {
    if accepted(a).is_none() && a.verdict.whose != NETWORK {
        a.verdict.boards = (case.net.len() as u32 - 8) / 44;
    }
}

fn exchanged(a: &mut SolveAnswer, _: &SolveCase) {
    if accepted(a).is_some() {
        (0..4).for_each(|i| a.buffer.swap(5 + i, 9 + i));
    }
}

fn gcd(a: u64, b: u64) -> u64 {
    if b == 0 {
        a
    } else {
        gcd(b, a % b)
    }
}

/// Keeps every law: only the paper's "not reduced" is broken.
fn reduced(a: &mut SolveAnswer, _: &SolveCase) {
    if let Some(need) = accepted(a) {
        let numbers = &mut a.buffer[..need];
        let common = numbers.iter().fold(0, |g, x| gcd(g, x.unsigned_abs()));
        numbers.iter_mut().for_each(|x| *x /= common as i64);
    }
}

fn reversed(a: &mut SolveAnswer, _: &SolveCase) {
    if let Some(need) = accepted(a) {
        let boards = a.buffer[13..need].chunks_mut(24);
        boards.for_each(|b| b[12..].iter_mut().for_each(|x| *x = -*x));
    }
}

fn first_only(a: &mut SolveAnswer, _: &SolveCase) {
    if let Some(need) = accepted(a) {
        a.buffer[37..need].fill(0);
    }
}

fn as_found(a: &mut SolveAnswer, _: &SolveCase) {
    a.buffer = filled(a.buffer.len());
}
