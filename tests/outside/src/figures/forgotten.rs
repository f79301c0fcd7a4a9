//! R-6 by hand: transformers without z1, and what comes near, asked of the reader, the writer and the
//! tool of R-4.

use super::{case, fault, network, rec, Run};
use crate::earth::{chain, changed, short};
use crate::make::labels::label;
use crate::make::model::Rec;
use crate::make::{EarthCase, WriteCase};
use crate::paper::Paper;
use crate::stream::solve::{answer, filled};
use crate::stream::write::untouched;
use crate::stream::{earth, write};
use crate::write::file_length;
use crate::write::readback;

const PAPER: Paper = Paper::AS_WRITTEN;

/// The set, a cable, and one transformer behind the other, of any two kinds; both are j20, with a z0 of
/// j20 where a kind may have one.
fn tandem(kinds: [u8; 2]) -> Vec<Rec> {
    let transformer = |name: &str, feeder: &str, kind: u8| {
        let z0 = if kind == 5 { 0 } else { 20 };
        rec(name, feeder, kind, clock(kind), [0, 20, 0, 20, 0, z0, 0, 0])
    };
    vec![
        rec("GEN", "", 0, 0, [0, 20, 0, 20, 0, 5, 0, 5]),
        rec("MAIN", "GEN", 2, 0, [30, 10, 30, 10, 90, 30, 0, 0]),
        transformer("HALL", "MAIN", kinds[0]),
        transformer("STAGE", "HALL", kinds[1]),
    ]
}

/// One that the kind may have, not 0 where it may be another.
fn clock(kind: u8) -> u8 {
    match kind {
        4 => 11,
        5 => 6,
        _ => 0,
    }
}

/// z1 and z2.
fn pairs(rec: &mut Rec, z1: [u16; 2], z2: [u16; 2]) {
    rec.z[..2].copy_from_slice(&z1);
    rec.z[2..4].copy_from_slice(&z2);
}

fn forget(rec: &mut Rec) {
    pairs(rec, [0, 0], [0, 0]);
}

/// One part of each within 4,095, and z0 + 3 zn at j4,098.
fn sum_over(rec: &mut Rec) {
    (rec.z[5], rec.z[7]) = (4095, 1);
}

struct Line {
    name: &'static str,
    change: fn(&mut [Rec]),
    /// Number and place.
    due: (u32, u32),
}

const fn line(name: &'static str, change: fn(&mut [Rec]), due: (u32, u32)) -> Line {
    Line { name, change, due }
}

/// Whatever the kinds of HALL (record 3) and STAGE (record 4).
#[rustfmt::skip]
const ANY_KIND: [Line; 27] = [
    line("taken as it stands", |_| {}, (0, 0)),
    line("HALL forgotten", |r| forget(&mut r[2]), (21, 3)),
    line("STAGE forgotten", |r| forget(&mut r[3]), (21, 4)),
    line("both forgotten, the first named", |r| r[2..].iter_mut().for_each(forget), (21, 3)),
    line("HALL with nothing at all", |r| r[2].z.fill(0), (21, 3)),
    line("STAGE with nothing at all", |r| r[3].z.fill(0), (21, 4)),
    line("HALL j1", |r| pairs(&mut r[2], [0, 1], [0, 1]), (0, 0)),
    line("HALL 1", |r| pairs(&mut r[2], [1, 0], [1, 0]), (0, 0)),
    line("STAGE j256", |r| pairs(&mut r[3], [0, 256], [0, 256]), (0, 0)),
    line("STAGE 256", |r| pairs(&mut r[3], [256, 0], [256, 0]), (0, 0)),
    line("10 before 21: HALL's z2 j20", |r| pairs(&mut r[2], [0, 0], [0, 20]), (10, 3)),
    line("10 before 21: HALL's z2 1", |r| pairs(&mut r[2], [0, 0], [1, 0]), (10, 3)),
    line("10: HALL's z1 j20, z2 zero", |r| pairs(&mut r[2], [0, 20], [0, 0]), (10, 3)),
    line("10 before 21: STAGE's z2 j20", |r| pairs(&mut r[3], [0, 0], [0, 20]), (10, 4)),
    line("10 before 21: HALL's r0 4,096", |r| { forget(&mut r[2]); r[2].z[4] = 4096; }, (10, 3)),
    line("9 before 21: HALL's clock 12", |r| { forget(&mut r[2]); r[2].clock = 12; }, (9, 3)),
    line("9: HALL of kind 6, z1 zero", |r| { forget(&mut r[2]); r[2].kind = 6; }, (9, 3)),
    line("9: HALL a source, z1 zero", |r| { forget(&mut r[2]); r[2].kind = 0; }, (9, 3)),
    line("8 before 21: HALL fed by HALL", |r| { forget(&mut r[2]); r[2].feeder = r[2].label; }, (8, 3)),
    line("7 before 21: HALL called main", |r| { forget(&mut r[2]); r[2].label = label(b"main"); }, (7, 3)),
    line("6 before 21: HALL without a name", |r| { forget(&mut r[2]); r[2].label = [b' '; 12]; }, (6, 3)),
    line("21 before the next record's 6", |r| { forget(&mut r[2]); r[3].label = [b' '; 12]; }, (21, 3)),
    line("an earlier record's 11 before 21", |r| { r[1].z[5] = 4076; forget(&mut r[2]); }, (11, 2)),
    line("an earlier record's 10 before 21", |r| { r[1].z[6] = 1; forget(&mut r[2]); }, (10, 2)),
    line("MAIN without z1 and z2", |r| forget(&mut r[1]), (0, 0)),
    line("MAIN without length", |r| r[1].z.fill(0), (0, 0)),
    line("MAIN without length, STAGE forgotten", |r| { r[1].z.fill(0); forget(&mut r[3]); }, (21, 4)),
];

/// Of the source z1 and z2 must not be zero by 10, whatever comes behind it.
#[rustfmt::skip]
const SOURCE: [Line; 4] = [
    line("10: GEN's z1 zero", |r| pairs(&mut r[0], [0, 0], [0, 20]), (10, 1)),
    line("10: GEN's z2 zero", |r| pairs(&mut r[0], [0, 20], [0, 0]), (10, 1)),
    line("10: GEN's z1 and z2 zero", |r| forget(&mut r[0]), (10, 1)),
    line("10: GEN's z1 and z2 zero, HALL forgotten", |r| { forget(&mut r[0]); forget(&mut r[2]); }, (10, 1)),
];

/// Of HALL with an earth return: kind 3 lets the set's on, kind 4 has its own.
#[rustfmt::skip]
const EARTHED: [Line; 4] = [
    line("11: HALL's Z0 over 4,095", |r| sum_over(&mut r[2]), (11, 3)),
    line("21 before 11: HALL's Z0 over 4,095", |r| { forget(&mut r[2]); sum_over(&mut r[2]); }, (21, 3)),
    line("21 before 11: HALL's zn 1,366", |r| { r[2].z.fill(0); r[2].z[6] = 1366; }, (21, 3)),
    line("HALL's 11 before STAGE's 21", |r| { sum_over(&mut r[2]); forget(&mut r[3]); }, (11, 3)),
];

/// Kind 5 has no zero sequence: that is 10, and comes before.
#[rustfmt::skip]
const BLOCKING: [Line; 2] = [
    line("10 before 21: HALL with z0", |r| { forget(&mut r[2]); r[2].z[4] = 1; }, (10, 3)),
    line("10 before 21: HALL with zn", |r| { forget(&mut r[2]); r[2].z[7] = 1; }, (10, 3)),
];

/// What the part of a refused record is: whose, start, length.
fn record(place: u32) -> (u32, u32, u32) {
    (1, 8 + 44 * (place - 1), 44)
}

/// A fault between two phases at GEN, which no transformer comes before: all is read all the same.
fn solved(run: &mut Run, name: &str, recs: &[Rec], due: (u32, u32)) {
    let c = case(network(230, 1000, recs), fault("GEN", 2, 0, [0, 0]));
    let a = answer(&PAPER, &c);
    let v = &a.verdict;
    if due.0 == 0 {
        run.see((v.number, v.place) == (0, 1), name);
        return run.lawful(name, &c, &a);
    }
    let said = (v.number, v.place, v.boards, v.amps) == (due.0, due.1, 0, 0);
    let part = (v.whose, v.start, v.length) == record(due.1);
    let shown = a.shown == recs[due.1 as usize - 1].bytes() && a.buffer == filled(c.room);
    run.see(said && part && shown, name);
}

/// In an output that fits, and in none: 20 comes last.
fn written(run: &mut Run, name: &str, recs: &[Rec], due: (u32, u32)) {
    for room in [file_length(recs.len()), 0] {
        let c = WriteCase {
            room,
            volts: 230,
            unit: 1000,
            boards: recs.iter().flat_map(Rec::bytes).collect(),
            note: String::new(),
        };
        let a = write::answer(&PAPER, &c);
        let v = &a.verdict;
        let due = match (due.0, room) {
            (0, 0) => (20, 0),
            _ => due,
        };
        let said = (v.number, v.place) == due && (v.whose, v.start, v.length) == (1, 0, 0);
        let kept = due.0 == 0 || v.file == 0 && a.out == untouched(room);
        let alone = readback::check(&c, &a).is_ok();
        run.see(said && kept && alone, &format!("write to {room}, {name}"));
    }
}

/// The board asked for may be the source, or none: all is read before.
fn traced(run: &mut Run, name: &str, recs: &[Rec], due: (u32, u32)) {
    for asked in ["GEN", "NOWHERE"] {
        let c = EarthCase {
            net: network(230, 1000, recs),
            label: label(asked.as_bytes()).to_vec(),
            note: String::new(),
        };
        let a = earth::answer(&PAPER, &c);
        let v = &a.verdict;
        let right = match (due.0, asked) {
            (0, "GEN") => (v.number, v.place, v.earthed) == (0, 1, 1),
            (0, _) => (v.number, v.place, v.earthed) == (14, 0, 0),
            _ => {
                let part = (v.whose, v.start, v.length) == record(due.1);
                let shown = a.shown == recs[due.1 as usize - 1].bytes();
                (v.number, v.place, v.earthed) == (due.0, due.1, 0) && part && shown
            }
        };
        let lawful = chain::check(&c, &a).is_ok() && changed::check(&c, &a).is_ok();
        let alone = lawful && short::check(&c, &a).is_ok();
        run.see(right && alone, &format!("earth at {asked}, {name}"));
    }
}

fn kinds(run: &mut Run, kinds: [u8; 2], lines: &[Line]) {
    for line in lines {
        let mut recs = tandem(kinds);
        (line.change)(&mut recs);
        let [hall, stage] = kinds;
        let name = format!("kinds {hall}, {stage}: {}: {:?}", line.name, line.due);
        solved(run, &name, &recs, line.due);
        written(run, &name, &recs, line.due);
        traced(run, &name, &recs, line.due);
    }
}

pub fn by_hand(run: &mut Run) {
    // Each kind once as HALL and once as STAGE.
    for both in [[3, 4], [4, 5], [5, 3]] {
        kinds(run, both, &ANY_KIND);
    }
    kinds(run, [3, 3], &SOURCE);
    kinds(run, [3, 5], &EARTHED);
    kinds(run, [4, 3], &EARTHED);
    kinds(run, [5, 4], &BLOCKING);
}
