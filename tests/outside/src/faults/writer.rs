//! The deliberate faults of `write`. The paper's three boards make a file of 140 bytes, its
//! records from 8, 52 and 96; the output has 141 where a row does not say another length.

use super::Fault::{Order, Reading, Stream, Written};
use super::{Fault, Made, Row};
use crate::compare::Witness;
use crate::figures::rec;
use crate::make::labels::label;
use crate::make::model::Draft;
use crate::make::WriteCase;
use crate::paper::WriterTest::{Boards, Head, Room};
use crate::stream::write::{untouched, WriteAnswer};
use crate::write::file_length;
use crate::write::readback::laid_down;
use std::slice::ChunksMut;

// Who must see a fault beside the comparison.
const NOBODY: &[Witness] = &[];
const READER: &[Witness] = &[Witness::ReadBack];

fn row(name: &'static str, fault: Fault, case: fn(&mut Draft), alone: &'static [Witness]) -> Row {
    Row {
        name,
        fault,
        made: Made::Write(case),
        alone,
    }
}

/// Those that any case to be written may show, not only the one made for it.
pub fn drawn() -> Vec<Row> {
    let mut rows = tests_moved();
    rows.extend(readings());
    rows.extend(orders());
    rows.extend(bytes());
    rows.extend(said());
    rows
}

fn as_it_is(_: &mut Draft) {}

/// Rule 11 at BOOTH-WEST-1: j20 of the source and j4,076.
fn sum_over(d: &mut Draft) {
    d.recs[1].z[1] = 4076;
    d.recs[1].z[3] = 4076;
}

/// Rule 6 at HALL.
fn misnamed(d: &mut Draft) {
    d.recs[2].label[0] = b' ';
}

/// The writer's tests in another order than 3, boards, 20.
fn tests_moved() -> Vec<Row> {
    let reading = |name, change, case| row(name, Reading(change), case, READER);
    vec![
        reading(
            "write: 20 before 11",
            |p| p.writer_tests = [Head, Room, Boards],
            |d| {
                sum_over(d);
                d.room = 139;
            },
        ),
        reading(
            "write: 20 before 3",
            |p| p.writer_tests = [Room, Head, Boards],
            |d| {
                d.volts = 0;
                d.room = 0;
            },
        ),
        reading(
            "write: 3 after the boards",
            |p| p.writer_tests = [Boards, Head, Room],
            |d| {
                d.unit = 9;
                misnamed(d);
            },
        ),
    ]
}

fn readings() -> Vec<Row> {
    let reading = |name, change, case| row(name, Reading(change), case, READER);
    vec![
        reading("write: N 257 accepted", |p| p.most_boards = 257, many),
        reading(
            "write: 7 looked for in later boards",
            |p| p.looks_back = false,
            |d| d.recs[2].label = d.recs[1].label,
        ),
        reading(
            "write: an exact output refused",
            |p| p.spare_room = 1,
            |d| d.room = 140,
        ),
        reading(
            "write: labels of eleven letters",
            |p| p.labels.count = 11,
            |d| d.recs[2].label = label(b"BOOTH-WEST-2"),
        ),
        // Board 2 breaks 9, board 3 breaks 8.
        reading(
            "write: rule by rule, not board by board",
            |p| p.record_by_record = false,
            |d| {
                d.recs[1].clock = 1;
                d.recs[2].feeder = label(b"NOWHERE");
            },
        ),
    ]
}

/// GEN and 256 boards under it, in an output that would do.
fn many(d: &mut Draft) {
    d.recs.truncate(1);
    for r in 2..=257 {
        let z = [1, 0, 1, 0, 1, 0, 0, 0];
        d.recs.push(rec(&format!("B{r}"), "GEN", 2, 0, z));
    }
    d.room = file_length(257);
}

/// Neighbours of 6 to 11 exchanged, and both broken. 6 and 7 can't both be (see `list`).
fn orders() -> Vec<Row> {
    let order = |name, rule, case| row(name, Order(rule), case, READER);
    vec![
        order("write: 7 and 8 exchanged", 7, |d| {
            d.recs[2].label = d.recs[0].label;
            d.recs[2].feeder = label(b"NOWHERE");
        }),
        order("write: 8 and 9 exchanged", 8, |d| {
            d.recs[0].feeder = label(b"HALL");
            d.recs[0].kind = 2;
        }),
        order("write: 9 and 10 exchanged", 9, |d| {
            d.recs[2].kind = 255;
            d.recs[2].z[0] = 65535;
        }),
        order("write: 10 and 11 exchanged", 10, |d| {
            d.recs[1].z[0] = 4096;
            d.recs[1].z[2] = 4096;
        }),
    ]
}

/// Damage to the bytes of the output.
fn bytes() -> Vec<Row> {
    let output = |name, damage, case| row(name, Written(damage), case, READER);
    vec![
        output("write: byte after the file touched", touched, as_it_is),
        output("write: z0 and zn exchanged", neutral_first, as_it_is),
        output("write: u16 big-endian", big_endian, as_it_is),
        output("write: volts and unit exchanged", head_exchanged, as_it_is),
        output("write: N one less", one_less, as_it_is),
        output("write: marks kept as given", marks_kept, as_it_is),
        output("write: zeros for closing spaces", zeros, as_it_is),
        output("write: label and feeder exchanged", fed_by_itself, as_it_is),
        output("write: last board left as found", last_left, as_it_is),
        output("write: output left as found", as_found, as_it_is),
        output("write: a refusal that writes", begun, misnamed),
        output("write: as far as there is room", begun, |d| d.room = 139),
        output(
            "write: output one byte short",
            |a, _| a.out.truncate(a.out.len().saturating_sub(1)),
            as_it_is,
        ),
    ]
}

/// Damage to what an answer says beside the bytes.
fn said() -> Vec<Row> {
    let output = |name, damage, case, alone| row(name, Written(damage), case, alone);
    vec![
        output("write: place of 20", count_for_20, |d| d.room = 0, READER),
        output("write: place from 0", from_0, misnamed, READER),
        output("write: length 0 on acceptance", no_length, as_it_is, READER),
        output("write: output's length", output_length, as_it_is, READER),
        output(
            "write: a length on a refusal",
            length_kept,
            misnamed,
            READER,
        ),
        output(
            "write: one byte short accepted",
            fits,
            |d| d.room = 139,
            READER,
        ),
        output("write: 5 for a mark given", mark_refused, as_it_is, READER),
        output("write: a record shown", record_shown, misnamed, NOBODY),
        output(
            "write: an empty part of nobody's",
            |a, _| a.verdict.whose = 0,
            as_it_is,
            NOBODY,
        ),
    ]
}

/// In the stream of the answer the output, 141 bytes of it, starts at 28.
pub fn streams() -> Vec<Row> {
    let stream = |name, damage| row(name, Stream(damage), as_it_is, NOBODY);
    vec![
        stream("write: output left out of the stream", |s| {
            s.drain(28..169);
        }),
        stream("write: a byte of the output too few", |s| {
            s.remove(168);
        }),
        stream("write: a byte of the output too many", |s| s.insert(169, 0)),
        stream("write: the file only, without the rest", |s| {
            s[24] = 140;
            s.remove(168);
        }),
        stream("write: N and amps as in solve's answer", |s| {
            s.splice(8..8, [0; 8]);
        }),
        stream("write: the answer twice", |s| {
            let answer = s[..s.len() - 4].to_vec();
            s.splice(..0, answer);
        }),
        stream("write: no closing mark", |s| s.truncate(s.len() - 4)),
    ]
}

/// The bytes of the file, if there is one.
fn file(a: &mut WriteAnswer) -> &mut [u8] {
    let length = match a.verdict.number {
        0 => a.verdict.file as usize,
        _ => 0,
    };
    &mut a.out[..length]
}

pub fn records(a: &mut WriteAnswer) -> ChunksMut<'_, u8> {
    let file = file(a);
    let head = file.len().min(8);
    file[head..].chunks_mut(44)
}

fn touched(a: &mut WriteAnswer, _: &WriteCase) {
    let end = file(a).len();
    if end > 0 && end < a.out.len() {
        a.out[end] ^= 255;
    }
}

fn neutral_first(a: &mut WriteAnswer, _: &WriteCase) {
    records(a).for_each(|r| r[36..44].rotate_left(4));
}

fn big_endian(a: &mut WriteAnswer, _: &WriteCase) {
    let numbers = |bytes: &mut [u8]| bytes.chunks_mut(2).for_each(|w| w.reverse());
    if a.verdict.number == 0 {
        numbers(&mut file(a)[2..8]);
        records(a).for_each(|r| numbers(&mut r[28..]));
    }
}

fn head_exchanged(a: &mut WriteAnswer, _: &WriteCase) {
    if a.verdict.number == 0 {
        file(a)[2..6].rotate_left(2);
    }
}

fn one_less(a: &mut WriteAnswer, _: &WriteCase) {
    if a.verdict.number == 0 {
        file(a)[6] = file(a)[6].wrapping_sub(1);
    }
}

fn marks_kept(a: &mut WriteAnswer, case: &WriteCase) {
    let given = case.boards.chunks(44);
    records(a)
        .zip(given)
        .for_each(|(r, b)| r[..2].copy_from_slice(&b[..2]));
}

fn zeros(a: &mut WriteAnswer, _: &WriteCase) {
    let spaces = |c: &mut u8| *c = if *c == b' ' { 0 } else { *c };
    records(a).for_each(|r| r[2..26].iter_mut().for_each(spaces));
}

fn fed_by_itself(a: &mut WriteAnswer, _: &WriteCase) {
    records(a).for_each(|r| r[2..26].rotate_left(12));
}

fn last_left(a: &mut WriteAnswer, _: &WriteCase) {
    let end = file(a).len();
    if end > 0 {
        let found = untouched(end);
        a.out[end - 44..end].copy_from_slice(&found[end - 44..]);
    }
}

fn as_found(a: &mut WriteAnswer, _: &WriteCase) {
    a.out = untouched(a.out.len());
}

/// The file as far as it goes, though it is refused.
fn begun(a: &mut WriteAnswer, case: &WriteCase) {
    if a.verdict.number != 0 {
        let laid = laid_down(case);
        a.out.iter_mut().zip(laid).for_each(|(o, b)| *o = b);
    }
}

fn count_for_20(a: &mut WriteAnswer, case: &WriteCase) {
    if a.verdict.number == 20 {
        a.verdict.place = (case.boards.len() / 44) as u32;
    }
}

fn from_0(a: &mut WriteAnswer, _: &WriteCase) {
    a.verdict.place = a.verdict.place.saturating_sub(1);
}

fn no_length(a: &mut WriteAnswer, _: &WriteCase) {
    a.verdict.file = 0;
}

fn output_length(a: &mut WriteAnswer, _: &WriteCase) {
    if a.verdict.number == 0 {
        a.verdict.file = a.out.len() as u32;
    }
}

fn length_kept(a: &mut WriteAnswer, case: &WriteCase) {
    a.verdict.file = file_length(case.boards.len() / 44) as u32;
}

/// Taken, and written as far as there is room.
fn fits(a: &mut WriteAnswer, case: &WriteCase) {
    if a.verdict.number == 20 {
        begun(a, case);
        a.verdict.number = 0;
        a.verdict.file = file_length(case.boards.len() / 44) as u32;
    }
}

/// As the reader would refuse the bytes given.
fn mark_refused(a: &mut WriteAnswer, case: &WriteCase) {
    if a.verdict.number == 0 && !case.boards.starts_with(b"BD") {
        as_found(a, case);
        (a.verdict.number, a.verdict.place, a.verdict.file) = (5, 1, 0);
    }
}

/// As the reader would show it.
fn record_shown(a: &mut WriteAnswer, _: &WriteCase) {
    if a.verdict.place > 0 {
        a.verdict.start = 8 + 44 * (a.verdict.place - 1);
        a.verdict.length = 44;
    }
}
