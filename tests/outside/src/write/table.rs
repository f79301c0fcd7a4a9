//! The writer's figures by hand: the paper's three boards byte for byte, and each of its refusals.
//! Nothing here goes through the maker, and no judge made it.

use crate::figures::{paper_records, rec, Run};
use crate::judge::board::Board;
use crate::make::labels::label;
use crate::make::model::Rec;
use crate::paper::Paper;
use crate::stream::write::untouched;
use crate::write::{file_length, write};

/// 01, 'Figures worked through': 230 V, unit 1,000, GEN, BOOTH-WEST-1, HALL.
#[rustfmt::skip]
const FILE: [u8; 140] = [
    b'H', b'D', 0xe6, 0, 0xe8, 3, 3, 0,
    // Record 1: kind 0, clock 0, z1 = z2 = j20, z0 = j5, zn = j5.
    b'B', b'D',
    b'G', b'E', b'N', 32, 32, 32, 32, 32, 32, 32, 32, 32,
    32, 32, 32, 32, 32, 32, 32, 32, 32, 32, 32, 32,
    0, 0,
    0, 0, 20, 0,  0, 0, 20, 0,  0, 0, 5, 0,  0, 0, 5, 0,
    // Record 2: kind 2, clock 0, z1 = z2 = 30 + j10, z0 = 90 + j30, zn = 0.
    b'B', b'D',
    b'B', b'O', b'O', b'T', b'H', b'-', b'W', b'E', b'S', b'T', b'-', b'1',
    b'G', b'E', b'N', 32, 32, 32, 32, 32, 32, 32, 32, 32,
    2, 0,
    30, 0, 10, 0,  30, 0, 10, 0,  90, 0, 30, 0,  0, 0, 0, 0,
    // Record 3: kind 4, clock 11, z1 = z2 = z0 = j20, zn = 0.
    b'B', b'D',
    b'H', b'A', b'L', b'L', 32, 32, 32, 32, 32, 32, 32, 32,
    b'G', b'E', b'N', 32, 32, 32, 32, 32, 32, 32, 32, 32,
    4, 11,
    0, 0, 20, 0,  0, 0, 20, 0,  0, 0, 20, 0,  0, 0, 0, 0,
];

/// What is asked, before a line changes something: the paper's boards and an output that fits.
struct Asked {
    volts: u16,
    unit: u16,
    recs: Vec<Rec>,
    room: usize,
}

struct Line {
    name: &'static str,
    change: fn(&mut Asked),
    /// Number and place.
    due: (u32, u32),
}

const fn line(name: &'static str, change: fn(&mut Asked), due: (u32, u32)) -> Line {
    Line { name, change, due }
}

/// Boards under GEN until there are `count`, and room for the file.
fn many(a: &mut Asked, count: usize) {
    for r in a.recs.len() + 1..=count {
        let z = [1, 0, 1, 0, 1, 0, 0, 0];
        a.recs.push(rec(&format!("B{r}"), "GEN", 2, 0, z));
    }
    a.recs.truncate(count);
    a.room = file_length(count);
}

const HEAD: [Line; 12] = [
    line("write: volts 1", |a| a.volts = 1, (0, 0)),
    line("write: volts 1,000", |a| a.volts = 1000, (0, 0)),
    line("write 3: volts 0", |a| a.volts = 0, (3, 0)),
    line("write 3: volts 1,001", |a| a.volts = 1001, (3, 0)),
    line("write: unit 10", |a| a.unit = 10, (0, 0)),
    line("write 3: unit 9", |a| a.unit = 9, (3, 0)),
    line("write 3: unit 1,001", |a| a.unit = 1001, (3, 0)),
    line("write 3: no board", |a| many(a, 0), (3, 0)),
    line("write: one board", |a| many(a, 1), (0, 0)),
    line("write: 256 boards", |a| many(a, 256), (0, 0)),
    line("write 3: 257 boards", |a| many(a, 257), (3, 0)),
    line("write 3: 372 boards", |a| many(a, 372), (3, 0)),
];

const BOARDS: [Line; 17] = [
    line("write 6: spaces", |a| a.recs[1].label = [32; 12], (6, 2)),
    line("write 6: byte 0x80", |a| a.recs[2].label[3] = 0x80, (6, 3)),
    line(
        "write 7: HALL called GEN",
        |a| a.recs[2].label = label(b"GEN"),
        (7, 3),
    ),
    line(
        "write 8: the source fed",
        |a| a.recs[0].feeder = label(b"HALL"),
        (8, 1),
    ),
    line("write 9: kind 255", |a| a.recs[1].kind = 255, (9, 2)),
    line("write 9: clock 10", |a| a.recs[2].clock = 10, (9, 3)),
    line("write 9: a cable first", |a| a.recs[0].kind = 2, (9, 1)),
    line("write 10: rn 4,096", |a| a.recs[2].z[6] = 4096, (10, 3)),
    line("write 10: cable with zn", |a| a.recs[1].z[7] = 1, (10, 2)),
    line("write 10: z1 not z2", |a| a.recs[2].z[0] = 1, (10, 3)),
    line("write 21: HALL", |a| a.recs[2].z[..4].fill(0), (21, 3)),
    line("write 10, not 21", |a| a.recs[2].z[..2].fill(0), (10, 3)),
    line("write: cable, z1 = 0", |a| a.recs[1].z[..4].fill(0), (0, 0)),
    line(
        "write 21, not 11: zn 1,366",
        |a| {
            a.recs[2].z.fill(0);
            a.recs[2].z[7] = 1366;
        },
        (21, 3),
    ),
    line("write: z0 90 + j4,075", |a| a.recs[1].z[5] = 4075, (0, 0)),
    // Z0 = j20 + j4,076.
    line("write 11: Z0 4,096", |a| a.recs[1].z[5] = 4076, (11, 2)),
    line("write 11: zn 1,366", |a| a.recs[0].z[7] = 1366, (11, 1)),
];

/// Letter case in labels.
const TYPED: [Line; 6] = [
    line(
        "write: HALL fed by gEN",
        |a| a.recs[2].feeder[0] = b'g',
        (0, 0),
    ),
    line(
        "write: HALL fed by booth-west-1",
        |a| a.recs[2].feeder = label(b"booth-west-1"),
        (0, 0),
    ),
    line(
        "write 7: HALL called Booth-West-1",
        |a| a.recs[2].label = label(b"Booth-West-1"),
        (7, 3),
    ),
    line(
        "write 7: HALL called gen, fed by nobody, in no output",
        |a| {
            a.recs[2] = rec("gen", "nobody", 4, 11, [0; 8]);
            a.room = 0;
        },
        (7, 3),
    ),
    line(
        "write 8: HALL fed by hall",
        |a| a.recs[2].feeder = label(b"hall"),
        (8, 3),
    ),
    line(
        "write 8: the source fed by gen",
        |a| a.recs[0].feeder = label(b"gen"),
        (8, 1),
    ),
];

const ROOM: [Line; 9] = [
    line("write 20: no output", |a| a.room = 0, (20, 0)),
    line("write 20: 139 bytes", |a| a.room = 139, (20, 0)),
    line("write: 141 bytes", |a| a.room = 141, (0, 0)),
    line("write: 1,000 bytes", |a| a.room = 1000, (0, 0)),
    line(
        "write 3 before 6 and 20",
        |a| {
            (a.volts, a.room) = (0, 0);
            a.recs[0].label[0] = 0;
        },
        (3, 0),
    ),
    line(
        "write 11 before 20, and before the next record's 6",
        |a| {
            a.recs[1].z[5] = 4076;
            a.recs[2].label[0] = 0;
            a.room = 0;
        },
        (11, 2),
    ),
    line(
        "write 21 before 20, and before the next record's 6",
        |a| {
            a.recs[1].kind = 3;
            a.recs[1].z[..4].fill(0);
            a.recs[2].label[0] = 0;
            a.room = 0;
        },
        (21, 2),
    ),
    line(
        "write 11 before the next record's 21",
        |a| {
            a.recs[1].z[5] = 4076;
            a.recs[2].z[..4].fill(0);
        },
        (11, 2),
    ),
    line(
        "write 7 before 8",
        |a| a.recs[2] = rec("GEN", "NOWHERE", 9, 9, [9999; 8]),
        (7, 3),
    ),
];

/// Field by field, not over bytes: these boards were never in a file.
pub fn decoded(recs: &[Rec]) -> Vec<Board> {
    let board = |r: &Rec| Board {
        label: r.label,
        feeder: r.feeder,
        kind: r.kind,
        clock: r.clock,
        parts: r.z,
    };
    recs.iter().map(board).collect()
}

/// True if the outcome is the one due, and nothing was touched that is not the file's.
fn agrees(line: &Line) -> bool {
    let mut a = Asked {
        volts: 230,
        unit: 1000,
        recs: paper_records(),
        room: FILE.len(),
    };
    (line.change)(&mut a);
    let boards = decoded(&a.recs);
    let mut out = untouched(a.room);
    let said = write(&Paper::AS_WRITTEN, a.volts, a.unit, &boards, &mut out);
    let length = match line.due.0 {
        0 => 8 + 44 * boards.len(),
        _ => 0,
    };
    let part = (said.whose, said.start, said.length) == (1, 0, 0);
    let kept = out[length..] == untouched(a.room)[length..];
    (said.number, said.place) == line.due && said.file as usize == length && part && kept
}

fn three_boards(run: &mut Run) {
    let boards = decoded(&paper_records());
    let mut out = untouched(150);
    let said = write(&Paper::AS_WRITTEN, 230, 1000, &boards, &mut out);
    let file = (said.number, said.place, said.file) == (0, 0, 140) && out[..140] == FILE;
    run.see(file, "write: GEN, BOOTH-WEST-1, HALL, byte for byte");
    // 7 140 + 3 = 983 = 3 256 + 215, and seven more each.
    let rest = [215, 222, 229, 236, 243, 250, 1, 8, 15, 22];
    run.see(out[140..] == rest, "write: ten bytes more are kept");
}

/// Labels and feeders stand in the file as they were given, each in its own case.
fn as_typed(run: &mut Run) {
    let mut recs = paper_records();
    recs[1].label = label(b"Booth-West-1");
    recs[1].feeder = label(b"gEN");
    recs[2].feeder = label(b"booth-WEST-1");
    let mut file = FILE;
    file[54..78].copy_from_slice(b"Booth-West-1gEN         ");
    file[110..122].copy_from_slice(b"booth-WEST-1");
    let mut out = untouched(140);
    let said = write(&Paper::AS_WRITTEN, 230, 1000, &decoded(&recs), &mut out);
    let same = (said.number, said.file) == (0, 140) && out == file;
    run.see(same, "write: Booth-West-1 and booth-WEST-1, byte for byte");
}

/// N takes its high byte at 256 boards only.
fn most_boards(run: &mut Run) {
    let mut a = Asked {
        volts: 1000,
        unit: 10,
        recs: paper_records(),
        room: 0,
    };
    many(&mut a, 256);
    let mut out = untouched(a.room);
    let boards = decoded(&a.recs);
    write(&Paper::AS_WRITTEN, a.volts, a.unit, &boards, &mut out);
    let head = out[..8] == [b'H', b'D', 0xe8, 3, 10, 0, 0, 1];
    run.see(head, "write: the head of 256 boards");
    let last = &out[11_228..];
    let named = last.len() == 44 && last.starts_with(b"BDB256        GEN         \x02\x00\x01\x00");
    run.see(named, "write: the last of 256 boards");
}

pub fn by_hand(run: &mut Run) {
    three_boards(run);
    as_typed(run);
    most_boards(run);
    let boards = BOARDS.iter().chain(&TYPED);
    for line in HEAD.iter().chain(boards).chain(&ROOM) {
        run.see(agrees(line), line.name);
    }
}
