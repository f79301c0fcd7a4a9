//! R-3 by hand: letter case in labels.

use super::{case, cur, fault, network, paper_records, rec, text, volt, Run};
use crate::make::labels::{label, Label};
use crate::make::model::Rec;
use crate::paper::Paper;
use crate::stream::solve::{answer, SolveAnswer};
use crate::stream::write::untouched;
use crate::write::table::decoded;
use crate::write::write;

fn solved(recs: &[Rec], f: &[u8]) -> SolveAnswer {
    let c = case(network(230, 1000, recs), f.to_vec());
    answer(&Paper::AS_WRITTEN, &c)
}

/// 14: the paper's figures of BOOTH-WEST-1, whoever types it.
fn faulted(run: &mut Run) {
    let as_ever = solved(&paper_records(), &fault("BOOTH-WEST-1", 1, 0, [0, 0]));
    for (board, typed) in [
        ("BOOTH-WEST-1", "Booth-West-1"),
        ("Booth-West-1", "BOOTH-WEST-1"),
        ("Booth-West-1", "booth-west-1"),
    ] {
        let mut recs = paper_records();
        recs[1].label = label(board.as_bytes());
        let c = case(network(230, 1000, &recs), fault(typed, 1, 0, [0, 0]));
        let a = answer(&Paper::AS_WRITTEN, &c);
        let name = format!("14: {typed} at the board {board}");
        let said = (a.verdict.number, a.verdict.place, a.verdict.amps) == (0, 2, 3_709);
        let shown = a.buffer[0] == 34_600
            && a.buffer[cur(0)..cur(1)] == [450, 0, 0, -330]
            && a.buffer[volt(1, 0)..volt(1, 1)] == [28_000, 0, 0, -9_000];
        run.see(said && shown, &format!("{name}: the paper's figures"));
        run.see(a.buffer == as_ever.buffer, &format!("{name}: every number"));
        let record = a.shown == c.net[52..96] && a.shown[2..14] == *board.as_bytes();
        run.see(record, &format!("{name}: the board's own bytes are shown"));
        let printed = text(&c, &a);
        let first = printed.starts_with(&format!("FAULT {typed} 1 0 3709\n"));
        let boards = printed.matches(&format!("\n{board} V a ")).count() == 1;
        run.see(first && boards, &format!("{name}: each printed as typed"));
        run.lawful(&name, &c, &a);
    }
}

/// 8: a board under BOOTH-WEST-1, whoever types that.
fn fed(run: &mut Run) {
    let f = fault("HALL", 1, 0, [0, 0]);
    let under = |feeder: &str| {
        let mut recs = paper_records();
        recs[2].feeder = label(feeder.as_bytes());
        recs
    };
    let due = solved(&under("BOOTH-WEST-1"), &f);
    for feeder in ["Booth-West-1", "booth-west-1", "BOOTH-WEST-1"] {
        let a = solved(&under(feeder), &f);
        let taken = (a.verdict, &a.buffer) == (due.verdict, &due.buffer);
        let said = taken && (a.verdict.number, a.verdict.place) == (0, 3);
        let name = format!("8: HALL fed by {feeder}");
        run.see(said, &format!("{name}: taken, every number"));
        let typed = a.shown[14..26] == *feeder.as_bytes();
        run.see(typed, &format!("{name}: shown as typed"));
    }
}

/// 7, 8 and 14 refused: the bytes tested are shown as typed.
fn refused(run: &mut Run) {
    let f = fault("Hall", 1, 0, [0, 0]);
    let mut recs = paper_records();
    recs[2].label = label(b"Booth-West-1");
    let a = solved(&recs, &f);
    let due = (a.verdict.number, a.verdict.place, a.verdict.start) == (7, 3, 96);
    run.see(due, "7: Booth-West-1 beside BOOTH-WEST-1");
    let typed = a.shown == recs[2].bytes() && a.shown[2..14] == *b"Booth-West-1";
    run.see(typed, "7: Booth-West-1 beside BOOTH-WEST-1, shown as typed");
    recs[2] = rec("Hall", "Booth-West-2", 2, 0, [0; 8]);
    let a = solved(&recs, &f);
    let due = (a.verdict.number, a.verdict.place) == (8, 3) && a.shown == recs[2].bytes();
    run.see(due, "8: Booth-West-2, shown as typed");
    let a = solved(&paper_records(), &fault("Hall-2", 1, 0, [0, 0]));
    let due = a.verdict.number == 14 && a.shown[2..14] == label(b"Hall-2");
    run.see(due, "14: Hall-2, shown as typed");
    let a = solved(&paper_records(), &fault("Hall", 1, 3, [0, 0]));
    let due = a.verdict.number == 16 && a.shown[2..14] == label(b"Hall");
    run.see(due, "16 at HALL typed Hall, shown as typed");
}

const PRINTED: &str = "FAULT gEN 0 0 11500
D 400
I a 0 0 0 -20
I b 0 -20 0 20
I c 0 20 0 0
Gen V a 0 0 0 0
Gen V b 0 0 0 0
Gen V c 0 0 0 0
Gen I a 0 0 0 -20
Gen I b 0 -20 0 20
Gen I c 0 20 0 0
";

fn printed(run: &mut Run) {
    let mut recs = paper_records();
    recs.truncate(1);
    recs[0].label = label(b"Gen");
    let c = case(network(230, 1000, &recs), fault("gEN", 0, 0, [0, 0]));
    let a = answer(&Paper::AS_WRITTEN, &c);
    run.see(text(&c, &a) == PRINTED, "Gen and gEN, printed whole");
}

/// Bytes that are one, and bytes that are two, of which a label may have both.
const ONE: [[u8; 2]; 5] = [*b"Aa", *b"Bb", *b"Mm", *b"Yy", *b"Zz"];
const TWO: [[u8; 2]; 17] = [
    *b"@`", *b"[{", *b"\\|", *b"]}", *b"^~", // 0x20 apart, as letters are
    *b"@a", *b"`A", *b"[z", *b"{Z", // the byte beside either range
    *b"!A", *b":Z", *b"0P", *b"9y", // 0x20 under a capital
    *b";[", *b"?_", *b"AB", *b"az",
];
/// A label may have the first of these only.
const FORM: [[u8; 2]; 10] = [
    [b'_', 0x7f],
    [b'?', 0x1f],
    [b'!', 0x01],
    [b'0', 0x10],
    [b'@', 0x00],
    [b'A', 0xc1],
    [b'A', 0xe1],
    [b'a', 0xc1],
    [b'a', 0xe1],
    [b'-', 0xad],
];

/// Labels alike but for one byte, which is each of these once.
fn labels(place: usize, bytes: [u8; 2]) -> [Label; 2] {
    bytes.map(|c| {
        let mut label = *b"BOOTH-WEST-1";
        label[place] = c;
        label
    })
}

/// A source of the first label, and what a rule is to say of the second.
fn source(name: Label) -> Rec {
    let mut rec = paper_records()[0].clone();
    rec.label = name;
    rec
}

/// Both labels as boards, the second under the first.
fn beside([first, second]: [Label; 2]) -> [Rec; 2] {
    let mut cable = paper_records()[1].clone();
    (cable.label, cable.feeder) = (second, first);
    [source(first), cable]
}

/// One label as a board, the other as a feeder.
fn under([first, second]: [Label; 2]) -> [Rec; 2] {
    let mut cable = paper_records()[1].clone();
    (cable.label, cable.feeder) = (label(b"HALL"), second);
    [source(first), cable]
}

/// Number and place, by the reader and by the writer.
fn read_and_written(recs: [Rec; 2], at: Label) -> [(u32, u32); 2] {
    let v = solved(&recs, &short_at(at)).verdict;
    let mut out = untouched(96);
    let said = write(&Paper::AS_WRITTEN, 230, 1000, &decoded(&recs), &mut out);
    [(v.number, v.place), (said.number, said.place)]
}

fn short_at(at: Label) -> Vec<u8> {
    let mut f = fault("", 0, 0, [0, 0]);
    f[2..14].copy_from_slice(&at);
    f
}

/// At the first byte, the 8th, the 9th and the last one.
fn everywhere(bytes: [u8; 2], holds: impl Fn([Label; 2]) -> bool) -> bool {
    let at = |&place: &usize| holds(labels(place, bytes));
    [0, 7, 8, 11].iter().all(at)
}

fn seven(run: &mut Run, bytes: [u8; 2], one: bool) {
    let due = if one { [(7, 2); 2] } else { [(0, 1), (0, 0)] };
    let holds = |two: [Label; 2]| read_and_written(beside(two), two[0]) == due;
    run.see(everywhere(bytes, holds), &told("7", bytes, one));
}

fn eight(run: &mut Run, bytes: [u8; 2], one: bool) {
    let due = if one { [(0, 1), (0, 0)] } else { [(8, 2); 2] };
    let holds = |two: [Label; 2]| read_and_written(under(two), two[0]) == due;
    run.see(everywhere(bytes, holds), &told("8", bytes, one));
}

fn fourteen(run: &mut Run, bytes: [u8; 2], one: bool) {
    let due = if one { (0, 1) } else { (14, 0) };
    let holds = |two: [Label; 2]| {
        let v = solved(&[source(two[0])], &short_at(two[1])).verdict;
        (v.number, v.place) == due
    };
    run.see(everywhere(bytes, holds), &told("14", bytes, one));
}

fn told(rule: &str, [a, b]: [u8; 2], one: bool) -> String {
    let are = if one { "are one" } else { "stay apart" };
    format!("{rule}: {a:#04x} and {b:#04x} {are}")
}

fn bytes(run: &mut Run) {
    let one = ONE.iter().map(|b| (*b, true));
    for (bytes, one) in one.chain(TWO.iter().map(|b| (*b, false))) {
        // Whichever of them comes first.
        for bytes in [bytes, [bytes[1], bytes[0]]] {
            seven(run, bytes, one);
            eight(run, bytes, one);
            fourteen(run, bytes, one);
        }
    }
    for bytes in FORM {
        eight(run, bytes, false);
        fourteen(run, bytes, false);
    }
}

/// 14 of every byte against every byte that a label may have, by two alphabets written out.
fn alphabets(run: &mut Run) {
    let place = |list: &[u8; 26], c: u8| list.iter().position(|&l| l == c);
    let number = |c: u8| {
        let capital = place(b"ABCDEFGHIJKLMNOPQRSTUVWXYZ", c);
        capital.or(place(b"abcdefghijklmnopqrstuvwxyz", c))
    };
    let mut right = true;
    for (a, b) in (0x21..=0x7e).flat_map(|a| (0..=255).map(move |b| (a, b))) {
        let one = a == b || number(a).is_some() && number(a) == number(b);
        let [board, typed] = labels(8, [a, b]);
        let got = solved(&[source(board)], &short_at(typed)).verdict.number;
        right &= got == if one { 0 } else { 14 };
    }
    run.see(right, "14: every byte against every byte, by two alphabets");
}

/// A label that ends early: what closes it is no letter either.
fn closing(run: &mut Run) {
    let board = label(b"Gen");
    for (name, typed, number) in [
        ("gEN", label(b"gEN"), 0),
        ("gEN and zeros", *b"gEN\0\0\0\0\0\0\0\0\0", 14),
        ("gEN@", label(b"gEN@"), 14),
        ("gE", label(b"gE"), 14),
    ] {
        let got = solved(&[source(board)], &short_at(typed)).verdict.number;
        run.see(got == number, &format!("14: {name} at Gen: {number}"));
    }
}

pub fn by_hand(run: &mut Run) {
    faulted(run);
    fed(run);
    refused(run);
    printed(run);
    bytes(run);
    closing(run);
    alphabets(run);
}
