//! R-4 by hand: where the earth return of a board starts, or which record stops it.

use super::{network, paper_records, rec, Run};
use crate::earth::{chain, changed, short};
use crate::make::labels::label;
use crate::make::model::Rec;
use crate::make::EarthCase;
use crate::paper::Paper;
use crate::stream::earth::{answer, EarthAnswer};
use crate::table::{self, Line};

/// The answer in the request's words.
pub fn text(a: &EarthAnswer) -> String {
    let v = &a.verdict;
    match (v.number, v.earthed) {
        (0, 1) => format!("earth return from record {}", v.place),
        (0, _) => format!("none, stopped at record {}", v.place),
        (number, _) => format!("REFUSED {number} {}", v.place),
    }
}

/// A tour's network, every kind above every other: the chain of TENT has three records that stop the
/// zero sequence and, between them, one that starts it afresh.
pub fn tour() -> Vec<Rec> {
    let cable = [3, 1, 3, 1, 9, 3, 0, 0];
    let star = [0, 8, 0, 8, 0, 8, 1, 2];
    let blocks = [0, 12, 0, 12, 0, 0, 0, 0];
    let starts = [0, 20, 0, 20, 0, 20, 0, 1];
    vec![
        rec("SET", "", 0, 0, [0, 20, 0, 20, 0, 5, 0, 5]),
        rec("MAIN", "SET", 2, 0, cable),
        rec("ISO-1", "MAIN", 5, 0, blocks),
        rec("CABLE-1", "ISO-1", 2, 0, cable),
        rec("STAR-1", "CABLE-1", 3, 0, star),
        rec("ISO-2", "STAR-1", 5, 6, blocks),
        rec("CABLE-2", "ISO-2", 2, 0, cable),
        rec("DELTA", "CABLE-2", 4, 11, starts),
        rec("CABLE-3", "DELTA", 2, 0, cable),
        rec("STAR-2", "CABLE-3", 3, 0, star),
        rec("ISO-3", "STAR-2", 5, 1, blocks),
        rec("TENT", "ISO-3", 2, 0, cable),
        rec("SIDE", "MAIN", 3, 0, star),
        rec("YARD", "STAR-1", 4, 1, starts),
        rec("GATE", "YARD", 4, 5, starts),
    ]
}

/// The same with a set that is not earthed.
pub fn unearthed_tour() -> Vec<Rec> {
    let mut recs = tour();
    unearth(&mut recs[0]);
    recs
}

fn unearth(set: &mut Rec) {
    set.kind = 1;
    set.z[4..].fill(0);
}

/// What is due: with an earth return from a record, or stopped at one.
#[derive(Clone, Copy)]
enum Due {
    From(u32),
    Stopped(u32),
}
use self::Due::{From, Stopped};

const TOUR: [(&str, Due); 15] = [
    ("SET", From(1)),
    ("MAIN", From(1)),
    ("ISO-1", Stopped(3)),
    ("CABLE-1", Stopped(3)),
    ("STAR-1", Stopped(3)),
    ("ISO-2", Stopped(6)),
    ("CABLE-2", Stopped(6)),
    ("DELTA", From(8)),
    ("CABLE-3", From(8)),
    ("STAR-2", From(8)),
    ("ISO-3", Stopped(11)),
    ("TENT", Stopped(11)),
    ("SIDE", From(1)),
    ("YARD", From(14)),
    ("GATE", From(15)),
];

/// Without the set's earth only those that had it from there are without.
const UNEARTHED_TOUR: [(&str, Due); 15] = {
    let mut due = TOUR;
    (due[0].1, due[1].1, due[12].1) = (Stopped(1), Stopped(1), Stopped(1));
    due
};

const PAPER: [(&str, Due); 6] = [
    ("GEN", From(1)),
    ("BOOTH-WEST-1", From(1)),
    ("HALL", From(3)),
    ("Booth-West-1", From(1)),
    ("hall", From(3)),
    ("gEN", From(1)),
];

const UNEARTHED_PAPER: [(&str, Due); 6] = [
    ("GEN", Stopped(1)),
    ("BOOTH-WEST-1", Stopped(1)),
    ("HALL", From(3)),
    ("Booth-West-1", Stopped(1)),
    ("hall", From(3)),
    ("gEN", Stopped(1)),
];

fn asked(net: Vec<u8>, label: &[u8]) -> EarthCase {
    EarthCase {
        net,
        label: label.to_vec(),
        note: String::new(),
    }
}

/// The answer, and whether all who look at it alone agree.
fn answered(c: &EarthCase) -> (EarthAnswer, bool) {
    let a = answer(&Paper::AS_WRITTEN, c);
    let alone = chain::check(c, &a).is_ok() && changed::check(c, &a).is_ok();
    let lawful = alone && short::check(c, &a).is_ok();
    (a, lawful)
}

/// Number, place, earth return, whose, start, length.
fn said(a: &EarthAnswer) -> [u32; 6] {
    let v = &a.verdict;
    [v.number, v.place, v.earthed, v.whose, v.start, v.length]
}

fn boards(run: &mut Run, name: &str, recs: &[Rec], lines: &[(&str, Due)]) {
    for (board, due) in lines {
        let (said_due, text_due) = match due {
            From(r) => ([0, *r, 1, 0, 0, 0], format!("earth return from record {r}")),
            Stopped(r) => ([0, *r, 0, 0, 0, 0], format!("none, stopped at record {r}")),
        };
        let c = asked(network(230, 1000, recs), &label(board.as_bytes()));
        let (a, alone) = answered(&c);
        let right = said(&a) == said_due && a.shown.is_empty() && text(&a) == text_due;
        run.see(right && alone, &format!("{name}, {board}: {text_due}"));
    }
}

/// The deepest chain there can be: cables without length and star/star transformers by turns.
fn long(source: u8, at_200: u8) -> Vec<Rec> {
    let mut recs = tour();
    recs.truncate(1);
    if source == 1 {
        unearth(&mut recs[0]);
    }
    for r in 2..=256 {
        let kind = if r == 200 { at_200 } else { 2 + r as u8 % 2 };
        let (own, feeder) = (format!("B{r}"), format!("B{}", r - 1));
        let x = u16::from(kind > 2);
        let z = [0, x, 0, x, 0, 0, 0, 0];
        recs.push(rec(&own, &feeder, kind, u8::from(kind == 4), z));
    }
    recs[1].feeder = label(b"SET");
    recs
}

fn deep(run: &mut Run) {
    let ends = |due| [("B256", due)];
    boards(run, "256 deep", &long(0, 2), &ends(From(1)));
    boards(
        run,
        "256 deep, set unearthed",
        &long(1, 2),
        &ends(Stopped(1)),
    );
    boards(run, "256 deep, kind 4", &long(1, 4), &ends(From(200)));
    boards(run, "256 deep, kind 5", &long(0, 5), &ends(Stopped(200)));
    boards(
        run,
        "256 deep, kind 5",
        &long(1, 5),
        &[("B199", Stopped(1))],
    );
}

/// What is no label of the paper's three boards, as bytes.
const NO_LABEL: [(&str, &[u8]); 22] = [
    ("no bytes", b""),
    ("one byte", b"G"),
    ("GEN without closing spaces", b"GEN"),
    ("GEN, a space too few", b"GEN        "),
    ("GEN, a space more", b"GEN          "),
    ("HALL without closing spaces", b"HALL"),
    ("eleven letters", b"BOOTH-WEST-"),
    ("thirteen letters", b"BOOTH-WEST-12"),
    ("a space more", b"BOOTH-WEST-1 "),
    ("a 0 more", b"BOOTH-WEST-1\0"),
    ("twice", b"BOOTH-WEST-1BOOTH-WEST-1"),
    ("another twelfth letter", b"BOOTH-WEST-2"),
    ("twelve spaces", b"            "),
    ("twelve zeros", &[0; 12]),
    ("eleven spaces", b"           "),
    ("closed with zeros", b"GEN\0\0\0\0\0\0\0\0\0"),
    ("begins with a space", b" GEN        "),
    ("one letter more", b"HALLX       "),
    ("a feeder and a label", b"HALL        GEN         "),
    ("a whole fault", b"FTHALL        \x01\0\0\0\0\0"),
    ("64 spaces", &[b' '; 64]),
    ("0x20 under a letter", b"GE.         "),
];

fn refused(run: &mut Run) {
    for (name, bytes) in NO_LABEL {
        let c = asked(network(230, 1000, &paper_records()), bytes);
        let (a, alone) = answered(&c);
        let due = [14, 0, 0, 3, 0, bytes.len() as u32];
        let right = said(&a) == due && a.shown == bytes && text(&a) == "REFUSED 14 0";
        run.see(right && alone, &format!("earth 14: {name}"));
    }
}

/// The table by hand says what is refused of a network, and it says it before any label is looked at.
fn network_first(run: &mut Run, line: &Line) {
    let mut net = network(230, 1000, &paper_records());
    line.net.iter().for_each(|&(at, byte)| net[at] = byte);
    net.resize(line.net_length, 0);
    let [number, place, whose, start, length] = line.due;
    let part = net.iter().skip(start as usize).take(length as usize);
    let part: Vec<u8> = part.copied().collect();
    for (name, bytes) in [("HALL", &label(b"HALL")[..]), ("no label", b"")] {
        let (a, alone) = answered(&asked(net.clone(), bytes));
        let due = match (number, bytes.len()) {
            (0, 12) => [0, 3, 1, 0, 0, 0],
            (0, _) => [14, 0, 0, 3, 0, 0],
            _ => [number, place, 0, whose, start, length],
        };
        let shown = if number == 0 { &[][..] } else { &part };
        let right = said(&a) == due && a.shown == shown && alone;
        run.see(right, &format!("earth, {name}: {}", line.name));
    }
}

pub fn by_hand(run: &mut Run) {
    boards(run, "paper's", &paper_records(), &PAPER);
    let mut recs = paper_records();
    unearth(&mut recs[0]);
    boards(run, "paper's set unearthed", &recs, &UNEARTHED_PAPER);
    boards(run, "tour", &tour(), &TOUR);
    boards(
        run,
        "tour's set unearthed",
        &unearthed_tour(),
        &UNEARTHED_TOUR,
    );
    deep(run);
    refused(run);
    let records = table::RECORDS.iter().chain(&table::FORGOTTEN);
    for line in table::HEAD.iter().chain(records) {
        network_first(run, line);
    }
}
