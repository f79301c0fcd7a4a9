//! The deliberate faults of R-6: transformers without z1. BOOTH-WEST-1 (record 2) is a cable of the paper's
//! network and HALL (record 3) a transformer of kind 4; the fault is at HALL.

use super::Fault::{Reading, Solved, Traced, Written};
use super::{Made, Row};
use crate::compare::Witness;
use crate::judge::chains::chain;
use crate::judge::network::read;
use crate::judge::FAULT;
use crate::make::labels::label;
use crate::make::model::{Draft, Rec};
use crate::make::{EarthCase, SolveCase, WriteCase};
use crate::paper::{Paper, Seen, Turn};
use crate::stream::earth::EarthAnswer;
use crate::stream::solve::SolveAnswer;
use crate::stream::write::WriteAnswer;
use crate::stream::{earth, solve, write, EARTH, SOLVE, WRITE};

// Who must see a fault beside the comparison. The reader sees every slip of the writer, and with the
// chain every one before an earth return is said; the others see what is answered and should not be.
const NOBODY: &[Witness] = &[];
const EVERY: &[Witness] = &[Witness::Laws, Witness::Solve, Witness::Crew];
const READER: &[Witness] = &[Witness::ReadBack];
const CHAIN: &[Witness] = &[Witness::Chain];
const ALL: &[Witness] = &[Witness::Chain, Witness::Changed, Witness::Short];

/// A wrong reading of the request, and what shows it.
struct Slip {
    name: &'static str,
    change: fn(&mut Paper),
    case: fn(&mut Draft),
    /// The network is taken for it; otherwise refused, or for another reason.
    taken: bool,
}

fn taken(name: &'static str, change: fn(&mut Paper), case: fn(&mut Draft)) -> Slip {
    Slip {
        name,
        change,
        case,
        taken: true,
    }
}

fn refused(name: &'static str, change: fn(&mut Paper), case: fn(&mut Draft)) -> Slip {
    Slip {
        taken: false,
        ..taken(name, change, case)
    }
}

/// One row for each entry point.
fn rows(slip: &Slip) -> Vec<Row> {
    let row = |entry: u32| Row {
        name: slip.name,
        fault: Reading(slip.change),
        made: Made::Any(entry, slip.case),
        alone: match (entry, slip.taken) {
            (WRITE, _) => READER,
            (EARTH, true) => ALL,
            (EARTH, false) => CHAIN,
            (_, true) => EVERY,
            (_, false) => NOBODY,
        },
    };
    [SOLVE, WRITE, EARTH].map(row).into()
}

fn slips() -> Vec<Slip> {
    let mut slips = kinds();
    slips.extend(parts());
    slips.extend(orders());
    slips.extend(places());
    slips
}

fn forget(rec: &mut Rec) {
    rec.z[..4].fill(0);
}

fn hall(d: &mut Draft) {
    forget(&mut d.recs[2]);
}

/// BOOTH-WEST-1 as a transformer of kind 3.
fn star(d: &mut Draft) {
    d.recs[1].kind = 3;
}

fn star_forgotten(d: &mut Draft) {
    star(d);
    forget(&mut d.recs[1]);
}

/// HALL as a transformer that blocks.
fn blocking(d: &mut Draft) {
    d.recs[2].kind = 5;
    d.recs[2].z.fill(0);
}

/// Rule 11 at BOOTH-WEST-1: j20 of the source and j4,076.
fn sum_over(d: &mut Draft) {
    d.recs[1].z[1] = 4076;
    d.recs[1].z[3] = 4076;
}

/// Which kinds must have a z1. A source's is asked for by 10, so it takes a wrong order too to show that
/// 21 asks for it.
#[rustfmt::skip]
fn kinds() -> Vec<Slip> {
    let sources = |p: &mut Paper| {
        p.forgotten.kinds = &[0, 1, 3, 4, 5];
        p.forgotten.turn = Turn::Behind(9);
    };
    vec![
        taken("21 not there", |p| p.forgotten.kinds = &[], hall),
        taken("21 not there, kind 3", |p| p.forgotten.kinds = &[], star_forgotten),
        taken("21 not there, kind 5", |p| p.forgotten.kinds = &[], blocking),
        taken("21 not for kind 3", |p| p.forgotten.kinds = &[4, 5], star_forgotten),
        taken("21 not for kind 4", |p| p.forgotten.kinds = &[3, 5], hall),
        taken("21 not for kind 5", |p| p.forgotten.kinds = &[3, 4], blocking),
        refused("21 for cables too", |p| p.forgotten.kinds = &[2, 3, 4, 5], |d| forget(&mut d.recs[1])),
        refused("21 for sources too", sources, |d| forget(&mut d.recs[0])),
        refused("21 for sources too, z1 alone", sources, |d| d.recs[0].z[..2].fill(0)),
        refused("21 for unearthed sources too", sources, |d| {
            d.recs[0].kind = 1;
            d.recs[0].z.fill(0);
        }),
        refused("10 for a transformer without z1", |p| p.forgotten.number = 10, hall),
        refused("11 for a transformer without z1", |p| p.forgotten.number = 11, hall),
    ]
}

/// What must be zero. z1 and z2 are equal behind 10, so it takes a wrong order too to show that z2 is
/// looked at.
#[rustfmt::skip]
fn parts() -> Vec<Slip> {
    let second = |p: &mut Paper| {
        p.forgotten.zero = &[2, 3];
        p.forgotten.turn = Turn::Behind(9);
    };
    vec![
        refused("21 where R is zero", |p| p.forgotten.zero = &[0], |_| {}),
        refused("21 where X is zero", |p| p.forgotten.zero = &[1], |d| {
            (d.recs[2].z[0], d.recs[2].z[2]) = (20, 20);
            (d.recs[2].z[1], d.recs[2].z[3]) = (0, 0);
        }),
        refused("21 where z2 is zero", second, |d| d.recs[2].z[2..4].fill(0)),
        refused("21 where z0 is zero", |p| p.forgotten.zero = &[4, 5], |d| d.recs[2].z[5] = 0),
        taken("21 only where z0 is zero too", |p| p.forgotten.zero = &[0, 1, 4, 5], hall),
        taken("21 only where zn is zero too", |p| p.forgotten.zero = &[0, 1, 6, 7], |d| {
            hall(d);
            d.recs[2].z[7] = 1;
        }),
        taken("21 only where all is zero", |p| p.forgotten.zero = &[0, 1, 2, 3, 4, 5, 6, 7], hall),
    ]
}

/// When it is tested.
#[rustfmt::skip]
fn orders() -> Vec<Slip> {
    let behind_9 = |p: &mut Paper| p.forgotten.turn = Turn::Behind(9);
    let behind_11 = |p: &mut Paper| p.forgotten.turn = Turn::Behind(11);
    vec![
        refused("21 after 11", behind_11, |d| { hall(d); d.recs[2].z[7] = 1359; }),
        refused("21 after 11, kind 3", behind_11, |d| { star_forgotten(d); d.recs[1].z[7] = 1366; }),
        refused("21 before 10", behind_9, |d| d.recs[2].z[..2].fill(0)),
        refused("21 before 10, kind 3", behind_9, |d| { star(d); d.recs[1].z[..2].fill(0); }),
        refused("21 before 10, kind 5", behind_9, |d| { blocking(d); d.recs[2].z[3] = 20; }),
        refused("21 before 10, kind 5 with z0", behind_9, |d| { blocking(d); d.recs[2].z[4] = 1; }),
        refused("21 before 10, x0 4,096", behind_9, |d| { hall(d); d.recs[2].z[5] = 4096; }),
        refused("21 before 9", |p| p.forgotten.turn = Turn::Behind(8), |d| { hall(d); d.recs[2].clock = 10; }),
        refused("21 before 8", |p| p.forgotten.turn = Turn::Behind(7), |d| {
            hall(d);
            d.recs[2].feeder = label(b"NOWHERE");
        }),
        refused("21 before 7", |p| p.forgotten.turn = Turn::Behind(6), |d| {
            hall(d);
            d.recs[2].label = d.recs[0].label;
        }),
        refused("21 before 6", |p| p.forgotten.turn = Turn::Behind(5), |d| { hall(d); d.recs[2].label[0] = b' '; }),
    ]
}

/// At which of the records.
#[rustfmt::skip]
fn places() -> Vec<Slip> {
    let after_all = |p: &mut Paper| p.forgotten.turn = Turn::AfterAll;
    vec![
        refused("21 after all records", after_all, |d| { star_forgotten(d); d.recs[2].label[0] = b' '; }),
        refused("21 after all records' 11", after_all, |d| { star_forgotten(d); d.recs[2].z[7] = 1359; }),
        refused("21 before all records", |p| p.forgotten.turn = Turn::BeforeAll, |d| { sum_over(d); hall(d); }),
        refused("21 rule by rule", |p| p.record_by_record = false, |d| { sum_over(d); hall(d); }),
        refused("21 at the last of two", |p| p.forgotten.seen = Seen::Last, |d| { star_forgotten(d); hall(d); }),
        taken("21 at the first transformer only", |p| p.forgotten.seen = Seen::FirstTransformer, |d| {
            star(d);
            hall(d);
        }),
    ]
}

/// Those that any case may show, not only the one made for it: each slip once, and all damage.
pub fn drawn() -> Vec<Row> {
    let once = |slip: &Slip| rows(slip).into_iter().next();
    let mut drawn: Vec<Row> = slips().iter().filter_map(once).collect();
    drawn.extend(solved());
    drawn.extend(written());
    drawn.extend(traced());
    drawn
}

/// The same slips of the other entry points.
pub fn others() -> Vec<Row> {
    let rest = |slip: &Slip| rows(slip).into_iter().skip(1);
    let mut rows: Vec<Row> = slips().iter().flat_map(rest).collect();
    // The writer has no marks to look at.
    for (entry, alone) in [(SOLVE, NOBODY), (EARTH, CHAIN)] {
        let made = Made::Any(entry, |d| {
            hall(d);
            d.recs[2].mark = *b"DB";
        });
        rows.push(Row {
            name: "21 before 5",
            fault: Reading(|p| p.forgotten.turn = Turn::Behind(0)),
            made,
            alone,
        });
    }
    rows
}

/// Damage to an answer that is 21, to HALL without z1 where a row does not say another case.
fn solved() -> Vec<Row> {
    let output = |name, damage, case, alone| Row {
        name,
        fault: Solved(damage),
        made: Made::Solve(case),
        alone,
    };
    let cut = |d: &mut Draft| {
        hall(d);
        d.fault_length = Some(19);
    };
    let at_booth = |d: &mut Draft| {
        hall(d);
        d.fault_label = d.recs[1].label;
    };
    vec![
        output("place 0 of 21", no_place, hall, NOBODY),
        output("21 with records from 0", from_0, hall, NOBODY),
        output("21 shows the head", head_shown, hall, NOBODY),
        output("21 shows the fault", fault_shown, hall, NOBODY),
        output("21 shows z1 alone", z1_shown, hall, NOBODY),
        output("21 after 12", fault_first, cut, NOBODY),
        output("21 only behind it", behind_only, at_booth, EVERY),
    ]
}

fn written() -> Vec<Row> {
    let output = |name, damage, case, alone| Row {
        name,
        fault: Written(damage),
        made: Made::Write(case),
        alone,
    };
    let short = |d: &mut Draft| {
        hall(d);
        d.room = 139;
    };
    vec![
        output("write: place 0 of 21", unplaced, hall, READER),
        output("write: 21 with a length", with_length, hall, READER),
        output("write: 21 shows the record", record_shown, hall, NOBODY),
        output("write: 21 after 20", room_first, short, READER),
    ]
}

fn traced() -> Vec<Row> {
    let output = |name, damage, case, alone| Row {
        name,
        fault: Traced(damage),
        made: Made::Earth(case),
        alone,
    };
    fn asked(d: &mut Draft, board: &[u8]) -> Vec<u8> {
        hall(d);
        label(board).to_vec()
    }
    let at_hall = |d: &mut Draft| asked(d, b"HALL");
    let at_booth = |d: &mut Draft| asked(d, b"BOOTH-WEST-1");
    let nowhere = |d: &mut Draft| asked(d, b"NOWHERE");
    vec![
        output("earth: place 0 of 21", nowhere_placed, at_hall, CHAIN),
        output("earth: 21 shows the head", head_first, at_hall, CHAIN),
        output("earth: 21 and a return", with_return, at_hall, CHAIN),
        output("earth: 21 after 14", label_first, nowhere, CHAIN),
        output("earth: 21 only on the chain", chain_only, at_booth, ALL),
    ]
}

fn no_place(a: &mut SolveAnswer, _: &SolveCase) {
    if a.verdict.number == 21 {
        a.verdict.place = 0;
    }
}

fn from_0(a: &mut SolveAnswer, _: &SolveCase) {
    if a.verdict.number == 21 {
        a.verdict.place -= 1;
    }
}

fn head_shown(a: &mut SolveAnswer, case: &SolveCase) {
    if a.verdict.number == 21 {
        (a.verdict.start, a.verdict.length) = (0, 8);
        a.shown = case.net[..8].to_vec();
    }
}

fn fault_shown(a: &mut SolveAnswer, case: &SolveCase) {
    if a.verdict.number == 21 {
        (a.verdict.whose, a.verdict.start) = (FAULT, 0);
        a.verdict.length = case.fault.len() as u32;
        a.shown = case.fault.clone();
    }
}

fn z1_shown(a: &mut SolveAnswer, _: &SolveCase) {
    if a.verdict.number == 21 {
        (a.verdict.start, a.verdict.length) = (a.verdict.start + 28, 4);
        a.shown = a.shown[28..32].to_vec();
    }
}

/// The paper without R-6.
fn without() -> Paper {
    let mut paper = Paper::AS_WRITTEN;
    paper.forgotten.kinds = &[];
    paper
}

fn fault_first(a: &mut SolveAnswer, case: &SolveCase) {
    let later = solve::answer(&without(), case);
    if a.verdict.number == 21 && later.verdict.number == 12 {
        *a = later;
    }
}

/// The record refused with 21 is not on the chain of the board that is meant.
fn beside(net: &[u8], label: &[u8], number: u32, place: u32) -> bool {
    let paper = without();
    let Ok(grid) = read(&paper, net) else {
        return false;
    };
    let board = grid.places.find(&paper, 14, label);
    let on = |k: usize| chain(&grid, k).contains(&(place as usize - 1));
    number == 21 && board.is_some_and(|k| !on(k))
}

/// It is the amps behind it that are too high, so a fault elsewhere is answered.
fn behind_only(a: &mut SolveAnswer, case: &SolveCase) {
    let label = case.fault.get(2..14).unwrap_or(&[b' '; 12]);
    if beside(&case.net, label, a.verdict.number, a.verdict.place) {
        *a = solve::answer(&without(), case);
    }
}

fn unplaced(a: &mut WriteAnswer, _: &WriteCase) {
    if a.verdict.number == 21 {
        a.verdict.place = 0;
    }
}

fn with_length(a: &mut WriteAnswer, case: &WriteCase) {
    if a.verdict.number == 21 {
        a.verdict.file = 8 + case.boards.len() as u32;
    }
}

/// As the reader would show it.
fn record_shown(a: &mut WriteAnswer, _: &WriteCase) {
    if a.verdict.number == 21 {
        a.verdict.start = 8 + 44 * (a.verdict.place - 1);
        a.verdict.length = 44;
    }
}

fn room_first(a: &mut WriteAnswer, case: &WriteCase) {
    let later = write::answer(&without(), case);
    if a.verdict.number == 21 && later.verdict.number == 20 {
        *a = later;
    }
}

fn nowhere_placed(a: &mut EarthAnswer, _: &EarthCase) {
    if a.verdict.number == 21 {
        a.verdict.place = 0;
    }
}

fn head_first(a: &mut EarthAnswer, case: &EarthCase) {
    if a.verdict.number == 21 {
        (a.verdict.start, a.verdict.length) = (0, 8);
        a.shown = case.net[..8].to_vec();
    }
}

fn with_return(a: &mut EarthAnswer, _: &EarthCase) {
    if a.verdict.number == 21 {
        a.verdict.earthed = 1;
    }
}

fn label_first(a: &mut EarthAnswer, case: &EarthCase) {
    let later = earth::answer(&without(), case);
    if a.verdict.number == 21 && later.verdict.number == 14 {
        *a = later;
    }
}

fn chain_only(a: &mut EarthAnswer, case: &EarthCase) {
    let twelve = case.label.len() == 12;
    if twelve && beside(&case.net, &case.label, a.verdict.number, a.verdict.place) {
        *a = earth::answer(&without(), case);
    }
}
