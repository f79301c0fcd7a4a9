//! The deliberate faults of R-3: letter case in labels.

use super::writer::records;
use super::Fault::{Reading, Solved, Written};
use super::{entry_name, Made, Row};
use crate::compare::Witness;
use crate::judge::{FAULT, NETWORK};
use crate::make::labels::label;
use crate::make::model::Draft;
use crate::make::{SolveCase, WriteCase};
use crate::paper::Paper;
use crate::stream::solve::SolveAnswer;
use crate::stream::write::WriteAnswer;
use crate::stream::{EARTH, SOLVE, WRITE};

// Who must see a fault beside the comparison.
const NOBODY: &[Witness] = &[];
const EVERY: &[Witness] = &[Witness::Laws, Witness::Solve, Witness::Crew];
const READER: &[Witness] = &[Witness::ReadBack];
const CHAIN: &[Witness] = &[Witness::Chain];

/// The paper's network with another label for BOOTH-WEST-1, and a second label where a rule meets it.
#[derive(Clone, Copy)]
pub struct Meeting {
    pub entry: u32,
    rule: u32,
    labels: [&'static [u8]; 2],
}

impl Meeting {
    pub fn arrange(&self, d: &mut Draft) {
        let [board, other] = self.labels.map(label);
        d.recs[1].label = board;
        match self.rule {
            // So that there is a board with the fault's label whatever HALL is called.
            7 => (d.recs[2].label, d.fault_label) = (other, board),
            8 => d.recs[2].feeder = other,
            _ => d.fault_label = other,
        }
    }

    pub fn told(&self) -> String {
        let [board, other] = self.labels.map(|l| l.escape_ascii());
        let entry = entry_name(self.entry);
        format!("{entry}{} of {board} and {other}", self.rule)
    }

    /// A wrong reading takes one label for two, or two for one. `laws`, `solve` and the crew can see
    /// what is accepted for that and should not be; the reader sees every slip of the writer, and with
    /// the chain every one before an earth return is said.
    fn alone(&self) -> &'static [Witness] {
        let one = self.labels[0].eq_ignore_ascii_case(self.labels[1]);
        match (self.entry, one == (self.rule == 7)) {
            (WRITE, _) => READER,
            (EARTH, _) => CHAIN,
            (_, true) => EVERY,
            (_, false) => NOBODY,
        }
    }
}

/// A wrong reading of when labels are equal.
struct Slip {
    name: &'static str,
    change: fn(&mut Paper),
    labels: [&'static [u8]; 2],
    /// The rules that show it.
    rules: &'static [u32],
}

/// One row for each rule and each entry point that asks it.
fn rows(slip: &Slip) -> Vec<Row> {
    let mut rows = Vec::new();
    for &rule in slip.rules {
        // The writer looks for no board.
        let entries: &[u32] = match rule {
            14 => &[SOLVE, EARTH],
            _ => &[SOLVE, WRITE, EARTH],
        };
        for &entry in entries {
            let met = Meeting {
                entry,
                rule,
                labels: slip.labels,
            };
            rows.push(Row {
                name: slip.name,
                fault: Reading(slip.change),
                made: Made::Met(met),
                alone: met.alone(),
            });
        }
    }
    rows
}

fn slips() -> Vec<Slip> {
    let mut slips = rules();
    slips.extend(places());
    slips.extend(ranges());
    slips.extend(wide_ranges());
    slips
}

const ALL: &[u32] = &[7, 8, 14];
/// A label of wrong form is never a board's: 6 stands before 7.
const SOUGHT: &[u32] = &[8, 14];

fn slip(
    name: &'static str,
    change: fn(&mut Paper),
    labels: [&'static [u8]; 2],
    rules: &'static [u32],
) -> Slip {
    Slip {
        name,
        change,
        labels,
        rules,
    }
}

/// The request's own label, on the board and as a crew types it.
const CREW: [&[u8]; 2] = [b"BOOTH-WEST-1", b"Booth-West-1"];
const ON_BOARD: [&[u8]; 2] = [b"Booth-West-1", b"BOOTH-WEST-1"];

/// Where letters are read in one case, and where not.
fn rules() -> Vec<Slip> {
    vec![
        slip("labels as typed", |p| p.labels.rules = &[], CREW, ALL),
        slip("7 as typed", |p| p.labels.rules = &[8, 14], CREW, &[7]),
        slip("8 as typed", |p| p.labels.rules = &[7, 14], CREW, &[8]),
        slip("14 as typed", |p| p.labels.rules = &[7, 8], CREW, &[14]),
        slip("7 only", |p| p.labels.rules = &[7], CREW, SOUGHT),
        // The label looked for in capitals, the boards' left as they are; and the other way round.
        slip("sought only", |p| p.labels.held = false, ON_BOARD, ALL),
        slip("boards only", |p| p.labels.sought = false, CREW, ALL),
    ]
}

/// At which of the twelve bytes.
#[rustfmt::skip]
fn places() -> Vec<Slip> {
    vec![
        slip("only the first byte", |p| p.labels.places = (0, 1), CREW, ALL),
        slip("not the first byte", |p| p.labels.places = (1, 12), [b"BOOTH-WEST-1", b"bOOTH-WEST-1"], ALL),
        slip("only the first eight", |p| p.labels.places = (0, 8), [b"BOOTH-WEST-1", b"BOOTH-WEsT-1"], ALL),
        slip("only the last four", |p| p.labels.places = (8, 12), [b"BOOTH-WEST-1", b"BOOTH-WeST-1"], ALL),
        slip("not the last byte", |p| p.labels.places = (0, 11), [b"BOOTH-WEST-A", b"BOOTH-WEST-a"], ALL),
    ]
}

macro_rules! lowered {
    ($($row:expr),+) => {
        |p| p.labels.lowered = &[$($row),+]
    };
}

/// Which bytes are read as others. `@` read as `` ` `` makes the same labels equal as `` ` `` read as `@`.
#[rustfmt::skip]
fn ranges() -> Vec<Slip> {
    vec![
        slip("a left out", lowered!((b'b', b'z', 0x20)), [b"AISLE-A", b"aisle-A"], ALL),
        slip("z left out", lowered!((b'a', b'y', 0x20)), [b"ZONE-Z", b"zone-Z"], ALL),
        slip("` read as @", lowered!((b'`', b'z', 0x20)), [b"BOOTH@WEST", b"booth`west"], ALL),
        slip("{ read as [", lowered!((b'a', b'{', 0x20)), [b"BOOTH[1]", b"booth{1]"], ALL),
        slip("| read as \\", lowered!((b'a', b'|', 0x20)), [b"BOOTH\\1", b"booth|1"], ALL),
        slip("} read as ]", lowered!((b'a', b'}', 0x20)), [b"BOOTH1]", b"booth1}"], ALL),
        slip("~ read as ^", lowered!((b'a', b'~', 0x20)), [b"BOOTH^1", b"booth~1"], ALL),
        slip("0x7f read as _", lowered!((b'a', 0x7f, 0x20)), [b"BOOTH_1", b"booth\x7f1"], SOUGHT),
    ]
}

fn no_bit_0x20(p: &mut Paper) {
    p.labels.lowered = &[
        (0x20, 0x3f, 0x20),
        (0x60, 0x7f, 0x20),
        (0xa0, 0xbf, 0x20),
        (0xe0, 0xff, 0x20),
    ];
}

/// The same, by whole parts of a byte's range.
#[rustfmt::skip]
fn wide_ranges() -> Vec<Slip> {
    vec![
        slip("no bit 0x20", no_bit_0x20, [b"@1", b"`1"], ALL),
        slip("no bit 0x20", no_bit_0x20, [b"BOOTH-1", b"booth\r1"], SOUGHT),
        slip("no bit 0x20", no_bit_0x20, [b"BOOTH", b"BOOTH\0\0\0\0\0\0\0"], SOUGHT),
        slip("A to z 0x20 lower", lowered!((b'A', b'z', 0x20)), [b"BOOTH-A", b"booth-A"], ALL),
        slip("A read as !", lowered!((b'A', b'Z', 0x20), (b'a', b'z', 0x40)), [b"BOOTH-A", b"booth-!"], ALL),
        slip("0xc1 read as A", lowered!((b'a', b'z', 0x20), (0xc1, 0xda, 0x80)), [b"BAR-A", b"bar-\xc1"], SOUGHT),
        slip("0xe1 read as A", lowered!((b'a', b'z', 0x20), (0xe1, 0xfa, 0xa0)), [b"BAR-A", b"bar-\xe1"], SOUGHT),
    ]
}

/// Those that any case may show, not only the one made for it: each slip once, and all damage.
pub fn drawn() -> Vec<Row> {
    let once = |slip: &Slip| rows(slip).into_iter().next();
    let mut drawn: Vec<Row> = slips().iter().filter_map(once).collect();
    drawn.extend(shown());
    drawn.extend(written());
    drawn
}

/// The same slips where else labels meet.
pub fn others() -> Vec<Row> {
    let rest = |slip: &Slip| rows(slip).into_iter().skip(1);
    slips().iter().flat_map(rest).collect()
}

/// Boards and feeders typed each in its own case, and so the fault at the board they name.
fn typed(d: &mut Draft, at: &[u8]) {
    d.recs[1].label = label(b"Booth-West-1");
    d.recs[2].feeder = label(b"booth-west-1");
    d.fault_label = label(at);
}

fn at_booth(d: &mut Draft) {
    typed(d, b"bOOTH-WEST-1");
}

fn at_hall(d: &mut Draft) {
    typed(d, b"Hall");
}

/// Damage to the bytes that an answer shows.
fn shown() -> Vec<Row> {
    let row = |name, damage, case| Row {
        name,
        fault: Solved(damage),
        made: Made::Solve(case),
        alone: NOBODY,
    };
    vec![
        row("shown label in capitals", own_raised, at_booth),
        row("shown label in small letters", own_lowered, at_booth),
        row("shown label as in the fault", own_as_fault, at_booth),
        row("shown feeder in capitals", feeder_raised, at_hall),
        row("shown feeder as on its board", feeder_as_board, at_hall),
        row("refused record shown in capitals", own_raised, |d| {
            d.recs[2].label = label(b"gen");
        }),
        row("refused fault shown in capitals", fault_raised, |d| {
            d.fault_label = label(b"nowhere");
        }),
        row("refused fault shown as the board", fault_as_board, |d| {
            at_hall(d);
            d.zf = [0, 1366];
        }),
        // No label that is let through has such a byte, so only what is shown tells.
        row("0xe1 shown as 0xc1", high_raised, |d| {
            d.recs[2].label[1] = 0xe1;
        }),
    ]
}

/// Damage to the labels of a written file.
fn written() -> Vec<Row> {
    let row = |name, damage| Row {
        name,
        fault: Written(damage),
        made: Made::Write(at_hall),
        alone: READER,
    };
    vec![
        row("write: labels in capitals", |a, _| {
            records(a).for_each(|r| r[2..14].make_ascii_uppercase());
        }),
        row("write: feeders in capitals", |a, _| {
            records(a).for_each(|r| r[14..26].make_ascii_uppercase());
        }),
        row("write: labels in small letters", |a, _| {
            records(a).for_each(|r| r[2..14].make_ascii_lowercase());
        }),
        row("write: feeders as on their boards", fed_as_board),
    ]
}

/// A label becomes what the board that it means is called among these records.
fn as_on_board(label: &mut [u8], records: &[u8]) {
    let mut own = records.chunks_exact(44).map(|r| &r[2..14]);
    if let Some(board) = own.find(|own| own.eq_ignore_ascii_case(label)) {
        label.copy_from_slice(board);
    }
}

fn fed_as_board(a: &mut WriteAnswer, case: &WriteCase) {
    records(a).for_each(|r| as_on_board(&mut r[14..26], &case.boards));
}

/// Label and feeder of the record that is shown, if one is.
fn record(a: &mut SolveAnswer) -> Option<(&mut [u8], &mut [u8])> {
    let whole = a.verdict.whose == NETWORK && a.shown.len() == 44;
    whole.then(move || a.shown[2..26].split_at_mut(12))
}

fn own_raised(a: &mut SolveAnswer, _: &SolveCase) {
    if let Some((own, _)) = record(a) {
        own.make_ascii_uppercase();
    }
}

fn own_lowered(a: &mut SolveAnswer, _: &SolveCase) {
    if let Some((own, _)) = record(a) {
        own.make_ascii_lowercase();
    }
}

fn own_as_fault(a: &mut SolveAnswer, case: &SolveCase) {
    if a.verdict.number == 0 {
        a.shown[2..14].copy_from_slice(&case.fault[2..14]);
    }
}

fn feeder_raised(a: &mut SolveAnswer, _: &SolveCase) {
    if let Some((_, feeder)) = record(a) {
        feeder.make_ascii_uppercase();
    }
}

fn feeder_as_board(a: &mut SolveAnswer, case: &SolveCase) {
    if let Some((_, feeder)) = record(a) {
        as_on_board(feeder, &case.net[8..]);
    }
}

/// The label of the fault that is shown, if it is.
fn fault_label(a: &mut SolveAnswer) -> Option<&mut [u8]> {
    let whole = a.verdict.whose == FAULT && a.shown.len() == 20;
    whole.then(move || &mut a.shown[2..14])
}

fn fault_raised(a: &mut SolveAnswer, _: &SolveCase) {
    if let Some(typed) = fault_label(a) {
        typed.make_ascii_uppercase();
    }
}

fn fault_as_board(a: &mut SolveAnswer, case: &SolveCase) {
    if let Some(typed) = fault_label(a) {
        as_on_board(typed, &case.net[8..]);
    }
}

fn high_raised(a: &mut SolveAnswer, _: &SolveCase) {
    let high = |c: &&mut u8| (0xe0..=0xfe).contains(*c);
    if let Some((own, _)) = record(a) {
        own.iter_mut().filter(high).for_each(|c| *c -= 0x20);
    }
}
