//! The deliberate faults of R-2: earth faults at a board without earth return.

use super::Fault::{Reading, Solved};
use super::{Fault, Made, Row};
use crate::compare::Witness;
use crate::figures::rec;
use crate::judge::room_needed;
use crate::make::labels::label;
use crate::make::model::Draft;
use crate::make::SolveCase;
use crate::paper::{Paper, Rise};
use crate::stream::solve::SolveAnswer;

/// Ten boards in four parts, and phase a of DESK to earth.
///
/// GEN, MAIN, DESK, BOOTH and FOYER hang together without earth return: seen from DESK, which stands
/// behind a star/star transformer, two are above, one is below and one beside. STAGE and LIGHT are
/// such a part of their own and YARD is one; HALL and BAR have an earth return.
pub fn venue(d: &mut Draft) {
    d.recs = vec![
        rec("GEN", "", 1, 0, [0, 20, 2, 30, 0, 0, 0, 0]),
        rec("MAIN", "GEN", 2, 0, [3, 1, 3, 1, 9, 3, 0, 0]),
        rec("DESK", "MAIN", 3, 0, [0, 8, 0, 8, 0, 8, 1, 2]),
        rec("BOOTH", "DESK", 2, 0, [30, 10, 30, 10, 90, 30, 0, 0]),
        rec("FOYER", "MAIN", 2, 0, [5, 2, 5, 2, 15, 6, 0, 0]),
        rec("HALL", "GEN", 4, 11, [0, 20, 0, 20, 0, 20, 0, 0]),
        rec("STAGE", "MAIN", 5, 5, [0, 12, 0, 12, 0, 0, 0, 0]),
        rec("LIGHT", "STAGE", 2, 0, [4, 4, 4, 4, 12, 12, 0, 0]),
        rec("YARD", "HALL", 5, 1, [0, 9, 0, 9, 0, 0, 0, 0]),
        rec("BAR", "HALL", 2, 0, [7, 3, 7, 3, 21, 9, 0, 0]),
    ];
    d.up = [0, 0, 1, 2, 1, 0, 1, 6, 5, 5].map(Some).to_vec();
    d.up[0] = None;
    d.count = 10;
    d.room = room_needed(10) + 1;
    at(d, "DESK", 1, 0);
}

/// Where the numbers of STAGE and LIGHT stand, records 7 and 8.
pub const OTHER_PART: [usize; 2] = [13 + 24 * 6, 13 + 24 * 7];

pub fn at(d: &mut Draft, board: &str, kind: u8, phase: u8) {
    d.fault_label = label(board.as_bytes());
    d.fault_kind = kind;
    d.phase = phase;
}

fn two_phases(d: &mut Draft) {
    venue(d);
    at(d, "DESK", 3, 0);
}

// Who must see a fault beside the comparison.
const NOBODY: &[Witness] = &[];
const BOTH: &[Witness] = &[Witness::Laws, Witness::Solve];
const EVERY: &[Witness] = &[Witness::Laws, Witness::Solve, Witness::Crew];
/// `solve` has no amps.
const AMPS: &[Witness] = &[Witness::Laws, Witness::Crew];

fn row(name: &'static str, fault: Fault, case: fn(&mut Draft), alone: &'static [Witness]) -> Row {
    Row {
        name,
        fault,
        made: Made::Solve(case),
        alone,
    }
}

fn reading(
    name: &'static str,
    change: fn(&mut Paper),
    case: fn(&mut Draft),
    alone: &'static [Witness],
) -> Row {
    row(name, Reading(change), case, alone)
}

/// Those that any case may show, not only the one made for it.
pub fn drawn() -> Vec<Row> {
    let mut rows = joining();
    rows.extend(w0());
    rows.extend(which());
    rows.extend(currents());
    rows.extend(numbers());
    rows.extend(refusals());
    rows
}

/// At which boards W0 is not zero.
fn joining() -> Vec<Row> {
    let joining = |name, change| reading(name, change, venue, EVERY);
    vec![
        joining("W0 at every unearthed board", |p| {
            p.unearthed.joined_only = false
        }),
        joining("W0 only at k", |p| p.unearthed.joining = &[]),
        joining("W0 stops at a kind 3 record", |p| {
            p.unearthed.joining = &[2]
        }),
        joining("W0 stops at a cable", |p| p.unearthed.joining = &[3]),
        joining("W0 through kind 4", |p| p.unearthed.joining = &[2, 3, 4]),
        joining("W0 through kind 5", |p| p.unearthed.joining = &[2, 3, 5]),
        joining("W0 not up to the feeder", |p| p.unearthed.joins_up = false),
        joining("W0 not down to what is fed", |p| {
            p.unearthed.joins_down = false
        }),
        joining("W0 one record far", |p| p.unearthed.joins_far = false),
        // From the other side of kind 5: MAIN must not follow LIGHT.
        reading(
            "W0 up through kind 5",
            |p| p.unearthed.joining = &[2, 3, 5],
            |d| {
                venue(d);
                at(d, "LIGHT", 1, 2);
            },
            EVERY,
        ),
        // With kind 3 the voltage is another one, the boards are the same.
        reading(
            "W0 only at k, kind 3",
            |p| p.unearthed.joining = &[],
            two_phases,
            BOTH,
        ),
        reading(
            "W0 through kind 5, kind 3",
            |p| p.unearthed.joining = &[2, 3, 5],
            two_phases,
            BOTH,
        ),
    ]
}

/// What W0 is.
fn w0() -> Vec<Row> {
    vec![
        reading("W0 = +1", |p| p.unearthed.w0 = 1, venue, EVERY),
        reading("W0 left at zero", |p| p.unearthed.w0 = 0, venue, EVERY),
        reading(
            "W0 of kind 3 being 1",
            |p| p.unearthed.rise = Rise::One,
            two_phases,
            EVERY,
        ),
        reading(
            "W0 of kind 3 being -W1",
            |p| p.unearthed.rise = Rise::MinusFaultedW1,
            two_phases,
            EVERY,
        ),
        // k itself is right.
        reading(
            "W0 of kind 3 being each board's W1",
            |p| p.unearthed.rise = Rise::OwnW1,
            two_phases,
            BOTH,
        ),
        reading(
            "W0 not turned with the phase",
            |p| p.unearthed.w0_turned = false,
            |d| {
                venue(d);
                at(d, "DESK", 1, 1);
            },
            EVERY,
        ),
        reading(
            "W0 not turned with the phase, kind 3",
            |p| p.unearthed.w0_turned = false,
            |d| {
                venue(d);
                at(d, "DESK", 3, 2);
            },
            EVERY,
        ),
    ]
}

/// Which faults are meant.
fn which() -> Vec<Row> {
    vec![
        reading(
            "W0 of kind 3 in kind 2 too",
            |p| p.unearthed.faults = &[1, 2, 3],
            |d| {
                venue(d);
                at(d, "DESK", 2, 0);
            },
            BOTH,
        ),
        reading(
            "W0 of kind 1 only",
            |p| p.unearthed.faults = &[1],
            two_phases,
            EVERY,
        ),
        // HALL of the paper has an earth return.
        reading(
            "no current with an earth return",
            |p| p.unearthed.no_return_only = false,
            |_| {},
            BOTH,
        ),
        reading(
            "kind 5 passes zero sequence",
            |p| p.kind5_blocks = false,
            |d| {
                venue(d);
                at(d, "YARD", 1, 0);
            },
            EVERY,
        ),
    ]
}

/// Currents, D and amps.
fn currents() -> Vec<Row> {
    let through_zf = |d: &mut Draft| {
        two_phases(d);
        d.zf = [3, 4];
    };
    vec![
        reading(
            "Zf once in kind 3 without return",
            |p| p.unearthed.zf_times = 1,
            through_zf,
            EVERY,
        ),
        reading(
            "Zf three times in kind 3 without return",
            |p| p.unearthed.zf_times = 3,
            through_zf,
            EVERY,
        ),
        reading(
            "kind 1 through Zf without return",
            |p| p.unearthed.dead = false,
            |d| {
                venue(d);
                d.zf = [3, 4];
            },
            EVERY,
        ),
        reading(
            "kind 3 with kind 2's amps",
            |p| p.unearthed.earth_amps = false,
            two_phases,
            AMPS,
        ),
    ]
}

/// Damage to the numbers of an answer.
fn numbers() -> Vec<Row> {
    let output = |name, damage, case, alone| row(name, Solved(damage), case, alone);
    vec![
        output("D 0 without return", no_divisor, venue, EVERY),
        output("D 2 without return", double_divisor, venue, EVERY),
        // All laws are kept, and the crew sees the same.
        output("D 4, all numbers with it", fourfold, venue, NOBODY),
        output("D 4 times, kind 3", fourfold, two_phases, NOBODY),
        output("an ampere without return", an_ampere, venue, AMPS),
        output(
            "an ampere without return, kind 3",
            an_ampere,
            two_phases,
            AMPS,
        ),
        output("zero sequence through DESK's record", passes, venue, EVERY),
        output("zero sequence through it, kind 3", passes, two_phases, BOTH),
        output("zero sequence from the source to k", comes, venue, EVERY),
        output("zero sequence to k, kind 3", comes, two_phases, EVERY),
    ]
}

fn refusals() -> Vec<Row> {
    let small = |d: &mut Draft| {
        venue(d);
        d.room = 0;
    };
    vec![
        reading(
            "18 still there",
            |p| p.unearthed.answered = false,
            venue,
            NOBODY,
        ),
        reading(
            "18 still there, kind 3",
            |p| p.unearthed.answered = false,
            two_phases,
            NOBODY,
        ),
        reading(
            "18 before 19",
            |p| p.unearthed.answered = false,
            small,
            NOBODY,
        ),
        reading(
            "18 for want of room",
            |p| p.unearthed.room_number = 18,
            small,
            NOBODY,
        ),
        row("18 beside an answer", Solved(marked), venue, NOBODY),
        reading(
            "17 not asked without return",
            |p| p.unearthed.zf_tested = false,
            |d| {
                venue(d);
                d.zf = [0, 1366];
            },
            NOBODY,
        ),
    ]
}

/// An accepted earth fault with no earth return, as far as an answer shows it.
fn dead(a: &SolveAnswer, case: &SolveCase) -> bool {
    a.verdict.number == 0 && a.verdict.amps == 0 && matches!(case.fault[14], 1 | 3)
}

fn no_divisor(a: &mut SolveAnswer, case: &SolveCase) {
    if dead(a, case) {
        a.buffer[0] = 0;
    }
}

fn double_divisor(a: &mut SolveAnswer, case: &SolveCase) {
    if dead(a, case) {
        a.buffer[0] *= 2;
    }
}

fn fourfold(a: &mut SolveAnswer, case: &SolveCase) {
    if dead(a, case) {
        let need = room_needed(a.verdict.boards as usize);
        a.buffer[..need].iter_mut().for_each(|x| *x *= 4);
    }
}

fn an_ampere(a: &mut SolveAnswer, case: &SolveCase) {
    a.verdict.amps += u64::from(dead(a, case));
}

fn marked(a: &mut SolveAnswer, case: &SolveCase) {
    if dead(a, case) {
        a.verdict.number = 18;
    }
}

/// One and the same current in all three phases, over D.
fn more(phases: &mut [i64]) {
    phases.chunks_mut(4).for_each(|n| n[0] += 1);
}

/// In the faulted board's own record only.
fn passes(a: &mut SolveAnswer, case: &SolveCase) {
    if dead(a, case) {
        let from = 13 + 24 * (a.verdict.place as usize - 1) + 12;
        more(&mut a.buffer[from..from + 12]);
    }
}

/// Down the chain of the venue's DESK (records 1, 2, 3; of any network: from record 1 to k by number)
/// and out at the fault: Kirchhoff's law is kept, and Ohm's in the source.
fn comes(a: &mut SolveAnswer, case: &SolveCase) {
    if dead(a, case) {
        more(&mut a.buffer[1..13]);
        let boards = a.buffer[13..].chunks_mut(24);
        let chain = boards.take(a.verdict.place as usize);
        chain.for_each(|b| more(&mut b[12..24]));
    }
}
