//! The paper's figures, worked through once more, and its printed example.

pub mod earth;
mod forgotten;
mod typed;
mod unearthed;

use crate::compare::same;
use crate::make::labels::label;
use crate::make::model::Rec;
use crate::make::SolveCase;
use crate::paper::Paper;
use crate::ring::Num;
use crate::stream::solve::{answer, filled, SolveAnswer};
use crate::{crew, laws, solve, table, write};

/// The text the example program prints (also shown by `replay`).
pub fn text(case: &SolveCase, a: &SolveAnswer) -> String {
    let v = &a.verdict;
    if v.number != 0 {
        return format!("REFUSED {} {}\n", v.number, v.place);
    }
    let name = |b: &[u8]| String::from_utf8_lossy(b).trim_end_matches(' ').to_string();
    let f = &case.fault;
    let mut out = format!("FAULT {} {} {} {}\n", name(&f[2..14]), f[14], f[15], v.amps);
    out += &format!("D {}\n", a.buffer[0]);
    let mut lines = |what: &str, numbers: &[i64]| {
        for (phase, n) in ["a", "b", "c"].iter().zip(numbers.chunks(4)) {
            out += &format!("{what} {phase} {} {} {} {}\n", n[0], n[1], n[2], n[3]);
        }
    };
    lines("I", &a.buffer[1..13]);
    let boards = case.net[8..].chunks(44).zip(a.buffer[13..].chunks(24));
    for (record, numbers) in boards {
        let board = name(&record[2..14]);
        lines(&format!("{board} V"), &numbers[..12]);
        lines(&format!("{board} I"), &numbers[12..]);
    }
    out
}

pub fn rec(name: &str, feeder: &str, kind: u8, clock: u8, z: [u16; 8]) -> Rec {
    Rec {
        mark: *b"BD",
        label: label(name.as_bytes()),
        feeder: label(feeder.as_bytes()),
        kind,
        clock,
        z,
    }
}

/// GEN, BOOTH-WEST-1 and HALL of the paper.
pub fn paper_records() -> Vec<Rec> {
    vec![
        rec("GEN", "", 0, 0, [0, 20, 0, 20, 0, 5, 0, 5]),
        rec("BOOTH-WEST-1", "GEN", 2, 0, [30, 10, 30, 10, 90, 30, 0, 0]),
        rec("HALL", "GEN", 4, 11, [0, 20, 0, 20, 0, 20, 0, 0]),
    ]
}

fn network(volts: u16, unit: u16, recs: &[Rec]) -> Vec<u8> {
    let mut out = b"HD".to_vec();
    for w in [volts, unit, recs.len() as u16] {
        out.extend(w.to_le_bytes());
    }
    recs.iter().for_each(|r| out.extend(r.bytes()));
    out
}

fn fault(name: &str, kind: u8, phase: u8, zf: [u16; 2]) -> Vec<u8> {
    let mut out = b"FT".to_vec();
    out.extend(label(name.as_bytes()));
    out.extend([kind, phase]);
    zf.iter().for_each(|z| out.extend(z.to_le_bytes()));
    out
}

fn case(net: Vec<u8>, fault: Vec<u8>) -> SolveCase {
    SolveCase {
        room: 6_200,
        net,
        fault,
        note: String::new(),
    }
}

pub struct Run {
    agree: u32,
    all: u32,
}

impl Run {
    pub fn see(&mut self, holds: bool, name: &str) {
        self.all += 1;
        self.agree += u32::from(holds);
        println!("{} {name}", if holds { "agrees " } else { "DIFFERS" });
    }

    /// A fault in the paper's network: D, amps where given, and numbers at places of the buffer.
    fn worked(&mut self, f: (&str, u8, u8), d: i64, amps: Option<u64>, at: &[(usize, [i64; 4])]) {
        let name = format!("{} kind {} phase {}", f.0, f.1, f.2);
        let c = case(
            network(230, 1000, &paper_records()),
            fault(f.0, f.1, f.2, [0, 0]),
        );
        let a = answer(&Paper::AS_WRITTEN, &c);
        let v = &a.verdict;
        self.see(v.number == 0 && a.buffer[0] == d, &format!("{name}: D {d}"));
        if let Some(amps) = amps {
            self.see(v.amps == amps, &format!("{name}: {amps} A"));
        }
        for (place, n) in at {
            let right = a.buffer[*place..place + 4] == n[..];
            self.see(right, &format!("{name}: place {place} {n:?}"));
        }
        self.lawful(&name, &c, &a);
    }

    fn lawful(&mut self, name: &str, c: &SolveCase, a: &SolveAnswer) {
        let amps = a.verdict.amps;
        let lawful = laws::check(&c.net, &c.fault, &a.buffer, amps).is_ok()
            && solve::check(&c.net, &c.fault, &a.buffer).is_ok()
            && crew::check(&c.net, &c.fault, &a.buffer, amps).is_ok();
        self.see(lawful, &format!("{name}: laws hold, solved again"));
    }

    fn verdict(&mut self, net: &[u8], fault: &[u8], room: usize, due: (u32, u32), name: &str) {
        let mut c = case(net.to_vec(), fault.to_vec());
        c.room = room;
        let v = answer(&Paper::AS_WRITTEN, &c).verdict;
        self.see((v.number, v.place) == due, name);
    }
}

/// Places of the buffer: fault current of a phase; voltage or current of a record's phase.
fn cur(phase: usize) -> usize {
    1 + 4 * phase
}

fn volt(r: usize, phase: usize) -> usize {
    13 + 24 * (r - 1) + 4 * phase
}

fn worked(run: &mut Run) {
    run.worked(("GEN", 0, 0), 400, Some(11_500), &[]);
    let ib = [(cur(1), [0, -80, 0, 40])];
    run.worked(("GEN", 2, 0), 1600, Some(9_959), &ib);
    let both = [
        (cur(1), [0, -72_000, 0, 72_000]),
        (cur(2), [0, 72_000, 0, 0]),
    ];
    run.worked(("GEN", 3, 0), 1_440_000, Some(11_500), &both);
    let booth = [
        (cur(0), [450, 0, 0, -330]),
        (volt(1, 0), [28_000, 0, 0, -9_000]),
        (volt(1, 1), [0, 0, -34_600, 0]),
    ];
    run.worked(("BOOTH-WEST-1", 1, 0), 34_600, Some(3_709), &booth);
    let turned = [(cur(1), [0, -330, -450, 330])];
    run.worked(("BOOTH-WEST-1", 1, 1), 34_600, Some(3_709), &turned);
    let hall = [
        (cur(0), [0, 0, 0, -300]),
        (volt(1, 0), [0, 6_000, 0, -8_000]),
        (volt(1, 1), [0, -6_000, 0, -2_000]),
        (volt(1, 2), [0, 0, 0, 10_000]),
        (volt(1, 0) + 12, [100, 0, -200, 0]),
    ];
    run.worked(("HALL", 1, 0), 10_000, Some(6_900), &hall);
}

fn numbers(run: &mut Run) {
    let one = Num::whole(1);
    let sum = one + one.turn(4) + one.turn(8);
    run.see(sum == Num::ZERO, "1 + t^4 + t^8 = 0");
    run.see(one.turn(11) == Num([0, 1, 0, -1]), "t^11 = (0,1,0,-1)");
}

fn limits(run: &mut Run) {
    let recs = paper_records();
    let net = network(230, 1000, &recs);
    let at_gen = fault("GEN", 0, 0, [0, 0]);
    run.verdict(
        &net,
        &fault("GEN", 0, 0, [1365, 1365]),
        200,
        (0, 1),
        "Zf 1,365 taken",
    );
    run.verdict(
        &net,
        &fault("GEN", 0, 0, [0, 1366]),
        200,
        (17, 0),
        "Zf 1,366 refused",
    );
    for (zn, due) in [(1365, (0, 1)), (1366, (11, 1))] {
        let source = [rec("GEN", "", 0, 0, [0, 20, 0, 20, 0, 0, 0, zn])];
        let name = format!("zn {zn} with z0 = 0: {due:?}");
        run.verdict(&network(230, 1000, &source), &at_gen, 200, due, &name);
    }
    for (count, due) in [(256, (0, 1)), (257, (3, 0))] {
        let mut many = vec![recs[0].clone()];
        for r in 2..=count {
            many.push(rec(&format!("B{r}"), "GEN", 2, 0, [1, 0, 1, 0, 1, 0, 0, 0]));
        }
        let name = format!("N {count}: {due:?}");
        run.verdict(&network(230, 1000, &many), &at_gen, 6_200, due, &name);
    }
}

fn first_rule(run: &mut Run) {
    let recs = paper_records();
    let net = network(230, 1000, &recs);
    let at_gen = fault("GEN", 0, 0, [0, 0]);
    let twice = [recs[0].clone(), rec("GEN", "NOWHERE", 2, 0, [0; 8])];
    let net2 = network(230, 1000, &twice);
    run.verdict(
        &net2,
        &at_gen,
        200,
        (7, 2),
        "used label with an unknown feeder: 7",
    );
    run.verdict(
        &net,
        &at_gen[..19],
        0,
        (12, 0),
        "short fault and short buffer: 12",
    );
    run.verdict(
        &net,
        &at_gen,
        84,
        (19, 0),
        "84 numbers for three boards: 19",
    );
    run.verdict(
        &net,
        &at_gen,
        85,
        (0, 1),
        "85 numbers for three boards: taken",
    );
}

const PRINTED: &str = "FAULT GEN 0 0 11500
D 400
I a 0 0 0 -20
I b 0 -20 0 20
I c 0 20 0 0
GEN V a 0 0 0 0
GEN V b 0 0 0 0
GEN V c 0 0 0 0
GEN I a 0 0 0 -20
GEN I b 0 -20 0 20
GEN I c 0 20 0 0
";

fn printed(run: &mut Run) {
    let c = case(
        network(230, 1000, &paper_records()[..1]),
        fault("GEN", 0, 0, [0, 0]),
    );
    let a = answer(&Paper::AS_WRITTEN, &c);
    run.see(text(&c, &a) == PRINTED, "the printed example, whole");
    let again = answer(&Paper::AS_WRITTEN, &c);
    run.see(
        same(&a, &again).is_ok(),
        "the same call gives the same answer",
    );
}

/// The refusal table, by hand.
fn by_hand(run: &mut Run) {
    let lines = table::HEAD.iter().chain(&table::RECORDS);
    let lines = lines.chain(&table::FORGOTTEN);
    let lines = lines.chain(&table::FAULTS).chain(&table::TYPED);
    for line in lines.chain(&table::NO_RETURN) {
        let mut net = network(230, 1000, &paper_records());
        let mut hall = fault("HALL", 1, 0, [0, 0]);
        line.net.iter().for_each(|&(at, byte)| net[at] = byte);
        line.fault.iter().for_each(|&(at, byte)| hall[at] = byte);
        net.resize(line.net_length, 0);
        hall.resize(line.fault_length, 0);
        let mut c = case(net, hall);
        c.room = line.room;
        let a = answer(&Paper::AS_WRITTEN, &c);
        let kept = line.due[0] == 0 || a.buffer == filled(line.room);
        run.see(line.agrees(&a.verdict) && kept, line.name);
    }
}

/// Source document 003's one-phase example, and the largest number and amps of the base.
fn others(run: &mut Run) {
    let example = [rec("BUS", "", 0, 0, [0, 1696, 0, 1696, 0, 1999, 0, 0])];
    let c = case(network(1000, 10, &example), fault("BUS", 1, 0, [0, 0]));
    let a = answer(&Paper::AS_WRITTEN, &c);
    // 5.5648 per unit: with 1,000 V and unit 10 one per unit (10,000 counts) is 10,000 A.
    run.see(
        a.verdict.amps == 55_648,
        "003's one-phase example: 5.5648 per unit",
    );
    let most = [rec(
        "GEN",
        "",
        0,
        0,
        [4095, 4095, 4095, 4095, 4095, 4095, 0, 0],
    )];
    let c = case(network(1000, 10, &most), fault("GEN", 3, 0, [1365, 1365]));
    let d = answer(&Paper::AS_WRITTEN, &c).buffer[0];
    run.see(
        d == 28_120_019_945_062_500,
        "the largest D is 28,120,019,945,062,500",
    );
    let least = [rec("GEN", "", 0, 0, [0, 1, 0, 1, 0, 0, 0, 0])];
    let c = case(network(1000, 10, &least), fault("GEN", 3, 0, [0, 0]));
    let amps = answer(&Paper::AS_WRITTEN, &c).verdict.amps;
    run.see(amps == 300_000_000, "the most amps are 300,000,000");
}

/// All figures; true if every one agrees.
pub fn all() -> bool {
    let mut run = Run { agree: 0, all: 0 };
    numbers(&mut run);
    worked(&mut run);
    limits(&mut run);
    first_rule(&mut run);
    by_hand(&mut run);
    printed(&mut run);
    others(&mut run);
    unearthed::by_hand(&mut run);
    typed::by_hand(&mut run);
    write::table::by_hand(&mut run);
    earth::by_hand(&mut run);
    forgotten::by_hand(&mut run);
    println!("{} of {} figures agree", run.agree, run.all);
    run.agree == run.all
}

#[cfg(test)]
mod tests {
    #[test]
    fn figures_agree() {
        assert!(super::all());
    }
}
