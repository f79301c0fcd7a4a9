//! R-2 worked out by hand: earth faults at boards without earth return.

use super::{case, cur, fault, network, paper_records, rec, text, volt, Run};
use crate::make::model::Rec;
use crate::paper::Paper;
use crate::stream::solve::answer;

const NONE: [i64; 4] = [0; 4];

/// A record's current of a phase.
fn amp(r: usize, phase: usize) -> usize {
    volt(r, phase) + 12
}

/// What was worked out of a fault: D, amps, and numbers at places of the buffer.
type Due<'a> = (i64, u64, &'a [(usize, [i64; 4])]);

/// One line for all the numbers: there are many.
fn worked(run: &mut Run, net: (&str, &[Rec]), f: (&str, u8, u8), zf: [u16; 2], due: Due) {
    let (d, amps, at) = due;
    let zf_name = format!("Zf {} + j{}", zf[0], zf[1]);
    let name = format!("{}, {} kind {} phase {}, {zf_name}", net.0, f.0, f.1, f.2);
    let c = case(network(230, 1000, net.1), fault(f.0, f.1, f.2, zf));
    let a = answer(&Paper::AS_WRITTEN, &c);
    let v = &a.verdict;
    let said = (v.number, a.buffer[0], v.amps) == (0, d, amps);
    run.see(said, &format!("{name}: D {d}, {amps} A"));
    let differs = |(place, n): &&(usize, [i64; 4])| a.buffer[*place..place + 4] != n[..];
    match at.iter().find(differs) {
        Some((place, n)) => run.see(false, &format!("{name}: place {place} {n:?}")),
        None => run.see(true, &format!("{name}: {} numbers", 4 * at.len())),
    }
    run.lawful(&name, &c, &a);
}

/// The paper's set, its star point not earthed.
fn set(x1: u16, x2: u16) -> Rec {
    rec("GEN", "", 1, 0, [0, x1, 0, x2, 0, 0, 0, 0])
}

/// A set alone. The faulted phase is at earth, and the others show what lies between them and it:
/// with a = 1, b = t^8 = (0,0,-1,0), c = t^4 = (-1,0,1,0) these are b - a and c - a; a - b and c - b;
/// a - c and b - c.
const ONE_PHASE: [[[i64; 4]; 3]; 3] = [
    [NONE, [-1, 0, -1, 0], [-2, 0, 1, 0]],
    [[1, 0, 1, 0], NONE, [-1, 0, 2, 0]],
    [[2, 0, -1, 0], [1, 0, -2, 0], NONE],
];

fn set_alone(run: &mut Run) {
    for (phase, v) in ONE_PHASE.iter().enumerate() {
        // Zf has no effect.
        for zf in [[0, 0], [3, 4], [1365, 1365]] {
            let mut at = Vec::new();
            for (m, &volts) in v.iter().enumerate() {
                at.extend([(cur(m), NONE), (volt(1, m), volts), (amp(1, m), NONE)]);
            }
            let net = ("set alone", &[set(20, 20)][..]);
            worked(run, net, ("GEN", 1, phase as u8), zf, (1, 0, &at));
        }
    }
}

/// I1 = 1/(Z1 + Z2) and W1 = W2 = W0 = Z2/(Z1 + Z2): the healthy phase shows three times that.
fn set_alone_two_phases(run: &mut Run) {
    // j20 and j20: I1 = -j40/1600, W1 = 800/1600. Currents are those of the paper's kind 2.
    let first = [
        (cur(0), NONE),
        (cur(1), [0, -80, 0, 40]),
        (cur(2), [0, 80, 0, -40]),
        (volt(1, 0), [2400, 0, 0, 0]),
        (volt(1, 1), NONE),
        (volt(1, 2), NONE),
        (amp(1, 1), [0, -80, 0, 40]),
    ];
    // Turned by t^8 = -t^2 to the next phase: b is the healthy one.
    let next = [
        (cur(0), [0, -40, 0, -40]),
        (cur(1), NONE),
        (cur(2), [0, 40, 0, 40]),
        (volt(1, 0), NONE),
        (volt(1, 1), [0, 0, -2400, 0]),
        (volt(1, 2), NONE),
    ];
    // j20 and j30: I1 = -j50/2500, W1 = 1500/2500.
    let unlike = [
        (cur(1), [0, -100, 0, 50]),
        (volt(1, 0), [4500, 0, 0, 0]),
        (volt(1, 1), NONE),
        (volt(1, 2), NONE),
    ];
    let alike = [set(20, 20)];
    let net = ("set alone", &alike[..]);
    worked(run, net, ("GEN", 3, 0), [0, 0], (1600, 0, &first));
    worked(run, net, ("GEN", 3, 0), [1365, 7], (1600, 0, &first));
    worked(run, net, ("GEN", 3, 1), [0, 0], (1600, 0, &next));
    let net = ("set with z2 j30", &[set(20, 30)][..]);
    worked(run, net, ("GEN", 3, 0), [0, 0], (2500, 0, &unlike));
}

/// The paper's earthed GEN, a transformer that blocks with clock 11, a cable behind it.
fn behind_kind_5() -> [Rec; 3] {
    [
        paper_records()[0].clone(),
        rec("BLOCK", "GEN", 5, 11, [0, 20, 0, 20, 0, 0, 0, 0]),
        rec("BOOTH", "BLOCK", 2, 0, [30, 10, 30, 10, 90, 30, 0, 0]),
    ]
}

fn cable_behind_kind_5(run: &mut Run) {
    let recs = behind_kind_5();
    let net = ("cable behind kind 5", &recs[..]);
    // GEN stands before the cable by eleven twelfths: t^11, t^19 = -t, t^27 = t^3.
    let one = [
        (volt(1, 0), [0, 1, 0, -1]),
        (volt(1, 1), [0, -1, 0, 0]),
        (volt(1, 2), [0, 0, 0, 1]),
        (volt(2, 0), NONE),
        (volt(2, 1), [-1, 0, -1, 0]),
        (volt(2, 2), [-2, 0, 1, 0]),
        (volt(3, 0), NONE),
        (volt(3, 1), [-1, 0, -1, 0]),
        (volt(3, 2), [-2, 0, 1, 0]),
        (amp(1, 0), NONE),
        (amp(3, 0), NONE),
    ];
    worked(run, net, ("BOOTH", 1, 0), [0, 0], (1, 0, &one));
    // The fault one board up: nothing changes, they hang together.
    worked(run, net, ("BLOCK", 1, 0), [0, 9], (1, 0, &one));
    // Z1 = Z2 = 30 + j50, so D = 60^2 + 100^2 and I1 = 60 - j100 over it; Ib = (1 - 2t^2) I1.
    // W1, W2 of BOOTH 6800 each, of BLOCK 9600 - j2400 and 4000 + j2400, of GEN 11600 - j1200 and
    // 2000 + j1200. W0 is 6800 at BOOTH and BLOCK, zero at GEN.
    let two = [
        (cur(0), NONE),
        (cur(1), [60, -200, -120, 100]),
        (cur(2), [-60, 200, 120, -100]),
        (volt(1, 0), [-1200, 13_600, 0, -11_600]),
        (volt(1, 1), [-1200, -13_600, 0, 2000]),
        (volt(1, 2), [2400, 0, 0, 9600]),
        (volt(2, 0), [20_400, 0, 0, 0]),
        (volt(2, 1), [2800, -4800, -5600, 2400]),
        (volt(2, 2), [-2800, 4800, 5600, -2400]),
        (volt(3, 0), [20_400, 0, 0, 0]),
        (volt(3, 1), NONE),
        (volt(3, 2), NONE),
        // On GEN's side two phases carry -j I1 and one twice j I1.
        (amp(1, 0), [-100, 0, 0, -60]),
        (amp(1, 1), [-100, 0, 0, -60]),
        (amp(1, 2), [200, 0, 0, 120]),
        (amp(2, 0), NONE),
        (amp(2, 1), [60, -200, -120, 100]),
        (amp(3, 2), [-60, 200, 120, -100]),
    ];
    worked(run, net, ("BOOTH", 3, 0), [0, 0], (13_600, 0, &two));
    worked(run, net, ("BOOTH", 3, 0), [1, 1365], (13_600, 0, &two));
}

/// The paper's three boards with a set that is not earthed.
fn paper_unearthed(run: &mut Run) {
    let mut recs = paper_records();
    recs[0] = set(20, 20);
    let net = ("paper's set unearthed", &recs[..]);
    // HALL is another part, turned by t^-11 = t; b is then t^9 = -t^3 and c is t^5.
    let booth = [
        (volt(1, 0), NONE),
        (volt(1, 1), [-1, 0, -1, 0]),
        (volt(1, 2), [-2, 0, 1, 0]),
        (volt(2, 0), NONE),
        (volt(2, 1), [-1, 0, -1, 0]),
        (volt(3, 0), [0, 1, 0, 0]),
        (volt(3, 1), [0, 0, 0, -1]),
        (volt(3, 2), [0, -1, 0, 1]),
    ];
    worked(run, net, ("BOOTH-WEST-1", 1, 0), [0, 0], (1, 0, &booth));
    worked(run, net, ("GEN", 1, 0), [0, 0], (1, 0, &booth));
    // HALL has its own earth return: the paper's figures, whatever GEN's star point does.
    let hall = [
        (cur(0), [0, 0, 0, -300]),
        (volt(1, 0), [0, 6_000, 0, -8_000]),
        (volt(1, 1), [0, -6_000, 0, -2_000]),
        (volt(1, 2), [0, 0, 0, 10_000]),
    ];
    worked(run, net, ("HALL", 1, 0), [0, 0], (10_000, 6_900, &hall));
    // Clear of earth nothing is lifted: the paper's kind 2 at GEN, b and c at half of -a each.
    let clear = [
        (cur(1), [0, -80, 0, 40]),
        (volt(1, 0), [1600, 0, 0, 0]),
        (volt(1, 1), [-800, 0, 0, 0]),
        (volt(1, 2), [-800, 0, 0, 0]),
    ];
    worked(run, net, ("GEN", 2, 0), [0, 0], (1600, 9_959, &clear));
}

const PRINTED: &str = "FAULT GEN 1 0 0
D 1
I a 0 0 0 0
I b 0 0 0 0
I c 0 0 0 0
GEN V a 0 0 0 0
GEN V b -1 0 -1 0
GEN V c -2 0 1 0
GEN I a 0 0 0 0
GEN I b 0 0 0 0
GEN I c 0 0 0 0
";

pub fn by_hand(run: &mut Run) {
    set_alone(run);
    set_alone_two_phases(run);
    cable_behind_kind_5(run);
    paper_unearthed(run);
    let c = case(
        network(230, 1000, &[set(20, 20)]),
        fault("GEN", 1, 0, [0, 0]),
    );
    let a = answer(&Paper::AS_WRITTEN, &c);
    run.see(text(&c, &a) == PRINTED, "a set alone, printed whole");
}
