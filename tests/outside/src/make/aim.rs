//! One deliberate break of each rule, at any record where it can happen, just over the limit as
//! often as far over it. Where a draft leaves no way to break a rule, it stays as it is.

use super::forgotten;
use super::labels::{label, malformed, mistaken, near, typed};
use super::model::Draft;
use super::{MOST_FAULT, MOST_NET};
use crate::rng::Rng;

pub fn break_rule(rng: &mut Rng, d: &mut Draft, rule: usize) {
    let last = d.recs.len() - 1;
    // The first and the last record are places of their own.
    let r = match rng.below(4) {
        0 => 0,
        1 => last,
        _ => rng.range(0, last),
    };
    break_at(rng, d, rule, r);
}

/// The same at this record, if it is a record's rule.
pub fn break_at(rng: &mut Rng, d: &mut Draft, rule: usize, r: usize) {
    let last = d.recs.len() - 1;
    match rule {
        1 => d.net_length = Some(rng.below(8)),
        2 => d.mark = mark(rng, *b"HD", b"BD"),
        3 => head(rng, d),
        4 => net_length(rng, d),
        5 => d.recs[r].mark = mark(rng, *b"BD", b"HD"),
        6 => d.recs[r].label = malformed(rng, &d.recs[r].label),
        7 => used(rng, d, if r > 0 { r } else { last }),
        8 => feeder(rng, d, r),
        9 => kind(rng, d, r),
        10 => impedance(rng, d, r),
        21 => forgotten::one(rng, d),
        11 => sum(rng, d, r),
        12 => d.fault_length = Some(fault_length(rng)),
        13 => d.fault_mark = mark(rng, *b"FT", b"TF"),
        14 => fault_label(rng, d),
        15 => d.fault_kind = rng.pick(&[4, 4, 5, 128, 255]),
        16 => phase(rng, d),
        17 => d.zf[rng.below(2)] = rng.pick(&[1366, 1366, 1367, 4095, 65535, 32768]),
        _ => d.room = short_room(rng, d.recs.len()),
    }
}

/// Another mark: one letter off, the other case, a neighbour's.
fn mark(rng: &mut Rng, right: [u8; 2], other: &[u8; 2]) -> [u8; 2] {
    let [a, b] = right;
    rng.pick(&[
        *other,
        [b, a],
        [a, b + 1],
        [a - 1, b],
        [a | 0x20, b],
        [a, b | 0x20],
        [0, 0],
    ])
}

fn head(rng: &mut Rng, d: &mut Draft) {
    match rng.below(3) {
        0 => d.volts = rng.pick(&[0, 1001, 1001, 65535, 1256]),
        1 => d.unit = rng.pick(&[9, 9, 0, 1001, 1001, 65535]),
        _ => d.count = rng.pick(&[0, 257, 257, 65535, 512]),
    }
    // Now and then the file really has as many records as it says.
    if d.count == 257 && rng.coin() {
        d.net_length = Some(8 + 44 * 257);
    }
}

fn net_length(rng: &mut Rng, d: &mut Draft) {
    let right = 8 + 44 * d.recs.len();
    let length = match rng.below(8) {
        0 => right - 1,
        1 => right + 1,
        2 => right - 44,
        3 => right + 44,
        4 => 8,
        5 => rng.range(8, right),
        6 => rng.range(right + 1, right + 200),
        _ => rng.pick(&[16_383, 16_384, 16_385, MOST_NET]),
    };
    d.net_length = Some(length.min(MOST_NET));
    if rng.permille(250) {
        // Or the count is wrong and the bytes are all there.
        d.net_length = None;
        d.count = if d.count < 256 { d.count + 1 } else { 255 };
    }
}

/// An earlier label, as it stands there or as another hand types it.
fn used(rng: &mut Rng, d: &mut Draft, r: usize) {
    let earlier = d.recs[rng.below(r)].label;
    d.recs[r].label = typed(rng, &earlier, 500);
}

fn feeder(rng: &mut Rng, d: &mut Draft, r: usize) {
    let last = d.recs.len() - 1;
    let was = d.recs[r].feeder;
    let other = rng.range(r, last);
    d.recs[r].feeder = match rng.below(8) {
        // Its own label or a later one.
        0 => typed(rng, &d.recs[r].label, 500),
        1 => typed(rng, &d.recs[other].label, 500),
        2 if r > 0 => [b' '; 12],
        3 => malformed(rng, &was),
        4 => label(b"NOWHERE"),
        5 => [0; 12],
        6 => mistaken(rng, &was),
        _ => near(rng, &was),
    };
}

fn kind(rng: &mut Rng, d: &mut Draft, r: usize) {
    let rec = &mut d.recs[r];
    match rng.below(6) {
        0 => rec.kind = rng.pick(&[6, 6, 7, 128, 255]),
        1 => {
            rec.kind = if r == 0 {
                2 + rec.kind
            } else {
                rng.below(2) as u8
            }
        }
        2 => rec.clock = rng.pick(&[12, 13, 12, 128, 255]),
        3 if r > 0 => {
            rec.kind = rng.pick(&[4, 4, 5]);
            rec.clock = if rec.kind == 5 {
                12
            } else {
                2 * rng.below(7) as u8
            };
        }
        4 if r > 0 => {
            rec.kind = rng.pick(&[2, 3]);
            rec.clock = rng.range(1, 12) as u8;
        }
        _ => rec.clock = rec.clock.wrapping_add(rng.pick(&[1, 11, 12])),
    }
}

fn impedance(rng: &mut Rng, d: &mut Draft, r: usize) {
    let rec = &mut d.recs[r];
    let i = rng.below(8);
    match rng.below(6) {
        0 | 1 => {
            rec.z[i] = rng.pick(&[4096, 4096, 4097, 65535, 32768]);
            // z1 and z2 alike, so that only the range is wrong.
            if rec.kind >= 2 && i < 4 {
                rec.z[(i + 2) % 4] = rec.z[i];
            }
        }
        2 if rec.kind < 2 => {
            let from = 2 * rng.below(2);
            rec.z[from] = 0;
            rec.z[from + 1] = 0;
        }
        2 | 3 => rec.z[rng.below(4)] ^= 1,
        4 => rec.z[6 + rng.below(2)] = rng.pick(&[1, 4095]),
        _ => rec.z[4 + rng.below(4)] = rng.pick(&[1, 1, 4095]),
    }
}

/// One part of one sum to 4,096 or a little more, if a record's own part can lift it there.
fn sum(rng: &mut Rng, d: &mut Draft, r: usize) {
    let s = d.sums(r);
    let goal = 4096 + if rng.coin() { 0 } else { rng.below(300) as u32 };
    let x = rng.below(2);
    let raise = |z: &mut u16, total: u32| {
        let wanted = u32::from(*z) + goal.saturating_sub(total);
        *z = wanted.min(4095) as u16;
    };
    let rec = &mut d.recs[r];
    match s.1 {
        Some(e) if rec.kind < 2 || rng.coin() => {
            if rec.kind == 2 || rng.coin() {
                raise(&mut rec.z[4 + x], e[x]);
            } else {
                let lack = goal.saturating_sub(e[x]).div_ceil(3);
                rec.z[6 + x] = (u32::from(rec.z[6 + x]) + lack).min(4095) as u16;
            }
            if rec.kind == 0 && rng.coin() {
                // The paper's own example: z0 = 0 and zn 1,366.
                rec.z[4 + x] = 0;
                rec.z[6 + x] = 1366;
            }
        }
        _ if rec.kind >= 2 => {
            let fuller = s.0[x].max(s.0[x + 2]);
            raise(&mut rec.z[x], fuller);
            rec.z[x + 2] = rec.z[x];
        }
        _ => {}
    }
}

fn fault_length(rng: &mut Rng) -> usize {
    match rng.below(4) {
        0 => 19,
        1 => 21,
        2 => rng.below(20),
        _ => rng.range(21, MOST_FAULT),
    }
}

fn fault_label(rng: &mut Rng, d: &mut Draft) {
    let was = d.fault_label;
    d.fault_label = match rng.below(6) {
        0 => malformed(rng, &was),
        1 => label(b"NOWHERE"),
        2 => [b' '; 12],
        3 => mistaken(rng, &was),
        _ => near(rng, &was),
    };
}

fn phase(rng: &mut Rng, d: &mut Draft) {
    if rng.coin() {
        d.phase = rng.pick(&[3, 3, 4, 128, 255]);
    } else {
        d.fault_kind = 0;
        d.phase = rng.range(1, 2) as u8;
    }
}

fn short_room(rng: &mut Rng, count: usize) -> usize {
    let need = 13 + 24 * count;
    match rng.below(6) {
        0..=2 => need - 1,
        3 => rng.pick(&[0, 1, 12, 13]),
        4 => need - 24,
        _ => rng.below(need),
    }
}
