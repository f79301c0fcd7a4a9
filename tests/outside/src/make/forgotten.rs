//! Transformers whose z1 was forgotten, alone and with other rules broken around them, and what
//! comes near: one part of z1 zero, z1 zero and z2 not, cables of no length, sources without z1.

use super::aim;
use super::model::{Draft, Rec};
use super::off_chain::as_kind;
use super::sound;
use crate::rng::Rng;

/// To solve; now and then the fault, or the room, is refused too, which comes later.
pub fn draft(rng: &mut Rng) -> Draft {
    let mut d = file(rng);
    sound::short(rng, &mut d);
    if rng.permille(150) {
        let rule = rng.pick(&[12, 12, 13, 14, 15, 16, 17, 19]);
        aim::break_rule(rng, &mut d, rule);
    }
    d
}

/// To be written.
pub fn file(rng: &mut Rng) -> Draft {
    let count = match rng.below(100) {
        0 => 256,
        1..=3 => rng.range(13, 60),
        _ => rng.range(2, 12),
    };
    let mut d = match rng.coin() {
        true => sound::chains(rng, count),
        false => sound::network(rng, count),
    };
    entered(rng, &mut d);
    d
}

/// One record without z1, whatever else it breaks; a source alone stays as it is.
pub fn one(rng: &mut Rng, d: &mut Draft) {
    if d.recs.len() > 1 {
        let r = place(rng, d);
        forget(rng, &mut d.recs[r]);
    }
}

/// The first transformer of the file, its last record, a transformer behind another one, any record but
/// the source.
fn place(rng: &mut Rng, d: &Draft) -> usize {
    let last = d.recs.len() - 1;
    let transformer = |r: &usize| d.recs[*r].kind > 2;
    let above = |r: usize| std::iter::successors(d.up[r], |&q| d.up[q]);
    let behind = |r: &usize| above(*r).any(|q| transformer(&q));
    let mut all = (1..=last).filter(transformer);
    let list: Vec<usize> = match rng.below(4) {
        0 => all.next().into_iter().collect(),
        1 => vec![last],
        2 => all.filter(behind).collect(),
        _ => Vec::new(),
    };
    match list[..] {
        [] => rng.range(1, last),
        _ => rng.pick(&list),
    }
}

/// A transformer, of another kind than it was now and then; a cable becomes one.
fn transformer(rng: &mut Rng, rec: &mut Rec) {
    if rec.kind < 3 || rng.permille(200) {
        let kind = rng.pick(&[3, 4, 5]);
        as_kind(rng, rec, kind);
    }
}

fn forget(rng: &mut Rng, rec: &mut Rec) {
    transformer(rng, rec);
    rec.z[..4].fill(0);
}

fn entered(rng: &mut Rng, d: &mut Draft) {
    let r = place(rng, d);
    let rec = &mut d.recs[r];
    match rng.below(24) {
        0..=3 => forget(rng, rec),
        4 => {
            forget(rng, rec);
            rec.z.fill(0);
        }
        5 | 6 => sum_over(rng, rec),
        7..=9 => against_kind(rng, rec),
        10 => {
            forget(rng, rec);
            one(rng, d);
        }
        11..=15 => {
            forget(rng, rec);
            another(rng, d, r);
        }
        16..=18 => one_part(rng, rec),
        19..=21 => no_length(rng, rec),
        _ => {
            let from = rng.pick(&[0, 0, 2]);
            d.recs[0].z[from..from + 2].fill(0);
        }
    }
}

/// Another rule broken at the record itself, at an earlier one, at a later one.
fn another(rng: &mut Rng, d: &mut Draft, r: usize) {
    let (earlier, later) = (rng.range(0, r), rng.range(r, d.recs.len() - 1));
    let at = rng.pick(&[r, r, earlier, later]);
    let rule = rng.pick(&[5, 6, 7, 8, 9, 9, 10, 11, 11]);
    aim::break_at(rng, d, rule, at);
}

/// z0 + 3 zn over 4,095 in one part, so that 11 is broken where the kind starts the zero sequence, and
/// often where it lets it on.
fn sum_over(rng: &mut Rng, rec: &mut Rec) {
    let kind = rng.pick(&[3, 4, 4]);
    as_kind(rng, rec, kind);
    rec.z[..4].fill(0);
    let (x, z) = (
        rng.below(2),
        rng.pick(&[(4095, 1), (0, 1366), (4095, 4095)]),
    );
    (rec.z[4 + x], rec.z[6 + x]) = z;
}

/// 10 as well: z2 is not zero, a part is too large, a kind 5 has a zero sequence. Or only nearly
/// forgotten: z2 is zero and z1 is not.
fn against_kind(rng: &mut Rng, rec: &mut Rec) {
    forget(rng, rec);
    let i = rng.below(2);
    match rng.below(8) {
        0..=3 => rec.z[2 + i] = rng.pick(&[1, 20, 4095]),
        4 => rec.z[i] = rng.pick(&[1, 20, 4095]),
        5 => rec.z[4 + i] = rng.pick(&[4096, 65535]),
        _ => {
            as_kind(rng, rec, 5);
            rec.z[..4].fill(0);
            rec.z[4 + 2 * rng.below(2) + i] = rng.pick(&[1, 4095]);
        }
    }
}

/// R or X zero and the other not: no transformer is refused for that.
fn one_part(rng: &mut Rng, rec: &mut Rec) {
    transformer(rng, rec);
    let zero = rng.below(2);
    let other = match rec.z[1 - zero] {
        0 => 1,
        z => rng.pick(&[1, z, z]),
    };
    for z in [0, 2] {
        rec.z[z + zero] = 0;
        rec.z[z + 1 - zero] = other;
    }
}

/// A cable with z1 = z2 = 0, often with no z0 either.
fn no_length(rng: &mut Rng, rec: &mut Rec) {
    as_kind(rng, rec, 2);
    rec.z[..4].fill(0);
    if rng.coin() {
        rec.z.fill(0);
    }
}
