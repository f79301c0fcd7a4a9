//! Earth faults at boards without earth return: sets without earth, and what hangs behind
//! transformers that block; parts that branch, several in one network. Zf and room are drawn over
//! their edges too: 17 and 19 are asked of these faults as of others.

use super::labels;
use super::model::Draft;
use super::sound;
use crate::rng::Rng;

pub fn draft(rng: &mut Rng) -> Draft {
    let count = match rng.below(1000) {
        0..=9 => 256,
        10..=60 => 1,
        61..=120 => rng.range(13, 40),
        _ => rng.range(2, 12),
    };
    let mut d = sound::parts(rng, count);
    aim(rng, &mut d);
    d.zf = zf(rng);
    d.room = room(rng, count);
    d
}

/// An earth fault where there is no return; if every board has one, the source loses its earth.
fn aim(rng: &mut Rng, d: &mut Draft) {
    let lost = |d: &Draft| -> Vec<usize> {
        let all = 0..d.recs.len();
        all.filter(|&r| d.sums(r).1.is_none()).collect()
    };
    if lost(d).is_empty() {
        d.recs[0].kind = 1;
        d.recs[0].z[4..].fill(0);
    }
    let list = lost(d);
    let mut k = rng.pick(&list);
    if d.recs[k].kind == 5 && rng.coin() {
        // What hangs behind such a transformer is looked at more than its own board.
        k = rng.pick(&list);
    }
    d.fault_label = labels::typed(rng, &d.recs[k].label, 500);
    d.fault_kind = rng.pick(&[1, 3]);
    d.phase = rng.below(3) as u8;
}

/// It has no effect on these answers, so every size of it must be drawn.
fn zf(rng: &mut Rng) -> [u16; 2] {
    let any = [rng.below(1366) as u16, rng.below(1366) as u16];
    let edge = rng.below(2);
    let mut zf = any;
    match rng.below(20) {
        0..=5 => zf = [0, 0],
        6..=9 => zf = any.map(|z| z % 10),
        10..=11 => zf = [1365, 1365],
        12..=14 => zf[edge] = 1365,
        15 => zf[edge] = 1366,
        _ => {}
    }
    zf
}

/// Exact, one short, longer.
fn room(rng: &mut Rng, count: usize) -> usize {
    let need = 13 + 24 * count;
    match rng.below(20) {
        0..=9 => need,
        10 => rng.pick(&[need - 1, need - 1, need - 1, need - 24, 0]),
        11..=15 => need + 1,
        16..=18 => need + rng.range(2, 30),
        _ => need + rng.below(6400 - need + 1),
    }
}
