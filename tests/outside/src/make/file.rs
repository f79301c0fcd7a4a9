//! Cases to be written: sound boards of all shapes, and boards that break one rule, two or three.
//! Outputs are drawn apart, so that 20 meets every other refusal.

use super::labels::Label;
use super::model::Draft;
use super::{aim, damage, finish_file, forgotten, sound, typed};
use super::{WriteCase, MOST_BOARDS, MOST_OUT};
use crate::judge::board::{HEAD, RECORD};
use crate::rng::Rng;

pub fn mixed(rng: &mut Rng) -> WriteCase {
    let (mut draft, note) = match rng.below(1000) {
        0..=434 => (usual(rng), "sound".into()),
        435..=509 => (typed::file(rng), "letter case".into()),
        510..=554 => (head_edges(rng), "edges of volts and unit".into()),
        555..=609 => (many(rng), "number of boards".into()),
        610..=649 => (forgotten::file(rng), "forgotten".into()),
        650..=759 => broken(rng, 1),
        760..=844 => broken(rng, 2),
        845..=889 => broken(rng, 3),
        890..=939 => (odd_fields(rng), "odd fields".into()),
        940..=959 => (moved(rng), "moved boards".into()),
        960..=974 => (foreign(rng), "bytes over 127".into()),
        _ => (noise(rng), "noise".into()),
    };
    let likely_refused = note.starts_with("broken") || note == "noise";
    draft.room = room(rng, draft.recs.len(), !likely_refused);
    draft.recs.iter_mut().for_each(|r| r.mark = mark(rng));
    let mut case = finish_file(&draft, &note);
    if note == "sound" && rng.permille(100) {
        one_bit(rng, &mut case);
    }
    case
}

fn usual(rng: &mut Rng) -> Draft {
    let count = sound::boards(rng);
    sound::network(rng, count)
}

/// Any two bytes: a program that looks at them, or keeps them, is seen.
fn mark(rng: &mut Rng) -> [u8; 2] {
    let any = [rng.byte(), rng.byte()];
    rng.pick(&[any, any, any, *b"BD", *b"HD", *b"DB"])
}

/// Bytes of the output: enough four times in five where the boards may be sound, else one in two.
fn room(rng: &mut Rng, count: usize, sound: bool) -> usize {
    let need = HEAD + RECORD * count;
    if rng.permille(if sound { 800 } else { 500 }) {
        return match rng.below(20) {
            0..=9 => need,
            10..=13 => need + 1,
            14..=17 => need + rng.range(2, 90),
            _ => rng.range(need, need.max(MOST_OUT)),
        };
    }
    match rng.below(8) {
        0 | 1 => 0,
        2..=4 => need - 1,
        5 => need - rng.pick(&[2, 7, 8]),
        6 => rng.pick(&[1, 7, HEAD, HEAD + 1]).min(need - 1),
        _ => rng.below(need),
    }
}

/// Volts and unit on both sides of their edges, also both at once.
fn head_edges(rng: &mut Rng) -> Draft {
    let mut d = usual(rng);
    if rng.permille(700) {
        d.volts = rng.pick(&[0, 1, 2, 999, 1000, 1001, 256, 65535, 32768]);
    }
    if rng.permille(700) {
        d.unit = rng.pick(&[0, 1, 9, 10, 11, 999, 1000, 1001, 256, 65535]);
    }
    d
}

/// The number of boards at its edges; each board is sound whatever their number.
fn many(rng: &mut Rng) -> Draft {
    let count = match rng.below(8) {
        0 | 1 => 0,
        2 => 1,
        3 => 255,
        4 => 256,
        5 | 6 => 257,
        _ => rng.pick(&[258, 300, 371, MOST_BOARDS]),
    };
    sound::network(rng, count)
}

/// One to three rules broken at once, often neighbours in the table.
fn broken(rng: &mut Rng, count: usize) -> (Draft, String) {
    const RULES: [usize; 8] = [3, 6, 7, 8, 9, 10, 21, 11];
    let (mut d, mut note) = (usual(rng), String::from("broken"));
    let mut at = rng.below(RULES.len());
    for _ in 0..count {
        match RULES[at] {
            3 => d = head_broken(rng, d),
            rule => aim::break_rule(rng, &mut d, rule),
        }
        note += &format!(" {}", RULES[at]);
        at = match rng.coin() {
            true => (at + 1) % RULES.len(),
            false => rng.below(RULES.len()),
        };
    }
    (d, note)
}

fn head_broken(rng: &mut Rng, mut d: Draft) -> Draft {
    match rng.below(8) {
        0..=3 => d.volts = rng.pick(&[0, 0, 1001, 1001, 65535, 1256]),
        4..=6 => d.unit = rng.pick(&[9, 9, 0, 1001, 1001, 65535]),
        // One board more than there may be; those of the other network hang on nothing known.
        _ => {
            let more = sound::network(rng, 257);
            let kept = d.recs.len();
            d.recs.extend_from_slice(&more.recs[kept..]);
            d.up.extend_from_slice(&more.up[kept..]);
        }
    }
    d
}

/// Fields at values that are on some edge of the paper, and kinds and clocks of any value.
fn odd_fields(rng: &mut Rng) -> Draft {
    const EDGES: [u16; 12] = [
        0, 1, 255, 256, 1365, 1366, 4094, 4095, 4096, 4097, 32768, 65535,
    ];
    let mut d = usual(rng);
    for _ in 0..rng.range(1, 3) {
        let r = rng.below(d.recs.len());
        let (value, i) = (rng.pick(&EDGES), rng.below(8));
        let rec = &mut d.recs[r];
        match rng.below(6) {
            0 => rec.kind = rng.byte(),
            1 => rec.clock = rng.byte(),
            // z1 and z2 together, as most kinds want them.
            2 | 3 => {
                rec.z[i % 2] = value;
                rec.z[i % 2 + 2] = value;
            }
            _ => rec.z[i] = value,
        }
    }
    d
}

fn moved(rng: &mut Rng) -> Draft {
    let mut d = usual(rng);
    damage::shuffle(rng, &mut d);
    d
}

/// A board called by a name that is not ASCII, by itself and by those it feeds.
fn foreign(rng: &mut Rng) -> Draft {
    let mut d = usual(rng);
    let r = rng.below(d.recs.len());
    let was = d.recs[r].label;
    let mut name: Label = was;
    match rng.below(3) {
        0 => name[..4].copy_from_slice("ÄÖ".as_bytes()),
        1 => name[rng.below(12)] |= 0x80,
        _ => name = std::array::from_fn(|_| 0x80 | rng.byte()),
    }
    d.recs[r].label = name;
    // Where those it feeds keep the old name, 8 is behind the 6.
    if rng.coin() {
        d.refeed(r, name);
    }
    d
}

/// Noise in every field, or behind labels of right form.
fn noise(rng: &mut Rng) -> Draft {
    let count = rng.range(1, 4);
    let mut d = sound::network(rng, count);
    let all = rng.coin();
    for rec in &mut d.recs {
        if all {
            rec.label = std::array::from_fn(|_| rng.byte());
            rec.feeder = std::array::from_fn(|_| rng.byte());
        }
        rec.kind = rng.byte();
        rec.clock = rng.byte();
        rec.z = std::array::from_fn(|_| rng.next() as u16);
    }
    d
}

/// One bit of a board turned over; where it is the mark's, nothing may come of it.
fn one_bit(rng: &mut Rng, case: &mut WriteCase) {
    let at = rng.below(case.boards.len());
    case.boards[at] ^= 1 << rng.below(8);
    case.note = "one bit".into();
}
