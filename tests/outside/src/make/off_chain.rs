//! Records off a board's chain, changed at will. The aim is at files that are still accepted: an
//! earth return where there was none, other feeders, other names; some changes are made without aim.

use super::labels::{malformed, near, retyped, twin, typed, Label};
use super::model::Rec;
use super::sound::clock;
use crate::rng::Rng;

/// Changes one record of those named or more, and no other. Record 1 is on every chain.
pub fn change(rng: &mut Rng, recs: &mut [Rec], off: &[usize]) {
    match rng.below(8) {
        // All of them at once.
        0 => off.iter().for_each(|&r| earthed(rng, &mut recs[r])),
        1 => off.iter().for_each(|&r| one(rng, recs, off, r)),
        2 | 3 => (0..3).for_each(|_| any(rng, recs, off)),
        _ => any(rng, recs, off),
    }
}

fn any(rng: &mut Rng, recs: &mut [Rec], off: &[usize]) {
    let r = rng.pick(off);
    one(rng, recs, off, r);
}

fn one(rng: &mut Rng, recs: &mut [Rec], off: &[usize], r: usize) {
    match rng.below(100) {
        0..=19 => earthed(rng, &mut recs[r]),
        20..=34 => other_kind(rng, &mut recs[r]),
        35..=54 => rehung(rng, recs, r),
        55..=64 => renamed(rng, recs, off, r),
        65..=74 => recs[r].feeder = retyped(rng, &recs[r].feeder),
        75..=82 => impedances(rng, &mut recs[r]),
        83..=90 => another(rng, recs, off, r),
        91..=93 => misnamed(rng, recs, r),
        94..=97 => one_byte(rng, &mut recs[r]),
        _ => recs[r] = Rec::read(&bytes(rng, 44)),
    }
}

/// What a kind must not have is taken away, and a transformer has a z1, so that only its sums can
/// be refused.
pub fn as_kind(rng: &mut Rng, rec: &mut Rec, kind: u8) {
    rec.kind = kind;
    rec.clock = clock(rng, kind);
    match kind {
        2 => rec.z[6..].fill(0),
        5 => rec.z[4..].fill(0),
        _ => {}
    }
    if (3..=5).contains(&kind) && rec.z[..4] == [0; 4] {
        let x = rng.below(2);
        (rec.z[x], rec.z[x + 2]) = (1, 1);
    }
}

/// An earthed transformer.
fn earthed(rng: &mut Rng, rec: &mut Rec) {
    as_kind(rng, rec, 4);
    let most = rng.pick(&[1, 5, 100]);
    rec.z[4..]
        .iter_mut()
        .for_each(|z| *z = rng.below(most) as u16);
}

fn other_kind(rng: &mut Rng, rec: &mut Rec) {
    let kind = rng.pick(&[2, 3, 4, 5]);
    as_kind(rng, rec, kind);
    if kind != 5 && rng.coin() {
        rec.z[4..].fill(0);
    }
}

/// Fed by another earlier board, on the chain or off it.
fn rehung(rng: &mut Rng, recs: &mut [Rec], r: usize) {
    let feeder = recs[rng.below(r)].label;
    recs[r].feeder = typed(rng, &feeder, 300);
}

/// Another name, or the old one in another case; those that it feeds mean it still, as far as they
/// may be changed.
fn renamed(rng: &mut Rng, recs: &mut [Rec], off: &[usize], r: usize) {
    let was = recs[r].label;
    let name = match rng.below(3) {
        0 => retyped(rng, &was),
        1 => twin(rng, &was),
        _ => new_name(rng),
    };
    recs[r].label = name;
    for &fed in off {
        if recs[fed].feeder.eq_ignore_ascii_case(&was) {
            recs[fed].feeder = typed(rng, &name, 300);
        }
    }
}

fn new_name(rng: &mut Rng) -> Label {
    std::array::from_fn(|_| rng.range(0x21, 0x7e) as u8)
}

/// Small ones, the largest there are, any.
fn impedances(rng: &mut Rng, rec: &mut Rec) {
    let most = rng.pick(&[1, 4, 40, 4096]);
    let mut z: [u16; 8] = std::array::from_fn(|_| rng.below(most) as u16);
    (z[2], z[3]) = (z[0], z[1]);
    rec.z = z;
    as_kind(rng, rec, rec.kind);
}

/// A record of its own in this place.
fn another(rng: &mut Rng, recs: &mut [Rec], off: &[usize], r: usize) {
    other_kind(rng, &mut recs[r]);
    impedances(rng, &mut recs[r]);
    rehung(rng, recs, r);
    renamed(rng, recs, off, r);
}

/// A label that is used, comes near to one, or is none.
fn misnamed(rng: &mut Rng, recs: &mut [Rec], r: usize) {
    let other = recs[rng.below(recs.len())].label;
    recs[r].label = match rng.below(3) {
        0 => typed(rng, &other, 500),
        1 => near(rng, &other),
        _ => malformed(rng, &other),
    };
}

fn one_byte(rng: &mut Rng, rec: &mut Rec) {
    let mut record = rec.bytes();
    record[rng.below(44)] = rng.byte();
    *rec = Rec::read(&record);
}

fn bytes(rng: &mut Rng, count: usize) -> Vec<u8> {
    (0..count).map(|_| rng.byte()).collect()
}

#[cfg(test)]
mod tests {
    use super::change;
    use crate::make::sound;
    use crate::rng::Rng;

    /// The records of the chain stay as they are, whatever is tried.
    #[test]
    fn the_chain_is_left_alone() {
        let mut changed = 0;
        for index in 0..2_000 {
            let mut rng = Rng::for_case(4, index);
            let count = rng.range(2, 12);
            let d = sound::chains(&mut rng, count);
            let off = d.off_chain(rng.below(count));
            if off.is_empty() {
                continue;
            }
            let mut recs = d.recs.clone();
            change(&mut rng, &mut recs, &off);
            for (r, (was, is)) in d.recs.iter().zip(&recs).enumerate() {
                let same = was.bytes() == is.bytes();
                assert!(same || off.contains(&r), "case {index}, record {}", r + 1);
                changed += u32::from(!same);
            }
        }
        assert!(changed > 1_000);
    }
}
