//! Damage without aim: cut and lengthened files, one bit, records out of order, noise.

use super::model::Draft;
use super::{finish, sound, SolveCase, MOST_FAULT};
use crate::rng::Rng;

/// Files cut anywhere, or with bytes after the end.
pub fn lengths(rng: &mut Rng) -> SolveCase {
    let mut case = finish(sound::draft(rng), "length");
    let bytes = if rng.permille(700) {
        &mut case.net
    } else {
        &mut case.fault
    };
    if rng.permille(600) {
        bytes.truncate(rng.below(bytes.len() + 1));
    } else {
        let more = rng.range(1, 44);
        bytes.extend((0..more).map(|_| rng.byte()));
    }
    case.fault.truncate(MOST_FAULT);
    case
}

/// One bit of network or fault turned over; often a field's high bit matters, so any may be it.
pub fn one_bit(rng: &mut Rng) -> SolveCase {
    let mut case = finish(sound::draft(rng), "one bit");
    let bytes = if rng.permille(650) {
        &mut case.net
    } else {
        &mut case.fault
    };
    let at = rng.below(bytes.len());
    bytes[at] ^= 1 << rng.below(8);
    case
}

/// Records out of order, with the count put right or not.
pub fn moved_records(rng: &mut Rng) -> SolveCase {
    let mut draft = sound::draft(rng);
    shuffle(rng, &mut draft);
    if rng.permille(800) {
        draft.count = draft.recs.len() as u16;
    }
    finish(draft, "moved records")
}

/// Two records exchanged, one repeated, or one left out.
pub fn shuffle(rng: &mut Rng, draft: &mut Draft) {
    let count = draft.recs.len();
    let (a, b) = (rng.below(count), rng.below(count));
    match rng.below(3) {
        0 => draft.recs.swap(a, b),
        1 => {
            let again = draft.recs[a].clone();
            draft.recs.insert(b + 1, again);
        }
        _ => {
            draft.recs.remove(a);
        }
    }
}

/// One field set to a value that is on some edge of the paper.
pub fn odd_field(rng: &mut Rng) -> SolveCase {
    const EDGES: [u16; 18] = [
        0, 1, 2, 9, 10, 11, 255, 256, 257, 999, 1000, 1001, 1365, 1366, 4095, 4096, 32768, 65535,
    ];
    let mut draft = sound::draft(rng);
    let value = rng.pick(&EDGES);
    let r = rng.below(draft.recs.len());
    set(rng, &mut draft, r, value);
    finish(draft, "odd field")
}

fn set(rng: &mut Rng, draft: &mut Draft, r: usize, value: u16) {
    match rng.below(9) {
        0 => draft.volts = value,
        1 => draft.unit = value,
        2 => draft.zf[rng.below(2)] = value,
        3 => draft.recs[r].kind = rng.below(8) as u8,
        4 => draft.recs[r].clock = rng.below(14) as u8,
        5 => draft.fault_kind = rng.below(6) as u8,
        6 => draft.phase = rng.below(5) as u8,
        7 => {
            // z1 and z2 together, as most kinds want them.
            let x = rng.below(2);
            draft.recs[r].z[x] = value;
            draft.recs[r].z[x + 2] = value;
        }
        _ => draft.recs[r].z[rng.below(8)] = value,
    }
}

fn bytes(rng: &mut Rng, count: usize) -> Vec<u8> {
    (0..count).map(|_| rng.byte()).collect()
}

/// Noise, from nothing right at all to noise behind a right head and right marks.
pub fn noise(rng: &mut Rng) -> SolveCase {
    let boards = rng.range(1, 4);
    let sound = finish(sound::draft(rng), "noise");
    let mut net = match rng.below(4) {
        0 => {
            let most = if rng.permille(50) { 16_400 } else { 120 };
            let count = rng.below(most + 1);
            bytes(rng, count)
        }
        _ => bytes(rng, 8 + 44 * boards),
    };
    if net.len() >= 52 && rng.permille(700) {
        net[..8].copy_from_slice(&[b'H', b'D', 230, 0, 100, 0, boards as u8, 0]);
        for record in net[8..].chunks_mut(44).filter(|r| r.len() == 44) {
            record[..2].copy_from_slice(b"BD");
            let letters = record[2..14].iter_mut();
            letters.for_each(|c| *c = 0x21 + *c % 94);
        }
    }
    let count = if rng.coin() { 20 } else { rng.below(65) };
    let fault = if rng.coin() {
        sound.fault
    } else {
        bytes(rng, count)
    };
    // Sometimes the network is sound and only the fault is noise.
    let net = if rng.permille(300) { sound.net } else { net };
    SolveCase {
        room: rng.below(60),
        net,
        fault,
        note: "noise".into(),
    }
}
