//! Networks and faults that keep every rule, of every shape, up to the brim of every range.

use super::labels::{self, Label};
use super::model::{Draft, Rec, Sums};
use crate::rng::Rng;

/// How large the impedances of a network are.
#[derive(Clone, Copy)]
enum Size {
    Zero,
    Tiny,
    Small,
    Share,
    Brim,
}

/// A part from 0 to `most`.
fn part(rng: &mut Rng, size: Size, most: u32) -> u32 {
    let most = most as usize;
    let drawn = match size {
        Size::Zero => 0,
        Size::Tiny => rng.below(4),
        Size::Small => rng.below(41),
        Size::Share => rng.below(most / 4 + 1),
        Size::Brim => match rng.below(3) {
            0 => most,
            1 => 0,
            _ => rng.range(0, most),
        },
    };
    drawn.min(most) as u32
}

pub fn boards(rng: &mut Rng) -> usize {
    match rng.below(1000) {
        0..=3 => 256,
        4..=7 => rng.range(61, 255),
        8..=30 => rng.range(13, 60),
        31..=120 => 1,
        _ => rng.range(2, 12),
    }
}

/// Chains, stars, bushes, combs, pairs.
fn feeder(rng: &mut Rng, shape: usize, r: usize) -> usize {
    match shape {
        0 => r - 1,
        1 => 0,
        2 => (r - 1) / 2,
        3 => r - 1 - rng.below(r.min(3)),
        4 => r - 1 - usize::from(r > 1 && r % 2 == 1),
        _ => rng.below(r),
    }
}

fn kind(rng: &mut Rng, mix: usize) -> u8 {
    match mix {
        0 => 2,
        1 => rng.pick(&[2, 2, 2, 3]),
        2 => rng.pick(&[4, 5]),
        3 => rng.pick(&[2, 3, 4]),
        4 | 5 => rng.pick(&[2, 2, 3, 3, 4, 4, 5]),
        // Of parts: the source's own only, several, several with earthed ones between them.
        6 => rng.pick(&[2, 2, 3]),
        7 => rng.pick(&[2, 2, 2, 3, 3, 5]),
        8 => rng.pick(&[2, 2, 2, 3, 3, 4, 5]),
        // Along a chain: all kinds in every order, what stops and cables, few transformers far apart.
        9 => rng.pick(&[2, 3, 4, 5, 5]),
        10 => rng.pick(&[2, 2, 3, 5]),
        11 if rng.below(25) == 0 => rng.pick(&[4, 5]),
        12 if rng.below(250) == 0 => rng.pick(&[4, 5]),
        _ => rng.pick(&[2, 2, 3]),
    }
}

pub fn clock(rng: &mut Rng, kind: u8) -> u8 {
    match kind {
        4 => 2 * rng.below(6) as u8 + 1,
        5 => rng.below(12) as u8,
        _ => 0,
    }
}

/// z0 and zn with z0 + 3 zn within `most`; either may take its share first.
fn earth_term(rng: &mut Rng, size: Size, most: u32, neutral: bool) -> (u32, u32) {
    if !neutral {
        return (part(rng, size, most), 0);
    }
    if rng.coin() {
        let zn = part(rng, size, most / 3);
        return (part(rng, size, most - 3 * zn), zn);
    }
    let z0 = part(rng, size, most);
    (z0, part(rng, size, (most - z0) / 3))
}

/// Zero-sequence parts of a record below sums with an earth return, or free where none counts.
fn zero_parts(rng: &mut Rng, size: Size, kind: u8, above: &Sums) -> [u32; 4] {
    let mut out = [0; 4];
    if kind == 1 || kind == 5 {
        return out;
    }
    for i in 0..2 {
        let (z0, zn) = match (kind, above.1) {
            (0 | 4, _) => earth_term(rng, size, 4095, true),
            (_, Some(e)) => earth_term(rng, size, 4095 - e[i], kind == 3),
            (2, None) => (part(rng, size, 4095), 0),
            _ => (part(rng, size, 4095), part(rng, size, 4095)),
        };
        out[i] = z0;
        out[2 + i] = zn;
    }
    out
}

/// A source's impedance: not zero.
fn source_pair(rng: &mut Rng, size: Size, most: u32) -> [u32; 2] {
    let mut pair = [part(rng, size, most), part(rng, size, most)];
    if pair == [0, 0] {
        pair[rng.below(2)] = rng.pick(&[1, 1, 20, most]);
    }
    pair
}

/// What z1 = z2 of a fed board may still have in r and in x, up to `most`: it goes into both sums, and
/// the fuller one decides.
fn left(above: &Sums, most: u32) -> [u32; 2] {
    let s = above.0;
    [0, 1].map(|i| most.saturating_sub(s[i].max(s[i + 2])))
}

/// z1 = z2 of a fed board: of a transformer not zero, as long as anything is left at all.
fn fed_pair(rng: &mut Rng, size: Size, kind: u8, above: &Sums, most: u32) -> [u32; 2] {
    let mut pair = left(above, most).map(|most| part(rng, size, most));
    if kind > 2 && pair == [0, 0] {
        let i = match left(above, 4095) {
            [0, _] => 1,
            [_, 0] => 0,
            _ => rng.below(2),
        };
        pair[i] = 1;
    }
    pair
}

fn impedances(rng: &mut Rng, size: Size, kind: u8, above: &Sums, most: u32) -> [u16; 8] {
    let (a, b) = if kind < 2 {
        let first = source_pair(rng, size, most);
        let again = if rng.coin() {
            first
        } else {
            source_pair(rng, size, most)
        };
        (first, again)
    } else {
        let both = fed_pair(rng, size, kind, above, most);
        (both, both)
    };
    let zero = zero_parts(rng, size, kind, above);
    let all = [a[0], a[1], b[0], b[1], zero[0], zero[1], zero[2], zero[3]];
    all.map(|x| x as u16)
}

fn size(rng: &mut Rng) -> Size {
    rng.pick(&[
        Size::Zero,
        Size::Tiny,
        Size::Small,
        Size::Small,
        Size::Share,
        Size::Share,
        Size::Brim,
        Size::Brim,
    ])
}

fn head_value(rng: &mut Rng, least: usize, most: usize, usual: usize) -> u16 {
    let drawn = match rng.below(8) {
        0 => least,
        1 => most,
        2 | 3 => usual,
        _ => rng.range(least, most),
    };
    drawn as u16
}

fn empty(rng: &mut Rng, count: usize) -> Draft {
    Draft {
        mark: *b"HD",
        volts: head_value(rng, 1, 1000, 230),
        unit: head_value(rng, 10, 1000, 1000),
        count: count as u16,
        recs: Vec::with_capacity(count),
        up: Vec::with_capacity(count),
        net_length: None,
        fault_mark: *b"FT",
        fault_label: [b' '; 12],
        fault_kind: 0,
        phase: 0,
        zf: [0, 0],
        fault_length: None,
        room: 0,
        filler: rng.byte(),
    }
}

/// `count` boards, also more than a file may have; none where it is 0.
pub fn network(rng: &mut Rng, count: usize) -> Draft {
    let names = labels::distinct(rng, count);
    named(rng, &names)
}

/// A board for each of these names.
pub fn named(rng: &mut Rng, names: &[Label]) -> Draft {
    let (shape, mix) = (rng.below(7), rng.below(6));
    grown(rng, names, shape, mix, 250)
}

/// The same, of parts without earth return for the most.
pub fn parts(rng: &mut Rng, count: usize) -> Draft {
    let names = labels::distinct(rng, count);
    let (shape, mix) = (rng.below(7), rng.range(6, 8));
    grown(rng, &names, shape, mix, 500)
}

/// The same, of long chains with transformers that start the zero sequence and stop it.
pub fn chains(rng: &mut Rng, count: usize) -> Draft {
    let names = labels::distinct(rng, count);
    let (shape, mix) = match count {
        0..=60 => (rng.pick(&[0, 0, 3, 3, 4, 5]), rng.range(8, 11)),
        _ => (rng.pick(&[0, 0, 3]), rng.pick(&[9, 11, 12, 12])),
    };
    grown(rng, &names, shape, mix, 350)
}

/// The source is without earth in `unearthed` of 1,000.
fn grown(rng: &mut Rng, names: &[Label], shape: usize, mix: usize, unearthed: usize) -> Draft {
    let count = names.len();
    let mut draft = empty(rng, count);
    // In how many of 1,000 a feeder is typed in another case than its board.
    let others = rng.pick(&[0, 0, 500, 900]);
    let usual = size(rng);
    let shape = match count {
        // The deepest chain there can be.
        256.. if rng.coin() => 0,
        _ => shape,
    };
    // Up to the brim, or with a count left for each transformer there may be.
    let most = 4095 - rng.pick(&[0, count as u32]);
    let mut sums: Vec<Sums> = Vec::with_capacity(count);
    for r in 0..count {
        let up = (r > 0).then(|| feeder(rng, shape, r));
        let above = up.map_or(Sums::default(), |u| sums[u]);
        let kind = match up {
            // Behind full sums there is room for a cable of no length only.
            Some(_) if left(&above, 4095) == [0, 0] => 2,
            Some(_) => kind(rng, mix),
            None => u8::from(rng.permille(unearthed)),
        };
        let size = if rng.permille(100) { size(rng) } else { usual };
        draft.recs.push(Rec {
            mark: *b"BD",
            label: names[r],
            feeder: up.map_or([b' '; 12], |u| labels::typed(rng, &names[u], others)),
            kind,
            clock: clock(rng, kind),
            z: impedances(rng, size, kind, &above, most),
        });
        draft.up.push(up);
        sums.push(above.with(&draft.recs[r]));
    }
    draft
}

/// A board for the fault: the last and the first more often than others.
pub fn board(rng: &mut Rng, count: usize) -> usize {
    match rng.below(4) {
        0 => count - 1,
        1 if rng.coin() => 0,
        _ => rng.below(count),
    }
}

fn fault(rng: &mut Rng, draft: &mut Draft) {
    let count = draft.recs.len();
    let mut k = board(rng, count);
    let kind = rng.below(4) as u8;
    let earthed = |r: usize| draft.sums(r).1.is_some();
    if kind % 2 == 1 && rng.coin() {
        // Kinds 1 and 3 with an earth return (`unearthed` makes the others): the next board with one.
        let next = (0..count).map(|i| (k + i) % count).find(|&r| earthed(r));
        k = next.unwrap_or(k);
    }
    let zf = |rng: &mut Rng| match rng.below(10) {
        0..=3 => 0,
        4 | 5 => 1365,
        6 => rng.below(10) as u16,
        _ => rng.below(1366) as u16,
    };
    draft.fault_kind = kind;
    draft.phase = if kind == 0 { 0 } else { rng.below(3) as u8 };
    draft.zf = if rng.permille(300) {
        [0, 0]
    } else {
        [zf(rng), zf(rng)]
    };
    draft.fault_label = labels::typed(rng, &draft.recs[k].label, 500);
}

/// Exactly what the answer needs, a few more, now and then far more.
fn room(rng: &mut Rng, count: usize) -> usize {
    let need = 13 + 24 * count;
    match rng.below(100) {
        0..=54 => need,
        55..=84 => need + rng.range(1, 6),
        85..=97 => need + rng.pick(&[1, 23, 24, 25]),
        _ => need + rng.below(6400 - need + 1),
    }
}

pub fn draft(rng: &mut Rng) -> Draft {
    let count = boards(rng);
    let mut draft = network(rng, count);
    short(rng, &mut draft);
    draft
}

/// A sound fault somewhere in a network, and room for the answer.
pub fn short(rng: &mut Rng, draft: &mut Draft) {
    fault(rng, draft);
    draft.room = room(rng, draft.recs.len());
}
