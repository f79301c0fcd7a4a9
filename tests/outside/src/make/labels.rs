//! Labels: short, full, and such as differ as little as two labels can; and one label as several
//! hands type it.

use crate::rng::Rng;
use std::collections::HashSet;

pub type Label = [u8; 12];

/// Text, then spaces.
pub fn label(text: &[u8]) -> Label {
    let mut out = [b' '; 12];
    let n = text.len().min(12);
    out[..n].copy_from_slice(&text[..n]);
    out
}

fn letter(rng: &mut Rng) -> u8 {
    rng.range(0x21, 0x7e) as u8
}

fn letters(rng: &mut Rng, count: usize) -> Vec<u8> {
    (0..count).map(|_| letter(rng)).collect()
}

/// The bits of `index` choose between two bytes at each place.
fn bits(index: usize, places: usize, low: u8, high: u8) -> Vec<u8> {
    let one = |i: usize| if index >> i & 1 == 1 { high } else { low };
    (0..places).map(one).collect()
}

fn one(rng: &mut Rng, style: usize, stem: &[u8], index: usize) -> Label {
    match style {
        // Eleven letters alike, the twelfth its own; after 94 of them the eleventh moves too.
        0 => {
            let mut text = stem[..10].to_vec();
            text.push(0x21 + (index / 94) as u8);
            text.push(0x21 + (index % 94) as u8);
            label(&text)
        }
        1 => label(format!("BOARD-{index}").as_bytes()),
        2 => {
            let count = rng.range(1, 2);
            label(&letters(rng, count))
        }
        3 => {
            let count = rng.range(1, 12);
            label(&letters(rng, count))
        }
        4 => booth(stem, index),
        // One letter, again and again: each label begins the next.
        5 => label(&vec![stem[0]; index % 12 + 1]),
        // The lowest and the highest byte allowed.
        6 => label(&bits(index, 12, 0x21, 0x7e)),
        7 => label(&letters(rng, 12)),
        8 => two_letters(stem, index),
        9 => label(&sixes(index)),
        _ => label(&pairs(stem, index)),
    }
}

/// The request's own board and others of its row, by digits and letters.
fn booth(stem: &[u8], index: usize) -> Label {
    let number = (usize::from(stem[0]) + index) % 36;
    let last = std::char::from_digit(number as u32, 36).unwrap_or('-');
    label(format!("Booth-West-{last}").as_bytes())
}

/// Twelve letters, of which two of those at the edges of a label tell the boards apart.
fn two_letters(stem: &[u8], index: usize) -> Label {
    let edges = [(0, 11), (7, 8), (11, 7), (8, 0)];
    let (often, seldom) = edges[usize::from(stem[0]) % 4];
    let mut out: Label = std::array::from_fn(|i| b'A' + stem[i] % 26);
    out[often] = b'A' + (index % 26) as u8;
    out[seldom] = b'A' + (index / 26 % 26) as u8;
    out
}

/// The first and the last letter, and the bytes on either side of both alphabets.
fn sixes(index: usize) -> Vec<u8> {
    let place = |i: u32| b"AZ@[`{"[index / 6usize.pow(i) % 6];
    (0..4).map(place).collect()
}

/// Bytes that are 0x20 apart and no letters; the stem says which of a pair the first board has.
fn pairs(stem: &[u8], index: usize) -> Vec<u8> {
    const TWO: [&[u8; 2]; 12] = [
        b"@`", b"[{", b"\\|", b"]}", b"^~", b";[", b"<\\", b"=]", b">^", b"?_", b"_?", b"`@",
    ];
    let which = |i: usize| (index >> i ^ usize::from(stem[i])) & 1;
    (0..12).map(|i| TWO[i][which(i)]).collect()
}

/// `count` labels, all different whatever the case of their letters.
pub fn distinct(rng: &mut Rng, count: usize) -> Vec<Label> {
    let style = rng.below(11);
    of_style(rng, style, count)
}

/// The same, of a style where letter case and what comes near it tell most.
pub fn alike(rng: &mut Rng, count: usize) -> Vec<Label> {
    let style = rng.pick(&[4, 7, 8, 8, 9, 9, 10, 10]);
    of_style(rng, style, count)
}

fn of_style(rng: &mut Rng, style: usize, count: usize) -> Vec<Label> {
    let stem = letters(rng, 12);
    // Some networks are typed all in one hand.
    let hands = rng.pick(&[0, 500, 900]);
    let mut seen = HashSet::new();
    let mut out = Vec::with_capacity(count);
    for index in 0..count {
        let mut next = one(rng, style, &stem, index);
        while !seen.insert(next.to_ascii_uppercase()) {
            next = label(&letters(rng, 12));
        }
        out.push(typed(rng, &next, hands));
    }
    out
}

/// A label as it is typed once more: by another hand in `others` of 1,000.
pub fn typed(rng: &mut Rng, from: &Label, others: usize) -> Label {
    if rng.permille(others) {
        return retyped(rng, from);
    }
    *from
}

/// The same label in another case, if it has letters.
pub fn retyped(rng: &mut Rng, from: &Label) -> Label {
    let other = |c: u8| if c.is_ascii_alphabetic() { c ^ 0x20 } else { c };
    let mut out = *from;
    let any = rng.below(12);
    match rng.below(10) {
        0 => out.make_ascii_lowercase(),
        1 => out.make_ascii_uppercase(),
        2 | 3 => out = from.map(other),
        4 | 5 => out = from.map(|c| if rng.coin() { other(c) } else { c }),
        _ => {
            let at = rng.pick(&[0, 7, 8, 11, any]);
            out[at] = other(out[at]);
        }
    }
    out
}

/// A byte that a careless reading of R-3 would take for this one, and that is another.
fn lookalike(rng: &mut Rng, c: u8) -> u8 {
    if c.is_ascii_alphabetic() {
        let under = c.to_ascii_uppercase() - 0x20;
        return rng.pick(&[under, under, c | 0x80, (c ^ 0x20) | 0x80]);
    }
    rng.pick(&[c ^ 0x20, c ^ 0x20, c ^ 0x20, c ^ 0x60, c ^ 0x80])
}

/// A label with one such byte in it, which may have a wrong form by that.
pub fn mistaken(rng: &mut Rng, from: &Label) -> Label {
    let mut out = *from;
    let mut places = vec![0, 7, 8, 11, rng.below(12)];
    if rng.coin() {
        // Fewer labels have signs and digits than letters: these are looked for.
        let sign = |i: &usize| from[*i].is_ascii_graphic() && !from[*i].is_ascii_alphabetic();
        places.extend((0..12).filter(sign));
    }
    let at = rng.pick(&places);
    out[at] = lookalike(rng, out[at]);
    out
}

/// The same, of right form: both may be boards of one network.
pub fn twin(rng: &mut Rng, from: &Label) -> Label {
    let end = from.iter().rposition(|&c| c != b' ').unwrap_or(0);
    let mut out = *from;
    let at = rng.range(0, end);
    let right = |c: &u8| (0x21..=0x7e).contains(c);
    let mut tries = (0..20).map(|_| lookalike(rng, from[at]));
    out[at] = tries.find(right).unwrap_or(b'-');
    out
}

/// A label that is nearly this one.
pub fn near(rng: &mut Rng, from: &Label) -> Label {
    let mut out = *from;
    let end = from.iter().rposition(|&c| c != b' ').unwrap_or(0);
    match rng.below(6) {
        0 => out[end] = letter(rng),
        1 => out[11] = letter(rng),
        2 => out[end] = b' ',
        3 => out[rng.below(12)] ^= 0x20,
        4 => out = mistaken(rng, from),
        _ => out[end] ^= 1,
    }
    out
}

/// A label of wrong form: a forbidden byte, a space before a letter, spaces only.
pub fn malformed(rng: &mut Rng, from: &Label) -> Label {
    let mut out = *from;
    let end = from.iter().rposition(|&c| c != b' ').unwrap_or(0);
    let bad = rng.pick(&[0x00, 0x1f, 0x7f, 0x80, 0xff, 0x0a, 0xa0, 0xc1, 0xe1, 0xfa]);
    match rng.below(6) {
        0 => out = [b' '; 12],
        1 => out[0] = b' ',
        2 => {
            out[11] = letter(rng);
            out[10] = b' ';
        }
        3 => out[11] = bad,
        4 => out[0] = bad,
        _ => out[rng.range(0, end)] = bad,
    }
    if end == 0 && out[0] == b' ' {
        out[1] = letter(rng);
    }
    out
}
