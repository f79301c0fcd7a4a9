//! Cases that ask for the earth return: transformers in every order on a chain, every board's
//! label as several hands type it, and what is no label; networks that are refused, where a wrong label
//! must not come first.

use super::labels::{label, malformed, mistaken, near, typed, Label};
use super::model::Draft;
use super::{aim, damage, finish_earth, forgotten, off_chain, sound, typed as cases, unearthed};
use super::{EarthCase, SolveCase, MOST_LABEL, NETWORK, RULES};
use crate::rng::Rng;

pub fn mixed(rng: &mut Rng) -> EarthCase {
    match rng.below(1000) {
        0..=449 => {
            let d = chains(rng);
            asked(rng, &d, 250, "chain")
        }
        450..=529 => {
            let d = sound::draft(rng);
            asked(rng, &d, 250, "sound")
        }
        530..=609 => {
            let d = unearthed::draft(rng);
            asked(rng, &d, 150, "no earth return")
        }
        610..=669 => changed(rng),
        670..=719 => {
            let d = cases::draft(rng);
            finish_earth(&d, d.fault_label.to_vec(), "letter case")
        }
        720..=764 => {
            let d = forgotten::file(rng);
            asked(rng, &d, 250, "forgotten")
        }
        765..=869 => broken(rng, 1),
        870..=934 => broken(rng, 2),
        _ => damaged(rng),
    }
}

fn chains(rng: &mut Rng) -> Draft {
    let count = match rng.below(1000) {
        0..=9 => 256,
        10..=24 => rng.range(61, 255),
        25..=69 => rng.range(13, 60),
        _ => rng.range(2, 14),
    };
    sound::chains(rng, count)
}

/// A label of this network; `wrong` of 1,000 are none.
fn asked(rng: &mut Rng, d: &Draft, wrong: usize, note: &str) -> EarthCase {
    let board = d.recs[sound::board(rng, d.recs.len())].label;
    let label = match rng.permille(wrong) {
        true => no_label(rng, &board),
        false => typed(rng, &board, 400).to_vec(),
    };
    finish_earth(d, label, note)
}

/// A file that a board's answer must not change for: all its differences are off the chain.
fn changed(rng: &mut Rng) -> EarthCase {
    let mut d = chains(rng);
    let board = sound::board(rng, d.recs.len());
    let off = d.off_chain(board);
    if !off.is_empty() {
        off_chain::change(rng, &mut d.recs, &off);
    }
    let label = typed(rng, &d.recs[board].label, 400);
    finish_earth(&d, label.to_vec(), "changed off the chain")
}

/// Twelve bytes that no board has, or another number of bytes.
fn no_label(rng: &mut Rng, board: &Label) -> Vec<u8> {
    let twelve = match rng.below(12) {
        0 => malformed(rng, board),
        1 => near(rng, board),
        2 => mistaken(rng, board),
        3 => label(b"NOWHERE"),
        4 => [b' '; 12],
        _ => return other_length(rng, board),
    };
    twelve.to_vec()
}

/// A board's label with bytes too few or too many, for the most.
fn other_length(rng: &mut Rng, board: &Label) -> Vec<u8> {
    let mut out = typed(rng, board, 300).to_vec();
    let letters = board.iter().filter(|&&c| c != b' ').count();
    let more = rng.pick(&[b' ', b' ', 0, b'1', 0xff]);
    match rng.below(12) {
        0 => out.clear(),
        1 => out.truncate(1),
        2 | 3 => out.truncate(11),
        // As one types it: without its closing spaces.
        4 | 5 => out.truncate(letters.min(11)),
        6 | 7 => out.push(more),
        8 => out = in_a_fault(board),
        9 => out.resize(MOST_LABEL, b' '),
        10 => out.resize(20, more),
        _ => out.resize(rng.range(0, MOST_LABEL), more),
    }
    out
}

/// The twenty bytes of a fault, where its label alone is asked for.
fn in_a_fault(board: &Label) -> Vec<u8> {
    let mut out = b"FT".to_vec();
    out.extend(board);
    out.extend([1, 0, 0, 0, 0, 0]);
    out
}

/// One rule of the network's own or two, and a label that is wrong besides in every other case.
fn broken(rng: &mut Rng, count: usize) -> EarthCase {
    let mut d = match rng.coin() {
        true => chains(rng),
        false => sound::draft(rng),
    };
    let mut note = String::from("broken");
    let mut at = rng.below(NETWORK);
    for _ in 0..count {
        aim::break_rule(rng, &mut d, RULES[at]);
        note += &format!(" {}", RULES[at]);
        at = match rng.coin() {
            true => (at + 1) % NETWORK,
            false => rng.below(NETWORK),
        };
    }
    asked(rng, &d, 500, &note)
}

/// Damage without aim; the label is the fault's, as far as the fault has one.
fn damaged(rng: &mut Rng) -> EarthCase {
    let SolveCase {
        net, fault, note, ..
    } = match rng.below(8) {
        0..=1 => damage::lengths(rng),
        2..=4 => damage::one_bit(rng),
        5 => damage::moved_records(rng),
        6 => damage::odd_field(rng),
        _ => damage::noise(rng),
    };
    let label = fault.get(2..14).unwrap_or(&fault).to_vec();
    EarthCase { net, label, note }
}
