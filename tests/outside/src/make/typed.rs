//! Letter case in labels: boards typed in one case and meant in another, labels that are one
//! but for case, and labels that only a careless reading would take for one.

use super::labels::{alike, mistaken, retyped, twin};
use super::model::Draft;
use super::sound;
use crate::rng::Rng;

/// To solve.
pub fn draft(rng: &mut Rng) -> Draft {
    let mut d = boards(rng);
    sound::short(rng, &mut d);
    match rng.below(10) {
        0..=2 => {}
        3 => used(rng, &mut d),
        4..=6 => {
            two(rng, &mut d);
            // The fault may have meant the board by its old name.
            sound::short(rng, &mut d);
        }
        7 => unfed(rng, &mut d),
        _ => d.fault_label = mistaken(rng, &d.fault_label),
    }
    d
}

/// To be written.
pub fn file(rng: &mut Rng) -> Draft {
    let mut d = boards(rng);
    match rng.below(10) {
        0 | 1 => {}
        2 | 3 => used(rng, &mut d),
        4..=6 => two(rng, &mut d),
        _ => unfed(rng, &mut d),
    }
    d
}

fn boards(rng: &mut Rng) -> Draft {
    let count = match rng.below(40) {
        0 => rng.range(27, 60),
        _ => rng.range(2, 8),
    };
    let names = alike(rng, count);
    sound::named(rng, &names)
}

/// Two boards of a network, the earlier one first.
fn pair(rng: &mut Rng, d: &Draft) -> (usize, usize) {
    let later = rng.range(1, d.recs.len() - 1);
    (rng.below(later), later)
}

/// A label used twice but for case: 7.
fn used(rng: &mut Rng, d: &mut Draft) {
    let (earlier, later) = pair(rng, d);
    let name = retyped(rng, &d.recs[earlier].label);
    d.rename(later, name);
}

/// Two labels that stay apart.
fn two(rng: &mut Rng, d: &mut Draft) {
    let (earlier, later) = pair(rng, d);
    let name = twin(rng, &d.recs[earlier].label);
    d.rename(later, name);
}

/// A feeder that is none, though it comes near one: 8.
fn unfed(rng: &mut Rng, d: &mut Draft) {
    let (_, later) = pair(rng, d);
    d.recs[later].feeder = mistaken(rng, &d.recs[later].feeder);
}
