//! What R-4 says of an answer in its own words: where the record named stands, and what kinds are
//! between it and the board. The chain is that of `plan`; what it says of the earth return is carried
//! from feeder to board.

use super::{chain_of, need, planned, to_earth, PAPER};
use crate::judge::earth::Traced;
use crate::judge::{network, LABEL};
use crate::make::EarthCase;
use crate::plan::{plan, Plan};
use crate::stream::earth::EarthAnswer;

pub fn check(case: &EarthCase, got: &EarthAnswer) -> Result<(), String> {
    let v = &got.verdict;
    if let Err(due) = network::read(&PAPER, &case.net) {
        need(
            *v == Traced::from(due),
            "the reader does not refuse this so",
        )?;
        let shown = case.net.iter().skip(due.start as usize);
        let same = got.shown.iter().eq(shown.take(due.length as usize));
        return need(same, "not the bytes that the reader refuses");
    }
    match v.number {
        0 => {
            let part = (v.whose, v.start, v.length) == (0, 0, 0) && got.shown.is_empty();
            need(part, "an answer hands back no part")?;
            decided(&planned(&case.net, &case.label)?, v.place, v.earthed)
        }
        14 => unknown(case, got),
        _ => need(false, "the reader takes this network"),
    }
}

fn unknown(case: &EarthCase, got: &EarthAnswer) -> Result<(), String> {
    let v = &got.verdict;
    let found = plan(&case.net, &to_earth(&case.label)).is_some();
    need(!found, "14, and a board has this label")?;
    need((v.place, v.earthed) == (0, 0), "14 says more than 14")?;
    let part = (v.whose, v.start, v.length) == (LABEL, 0, case.label.len() as u32);
    need(
        part && got.shown == case.label,
        "14 shows the label's bytes",
    )
}

/// The record at `place` is the one that decides.
fn decided(plan: &Plan, place: u32, earthed: u32) -> Result<(), String> {
    let chain = chain_of(plan);
    let named = chain.iter().position(|&r| r + 1 == place as usize);
    let at = named.ok_or("earth: a record that is not on the chain")?;
    let kind = |r: &usize| plan.records[*r].kind;
    let mut between = chain[..at].iter().map(kind);
    let here = kind(&chain[at]);
    match earthed {
        1 => {
            need(matches!(here, 0 | 4), "a return from where none starts")?;
            let on = between.all(|k| matches!(k, 2 | 3));
            need(on, "a return past a record that does not let it on")?;
        }
        0 => {
            need(matches!(here, 1 | 5), "stopped where nothing stops it")?;
            let nearer = between.any(|k| matches!(k, 1 | 5));
            need(!nearer, "a nearer record stops it")?;
        }
        _ => need(false, "neither a return nor none")?,
    }
    let carried = plan.records[plan.k].earthed;
    need(carried == (earthed == 1), "the board's own earth return")
}
