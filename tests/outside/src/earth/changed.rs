//! What R-4 says is proved, tried: other files, and whether the board has an earth return in them. Of the
//! record named it is asked only what comes of changing it: that one decides which, turned over, turns
//! the answer over.

use super::{chain_of, need, planned, PAPER};
use crate::judge::network;
use crate::make::model::Rec;
use crate::make::{off_chain, EarthCase};
use crate::rng::Rng;
use crate::stream::earth::EarthAnswer;

/// Changed files: how many, how many of them are still accepted, and how many of these have a new record
/// that starts the zero sequence, beside a board without earth return.
#[derive(Default)]
pub struct Trials {
    pub tried: u64,
    pub accepted: u64,
    pub earthing: u64,
}

/// The request says it of a board without earth return; it is as true of the others.
pub fn check(case: &EarthCase, got: &EarthAnswer) -> Result<Trials, String> {
    let mut trials = Trials::default();
    if got.verdict.number != 0 {
        return Ok(trials);
    }
    let plan = planned(&case.net, &case.label)?;
    holds(&case.net, case, got).map_err(|what| format!("{what}, unchanged"))?;
    let chain = chain_of(&plan);
    let all = 0..plan.records.len();
    let off: Vec<usize> = all.filter(|r| !chain.contains(r)).collect();
    let mut rng = generator(case);
    for _ in 0..count(plan.records.len(), off.len()) {
        let mut recs = records(&case.net);
        off_chain::change(&mut rng, &mut recs, &off);
        let net = file(&case.net, &recs);
        // Now and then what is drawn is what was there.
        if net == case.net {
            continue;
        }
        trials.tried += 1;
        if network::read(&PAPER, &net).is_ok() {
            trials.accepted += 1;
            let starts = |r: &usize| recs[*r].kind == 4 && plan.records[*r].kind != 4;
            let earthing = got.verdict.earthed == 0 && off.iter().any(starts);
            trials.earthing += u64::from(earthing);
            holds(&net, case, got).map_err(|what| format!("{what}, changed off the chain"))?;
        }
    }
    Ok(trials)
}

/// Large networks take long, and say no more.
fn count(boards: usize, off: usize) -> usize {
    match boards {
        _ if off == 0 => 0,
        0..=60 => 8,
        _ => 2,
    }
}

/// The case itself says what is tried of it, so that a replay tries the same.
fn generator(case: &EarthCase) -> Rng {
    let bytes = case.net.iter().chain(&case.label);
    let mixed = bytes.fold(0, |sum: u64, &b| {
        (sum ^ u64::from(b)).wrapping_mul(0x0100_0000_01b3)
    });
    Rng::for_case(0, mixed)
}

fn records(net: &[u8]) -> Vec<Rec> {
    net[8..].chunks_exact(44).map(Rec::read).collect()
}

/// Other records behind the same head.
fn file(net: &[u8], recs: &[Rec]) -> Vec<u8> {
    let mut out = net[..8].to_vec();
    recs.iter().for_each(|r| out.extend(r.bytes()));
    out
}

/// The answer given is true of the board in this file.
fn holds(net: &[u8], case: &EarthCase, got: &EarthAnswer) -> Result<(), String> {
    let v = &got.verdict;
    let has_return = |net: &[u8]| -> Result<bool, String> {
        let plan = planned(net, &case.label)?;
        Ok(plan.records[plan.k].earthed)
    };
    need(
        has_return(net)? == (v.earthed == 1),
        "the board's earth return",
    )?;
    let other = turned(net, v.place).ok_or("earth: a record that decides nothing")?;
    let read = network::read(&PAPER, &other).is_ok();
    need(read, "the record named can't be turned over")?;
    let turns = has_return(&other)? != (v.earthed == 1);
    need(turns, "another record decides")
}

/// A record that starts the zero sequence stops it, and one that stops it starts it. No z0 and no zn is
/// left anywhere, so that no sum is refused for that.
fn turned(net: &[u8], place: u32) -> Option<Vec<u8>> {
    let mut recs = records(net);
    recs.iter_mut().for_each(|r| r.z[4..].fill(0));
    let named = recs.get_mut((place as usize).checked_sub(1)?)?;
    named.kind = match named.kind {
        0 => 1,
        1 => 0,
        4 => 5,
        5 => 4,
        _ => return None,
    };
    // Kind 4 has an odd clock.
    named.clock |= u8::from(named.kind == 4);
    Some(file(net, &recs))
}
