//! The deliberate faults of R-4: the record that is named, the label that is asked for, refusals. Where a
//! row does not say another network it is the paper's, or the tour's of the figures.

use super::Fault::{Order, Reading, Stream, Traced};
use super::{Fault, Made, Row};
use crate::compare::Witness;
use crate::earth::{chain_of, planned};
use crate::figures::earth::{tour, unearthed_tour};
use crate::judge::{earth as verdict, LABEL};
use crate::make::labels::label;
use crate::make::model::{Draft, Rec};
use crate::make::EarthCase;
use crate::paper::{Named, Paper};
use crate::stream::earth::EarthAnswer;

// Who must see a fault beside the comparison. `chain` looks at refusals and parts too, the others at
// what is answered.
const CHAIN: &[Witness] = &[Witness::Chain];
const ALL: &[Witness] = &[Witness::Chain, Witness::Changed, Witness::Short];

type Asked = fn(&mut Draft) -> Vec<u8>;

fn row(name: &'static str, fault: Fault, case: Asked, alone: &'static [Witness]) -> Row {
    Row {
        name,
        fault,
        made: Made::Earth(case),
        alone,
    }
}

fn reading(name: &'static str, change: fn(&mut Paper), case: Asked) -> Row {
    row(name, Reading(change), case, ALL)
}

/// Those that any case may show, not only the one made for it.
pub fn drawn() -> Vec<Row> {
    let mut rows = kinds();
    rows.extend(named());
    rows.extend(labels());
    rows.extend(orders());
    rows.extend(refusals());
    rows.extend(parts());
    rows
}

fn full(text: &str) -> Vec<u8> {
    label(text.as_bytes()).to_vec()
}

/// A label, then zeros to the most that may be asked.
fn long(text: &str) -> Vec<u8> {
    [&full(text)[..], &[0; 52]].concat()
}

fn of(d: &mut Draft, recs: Vec<Rec>, board: &str) -> Vec<u8> {
    let place = |f: &[u8; 12]| recs.iter().position(|r| r.label == *f);
    d.up = recs.iter().map(|r| place(&r.feeder)).collect();
    d.count = recs.len() as u16;
    d.recs = recs;
    full(board)
}

/// A board of the tour, and of the tour with an unearthed set.
fn at(d: &mut Draft, board: &str) -> Vec<u8> {
    of(d, tour(), board)
}

fn unearthed(d: &mut Draft, board: &str) -> Vec<u8> {
    of(d, unearthed_tour(), board)
}

fn kind_4_stops(p: &mut Paper) {
    (p.earth.starts, p.earth.stops) = (&[0], &[1, 4, 5]);
}

/// What each kind does to the zero sequence.
#[rustfmt::skip]
fn kinds() -> Vec<Row> {
    vec![
        reading("earth: kind 4 stops", kind_4_stops, |d| at(d, "CABLE-3")),
        reading("earth: kind 4 stops, at its own board", kind_4_stops, |_| full("HALL")),
        reading("earth: kind 4 lets it on", |p| p.earth.starts = &[0], |_| full("HALL")),
        reading("earth: kind 4 lets it on, to kind 5", |p| p.earth.starts = &[0], |d| at(d, "STAR-2")),
        reading("earth: kind 4 lets it on, to kind 4", |p| p.earth.starts = &[0], |d| at(d, "GATE")),
        reading("earth: an unearthed source starts", |p| p.earth.starts = &[0, 1, 4], |d| unearthed(d, "SIDE")),
        reading("earth: an unearthed source stops nothing", |p| p.earth.stops = &[5], |d| unearthed(d, "MAIN")),
        reading("earth: an earthed source starts nothing", |p| p.earth.starts = &[4], |_| full("BOOTH-WEST-1")),
        reading("earth: kind 5 lets it on", |p| p.earth.stops = &[1], |d| at(d, "CABLE-1")),
        reading("earth: kind 5 lets it on, to kind 4", |p| p.earth.stops = &[1], |d| at(d, "TENT")),
        reading("earth: kind 5 lets it on, to kind 1", |p| p.earth.stops = &[1], |d| unearthed(d, "STAR-1")),
        reading("earth: kind 5 starts", |p| p.earth.starts = &[0, 4, 5], |d| at(d, "CABLE-2")),
        reading("earth: kind 3 stops", |p| p.earth.stops = &[1, 3, 5], |d| at(d, "SIDE")),
        reading("earth: kind 3 stops, nearer than kind 5", |p| p.earth.stops = &[1, 3, 5], |d| unearthed(d, "STAR-1")),
        reading("earth: kind 3 starts", |p| p.earth.starts = &[0, 3, 4], |d| at(d, "STAR-2")),
        reading("earth: a cable stops", |p| p.earth.stops = &[1, 2, 5], |d| at(d, "MAIN")),
        reading("earth: a cable starts", |p| p.earth.starts = &[0, 2, 4], |d| at(d, "TENT")),
    ]
}

/// Which record is named.
#[rustfmt::skip]
fn named() -> Vec<Row> {
    let output = |name, damage, case| row(name, Traced(damage), case, ALL);
    vec![
        reading("earth: the source named", |p| p.earth.named = Named::Source, |d| at(d, "CABLE-2")),
        reading("earth: the source named, with a return", |p| p.earth.named = Named::Source, |d| at(d, "CABLE-3")),
        reading("earth: the stop nearest to the source", |p| p.earth.nearest = false, |d| at(d, "CABLE-2")),
        reading("earth: the stop nearest to it, of four", |p| p.earth.nearest = false, |d| unearthed(d, "TENT")),
        reading("earth: an unearthed source before kind 5", |p| p.earth.nearest = false, |d| unearthed(d, "ISO-1")),
        reading("earth: the feeder named", |p| p.earth.named = Named::ItsFeeder, |d| at(d, "CABLE-1")),
        reading("earth: the feeder named, with a return", |p| p.earth.named = Named::ItsFeeder, |_| full("HALL")),
        reading("earth: the board named", |p| p.earth.named = Named::Board, |d| at(d, "CABLE-1")),
        reading("earth: the board named, with a return", |p| p.earth.named = Named::Board, |d| at(d, "STAR-2")),
        output("earth: records from 0", from_0, |d| at(d, "CABLE-3")),
        output("earth: records from 0, stopped", from_0, |d| at(d, "TENT")),
        output("earth: a return said where none is", |a, _| said(a, 1), |d| at(d, "TENT")),
        output("earth: none said where a return is", |a, _| said(a, 0), |d| at(d, "CABLE-3")),
        output("earth: a return and none exchanged", |a, _| said(a, 1 - a.verdict.earthed.min(1)), |_| full("GEN")),
        output("earth: another number for a return", |a, _| a.verdict.earthed *= 2, |_| full("HALL")),
        output("earth: a record off the chain", off_the_chain, |d| at(d, "CABLE-1")),
        output("earth: a record off the chain, with a return", off_the_chain, |d| at(d, "CABLE-3")),
        output("earth: a return from a board that hangs here", from_below, |d| at(d, "STAR-1")),
    ]
}

/// Which board is meant.
#[rustfmt::skip]
fn labels() -> Vec<Row> {
    let missed = |name, change, case| row(name, Reading(change), case, CHAIN);
    vec![
        reading("earth: eleven bytes taken", |p| p.earth.short_refused = false, |_| b"HALL       ".to_vec()),
        reading("earth: no closing spaces taken", |p| p.earth.short_refused = false, |_| b"hall".to_vec()),
        reading("earth: thirteen bytes cut to twelve", |p| p.earth.long_refused = false, |_| b"BOOTH-WEST-12".to_vec()),
        reading("earth: a space more taken", |p| p.earth.long_refused = false, |_| b"HALL         ".to_vec()),
        reading("earth: 64 bytes cut to twelve", |p| p.earth.long_refused = false, |_| long("GEN")),
        missed("earth: labels as typed", |p| p.labels.rules = &[], |_| full("Hall")),
        missed("earth: 14 as typed", |p| p.labels.rules = &[7, 8], |_| full("booth-west-1")),
        reading("earth: labels of eleven letters", |p| p.labels.count = 11, |_| full("BOOTH-WEST-2")),
        missed("earth: later entry wins", |p| p.labels_unique = false, |d| {
            d.recs[2].label = d.recs[1].label;
            full("BOOTH-WEST-1")
        }),
        row("earth: spaces are the source", Traced(spaces), |_| full(""), ALL),
        row("earth: no label is the source", Traced(spaces), |_| Vec::new(), ALL),
    ]
}

/// The network's own rules, in their order, before the label.
fn orders() -> Vec<Row> {
    let order = |name, rule, case| row(name, Order(rule), case, CHAIN);
    vec![
        order("earth: 1 and 2 exchanged", 1, |d| {
            d.net_length = Some(7);
            d.mark = *b"DH";
            full("HALL")
        }),
        order("earth: 3 and 4 exchanged", 3, |d| {
            d.volts = 0;
            d.net_length = Some(139);
            full("HALL")
        }),
        order("earth: 5 and 6 exchanged", 5, |d| {
            d.recs[1].mark = *b"DB";
            d.recs[1].label[0] = b' ';
            full("HALL")
        }),
        order("earth: 7 and 8 exchanged", 7, |d| {
            d.recs[2].label = d.recs[0].label;
            d.recs[2].feeder = label(b"NOWHERE");
            full("GEN")
        }),
        order("earth: 9 and 10 exchanged", 9, |d| {
            d.recs[2].clock = 10;
            d.recs[2].z[0] = 1;
            full("HALL")
        }),
        order("earth: 10 and 11 exchanged", 10, |d| {
            d.recs[1].z[0] = 4096;
            d.recs[1].z[2] = 4096;
            full("GEN")
        }),
    ]
}

/// Rule 11 at BOOTH-WEST-1, the last that a network can break: j20 of the source and j4,076.
fn sum_over(d: &mut Draft) {
    d.recs[1].z[1] = 4076;
    d.recs[1].z[3] = 4076;
}

/// What a refusal says beside its part.
#[rustfmt::skip]
fn refusals() -> Vec<Row> {
    let output = |name, damage, case| row(name, Traced(damage), case, CHAIN);
    vec![
        output("earth: 14 before 2", label_first, |d| { d.mark = *b"DH"; Vec::new() }),
        output("earth: 14 before 1", label_first, |d| { d.net_length = Some(0); full("NOWHERE") }),
        output("earth: 14 before 11", label_first, |d| { sum_over(d); full("HALLX") }),
        output("earth: the board's chain only is read", chain_only, |d| { sum_over(d); full("HALL") }),
        output("earth: 12 for a label's length", |a, c| if c.label.len() != 12 { renumber(a, 12) }, |_| b"HALL".to_vec()),
        output("earth: 25 for an unknown label", |a, _| renumber(a, 25), |_| full("NOWHERE")),
        output("earth: a place on 14", |a, _| a.verdict.place = a.verdict.place.max(1), |_| full("NOWHERE")),
        output("earth: N + 1 on 14", after_the_last, |_| full("NOWHERE")),
        output("earth: a return on 14", refused_with_return, |_| full("NOWHERE")),
        output("earth: a return on 14, too short", refused_with_return, |_| Vec::new()),
        output("earth: a return on 11", refused_with_return, |d| { sum_over(d); full("HALL") }),
        output("earth: no place on 11", no_place, |d| { sum_over(d); full("HALL") }),
    ]
}

/// The bytes that are shown.
#[rustfmt::skip]
fn parts() -> Vec<Row> {
    let output = |name, damage, case| row(name, Traced(damage), case, CHAIN);
    vec![
        output("earth: 14 shows the fault", |a, _| whose(a, 2), |_| full("NOWHERE")),
        output("earth: 14 shows nobody's bytes", |a, _| whose(a, 0), |_| Vec::new()),
        output("earth: 14 shows twelve bytes", |a, _| show(a, 12), |_| b"FTHALL        \x01\0\0\0\0\0".to_vec()),
        output("earth: 14 shows twelve bytes of eleven", |a, _| show(a, 12), |_| b"HALL       ".to_vec()),
        output("earth: 14 shows none", |a, _| show(a, 0), |_| full("NOWHERE")),
        output("earth: 14 shows one too few", |a, c| show(a, c.label.len().saturating_sub(1)), |_| full("NOWHERE")),
        output("earth: 14 shows capitals", |a, _| a.shown.make_ascii_uppercase(), |_| full("nowhere")),
        output("earth: 14 starts behind a mark", |a, _| a.verdict.start += 2, |_| full("NOWHERE")),
        output("earth: 11 shows the label", label_shown, |d| { sum_over(d); full("HALL") }),
        output("earth: an answer shows its record", record_shown, |_| full("HALL")),
        output("earth: an answer shows its record, stopped", record_shown, |d| at(d, "TENT")),
        output("earth: an answer shows the label", label_shown, |_| full("HALL")),
        output("earth: an empty part of the network", |a, _| whose(a, 1), |_| full("HALL")),
        output("earth: an empty part of the label", |a, _| whose(a, LABEL), |_| full("HALL")),
    ]
}

/// In the stream of 14's answer to NOWHERE the shown bytes, twelve of them, start at 24.
pub fn streams() -> Vec<Row> {
    let stream = |name, damage| row(name, Stream(damage), |_| full("NOWHERE"), &[]);
    vec![
        stream("earth: shown bytes left out of the stream", |s| {
            s.drain(24..36);
        }),
        stream("earth: a shown byte too few", |s| {
            s.remove(35);
        }),
        stream("earth: a shown byte too many", |s| s.insert(36, 0)),
        stream("earth: no word for the return", |s| {
            s.drain(8..12);
        }),
        stream("earth: N and amps as in solve's answer", |s| {
            s.splice(8..8, [0; 8]);
        }),
        stream("earth: a buffer as in solve's answer", |s| {
            s.splice(36..36, [0; 4]);
        }),
        stream("earth: the answer twice", |s| {
            let answer = s[..s.len() - 4].to_vec();
            s.splice(..0, answer);
        }),
        stream("earth: no closing mark", |s| s.truncate(s.len() - 4)),
        stream("earth: CUT for a short label", |s| {
            s.splice(.., *b"CUT\n");
        }),
    ]
}

/// Of an answer only.
fn said(a: &mut EarthAnswer, earthed: u32) {
    if a.verdict.number == 0 {
        a.verdict.earthed = earthed;
    }
}

fn from_0(a: &mut EarthAnswer, _: &EarthCase) {
    a.verdict.place = a.verdict.place.saturating_sub(1);
}

fn no_place(a: &mut EarthAnswer, _: &EarthCase) {
    if a.verdict.number > 0 {
        a.verdict.place = 0;
    }
}

/// The first record of this kind that is not on the board's chain; none where nothing was answered.
fn beside(a: &EarthAnswer, case: &EarthCase, kind: u8) -> Option<u32> {
    let plan = planned(&case.net, &case.label).ok()?;
    let chain = chain_of(&plan);
    let is = |r: &usize| plan.records[*r].kind == kind && !chain.contains(r);
    let first = (0..plan.records.len()).find(is);
    first
        .filter(|_| a.verdict.number == 0)
        .map(|r| r as u32 + 1)
}

/// Of a kind that could decide as well.
fn off_the_chain(a: &mut EarthAnswer, case: &EarthCase) {
    let kind = if a.verdict.earthed == 1 { 4 } else { 5 };
    a.verdict.place = beside(a, case, kind).unwrap_or(a.verdict.place);
}

/// An earthed transformer off the chain: what the request says can give no earth return.
fn from_below(a: &mut EarthAnswer, case: &EarthCase) {
    if let Some(r) = beside(a, case, 4).filter(|_| a.verdict.earthed == 0) {
        (a.verdict.place, a.verdict.earthed) = (r, 1);
    }
}

/// As the source would be answered, where no board is meant.
fn spaces(a: &mut EarthAnswer, case: &EarthCase) {
    if a.verdict.number == 14 && case.label.iter().all(|&c| c == b' ') {
        *a = source(case);
    }
}

fn source(case: &EarthCase) -> EarthAnswer {
    let mut asked = case.clone();
    asked.label = case.net[10..22].to_vec();
    crate::stream::earth::answer(&Paper::AS_WRITTEN, &asked)
}

/// A label that no record could have is refused before the network is looked at.
fn label_first(a: &mut EarthAnswer, case: &EarthCase) {
    let records = case.net.get(8..).unwrap_or(&[]);
    let mut own = records.chunks_exact(44).map(|b| &b[2..14]);
    if a.verdict.number > 0 && !own.any(|l| l.eq_ignore_ascii_case(&case.label)) {
        (a.verdict.number, a.verdict.place) = (14, 0);
        whole_label(a, case);
    }
}

/// What is wrong with a record off the board's chain is not seen: its kind, its impedances, its sums.
fn chain_only(a: &mut EarthAnswer, case: &EarthCase) {
    let Ok(plan) = planned(&case.net, &case.label) else {
        return;
    };
    let chain = chain_of(&plan);
    let on_chain = chain.iter().any(|&r| r + 1 == a.verdict.place as usize);
    let decides = |r: &&usize| matches!(plan.records[**r].kind, 0 | 1 | 4 | 5);
    if let (9..=11, false, Some(&r)) = (a.verdict.number, on_chain, chain.iter().find(decides)) {
        a.verdict = verdict::Traced {
            place: r as u32 + 1,
            earthed: u32::from(plan.records[plan.k].earthed),
            ..verdict::Traced::default()
        };
        a.shown.clear();
    }
}

/// Of 14 only.
fn renumber(a: &mut EarthAnswer, number: u32) {
    if a.verdict.number == 14 {
        a.verdict.number = number;
    }
}

fn after_the_last(a: &mut EarthAnswer, case: &EarthCase) {
    if a.verdict.number == 14 {
        a.verdict.place = (case.net.len() as u32 - 8) / 44 + 1;
    }
}

fn refused_with_return(a: &mut EarthAnswer, _: &EarthCase) {
    if a.verdict.number > 0 {
        a.verdict.earthed = 1;
    }
}

fn whose(a: &mut EarthAnswer, whose: u32) {
    a.verdict.whose = whose;
}

/// So many bytes shown: cut, or spaces more.
fn show(a: &mut EarthAnswer, count: usize) {
    a.shown.resize(count, b' ');
    a.verdict.length = count as u32;
}

fn whole_label(a: &mut EarthAnswer, case: &EarthCase) {
    a.shown = case.label.clone();
    (a.verdict.whose, a.verdict.start) = (LABEL, 0);
    a.verdict.length = case.label.len() as u32;
}

fn label_shown(a: &mut EarthAnswer, case: &EarthCase) {
    if a.verdict.number != 14 {
        whole_label(a, case);
    }
}

/// As an accepted fault would show it.
fn record_shown(a: &mut EarthAnswer, case: &EarthCase) {
    if a.verdict.number == 0 {
        let from = 8 + 44 * (a.verdict.place as usize - 1);
        a.shown = case.net[from..from + 44].to_vec();
        (a.verdict.whose, a.verdict.start, a.verdict.length) = (1, from as u32, 44);
    }
}
