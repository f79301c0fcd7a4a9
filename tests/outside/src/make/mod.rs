//! Cases from a seed. The maker has no opinion on what is right: it only aims, and `judge` decides.

mod aim;
mod damage;
mod earth;
mod file;
mod forgotten;
pub mod labels;
pub mod model;
pub mod off_chain;
mod sound;
mod typed;
mod unearthed;

use self::model::Draft;
use crate::judge::board::RECORD;
use crate::rng::Rng;
use crate::stream::{EARTH, SOLVE, WRITE};

/// One call, of any entry point.
#[derive(Clone)]
pub enum Case {
    Solve(SolveCase),
    Write(WriteCase),
    Earth(EarthCase),
}

#[derive(Clone)]
pub struct SolveCase {
    /// Numbers of the answer buffer.
    pub room: usize,
    pub net: Vec<u8>,
    pub fault: Vec<u8>,
    /// What the maker had in mind; printed with a mismatch.
    pub note: String,
}

#[derive(Clone)]
pub struct WriteCase {
    /// Bytes of the output.
    pub room: usize,
    pub volts: u16,
    pub unit: u16,
    /// Each board as a record of 44 bytes; nobody looks at the marks.
    pub boards: Vec<u8>,
    pub note: String,
}

#[derive(Clone)]
pub struct EarthCase {
    pub net: Vec<u8>,
    /// Of any length: what is no label of twelve bytes is to be refused.
    pub label: Vec<u8>,
    pub note: String,
}

pub const MOST_NET: usize = 16_400;
pub const MOST_FAULT: usize = 64;
pub const MOST_ROOM: usize = 6_400;
pub const MOST_BOARDS: usize = 372;
pub const MOST_OUT: usize = 16_400;
pub const MOST_LABEL: usize = 64;

/// Case `index` of `seed`, without making those before it. One in eight asks for the earth return; of
/// the others one in five is to be written.
pub fn case(seed: u64, index: u64) -> Case {
    let mut rng = Rng::for_case(seed, index);
    let entry = match rng.below(40) {
        0..=4 => EARTH,
        5..=11 => WRITE,
        _ => SOLVE,
    };
    made(entry, &mut rng)
}

/// The same, but of one entry point, whichever the seed would have drawn.
pub fn case_of(entry: u32, seed: u64, index: u64) -> Case {
    made(entry, &mut Rng::for_case(seed, index))
}

fn made(entry: u32, rng: &mut Rng) -> Case {
    match entry {
        EARTH => Case::Earth(to_trace(rng)),
        WRITE => Case::Write(to_write(rng)),
        _ => Case::Solve(to_solve(rng)),
    }
}

fn to_trace(rng: &mut Rng) -> EarthCase {
    let mut case = earth::mixed(rng);
    case.net.truncate(MOST_NET);
    case.label.truncate(MOST_LABEL);
    case
}

fn to_write(rng: &mut Rng) -> WriteCase {
    let mut case = file::mixed(rng);
    case.boards.truncate(RECORD * MOST_BOARDS);
    case.room = case.room.min(MOST_OUT);
    case
}

fn to_solve(rng: &mut Rng) -> SolveCase {
    let mut case = mixed(rng);
    case.net.truncate(MOST_NET);
    case.fault.truncate(MOST_FAULT);
    case.room = case.room.min(MOST_ROOM);
    case
}

fn mixed(rng: &mut Rng) -> SolveCase {
    match rng.below(1000) {
        0..=424 => finish(sound::draft(rng), "sound"),
        425..=534 => finish(unearthed::draft(rng), "no earth return"),
        535..=584 => finish(typed::draft(rng), "letter case"),
        585..=614 => finish(forgotten::draft(rng), "forgotten"),
        615..=799 => broken(rng, 1),
        800..=879 => broken(rng, 2),
        880..=899 => broken(rng, 3),
        900..=924 => damage::lengths(rng),
        925..=969 => damage::one_bit(rng),
        970..=979 => damage::moved_records(rng),
        980..=989 => damage::odd_field(rng),
        _ => damage::noise(rng),
    }
}

pub fn finish(draft: Draft, note: &str) -> SolveCase {
    SolveCase {
        room: draft.room,
        net: draft.net_bytes(),
        fault: draft.fault_bytes(),
        note: note.into(),
    }
}

/// The same draft as a network to be written, in `draft.room` bytes.
pub fn finish_file(draft: &Draft, note: &str) -> WriteCase {
    WriteCase {
        room: draft.room,
        volts: draft.volts,
        unit: draft.unit,
        boards: draft.recs.iter().flat_map(|r| r.bytes()).collect(),
        note: note.into(),
    }
}

/// The same draft as a network in which a label is asked for.
pub fn finish_earth(draft: &Draft, label: Vec<u8>, note: &str) -> EarthCase {
    EarthCase {
        net: draft.net_bytes(),
        label,
        note: note.into(),
    }
}

/// The table's rules in their order, 21 among them; 18 is withdrawn.
const RULES: [usize; 19] = [
    1, 2, 3, 4, 5, 6, 7, 8, 9, 10, 21, 11, 12, 13, 14, 15, 16, 17, 19,
];
/// Those of them that are the network's own.
const NETWORK: usize = 12;

/// One to three rules broken at once; the second is often the next rule, where order shows most.
fn broken(rng: &mut Rng, count: usize) -> SolveCase {
    let mut draft = if rng.permille(200) {
        unearthed::draft(rng)
    } else {
        sound::draft(rng)
    };
    let mut note = String::from("broken");
    let mut at = rng.below(RULES.len());
    for _ in 0..count {
        aim::break_rule(rng, &mut draft, RULES[at]);
        note += &format!(" {}", RULES[at]);
        at = match rng.coin() {
            true => (at + 1) % RULES.len(),
            false => rng.below(RULES.len()),
        };
    }
    // A refusal shows what it must not write in a few numbers as well as in many.
    if draft.room > 60 && !note.contains("19") && rng.permille(800) {
        draft.room = rng.below(60);
        note += " small room";
    }
    finish(draft, &note)
}
