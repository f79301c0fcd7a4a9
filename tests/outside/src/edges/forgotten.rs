//! Transformers without z1: where they were refused, with what else broken, and what came near and
//! was taken, or refused for another reason.

use super::solve::levels;
use super::{capitals, part, Edges};

/// Who was asked: the names in the tables below stand in this order.
#[derive(Clone, Copy)]
pub enum Entry {
    Solve,
    Write,
    Earth,
}

type Names = [&'static str; 3];

macro_rules! refused {
    ($what:literal) => {
        [
            concat!("refused: ", $what),
            concat!("unwritten: ", $what),
            concat!("earth, refused: ", $what),
        ]
    };
}

macro_rules! taken {
    ($what:literal) => {
        [
            concat!("taken: ", $what),
            concat!("written: ", $what),
            concat!("earth asked: ", $what),
        ]
    };
}

/// A record, as bytes.
type Record<'a> = &'a [u8];

/// The records of a network, and the index of the one that was refused.
struct Refused<'a> {
    bytes: &'a [u8],
    all: Vec<Record<'a>>,
    r: usize,
}

fn kind(b: Record) -> u8 {
    b[26]
}

fn transformer(b: Record) -> bool {
    matches!(kind(b), 3..=5)
}

/// Parts of a record that are all zero: 0 and 1 are z1, 2 and 3 z2, the others z0 and zn.
fn zero(b: Record, parts: std::ops::Range<usize>) -> bool {
    parts.into_iter().all(|i| part(b, i) == 0)
}

fn forgotten(b: Record) -> bool {
    transformer(b) && zero(b, 0..2)
}

impl Refused<'_> {
    fn own(&self) -> Record<'_> {
        self.all[self.r]
    }

    fn first_transformer(&self) -> bool {
        !self.all[..self.r].iter().any(|b| transformer(b))
    }

    /// Another transformer on the chain.
    fn behind(&self) -> bool {
        let feeder = |b: &Record| {
            let label = capitals(&b[14..26]);
            let mut earlier = self.all[..self.r].iter();
            earlier.find(|e| capitals(&e[2..14]) == label).copied()
        };
        let chain = std::iter::successors(feeder(&self.own()), feeder);
        // Of a sound network this ends; of others it may not.
        chain.take(self.r).any(transformer)
    }

    fn sum_over(&self) -> bool {
        let levels = levels(self.bytes, self.r + 1);
        levels[self.r].over()
    }

    fn later(&self, is: fn(Record) -> bool) -> bool {
        self.all[self.r + 1..].iter().any(|b| is(b))
    }
}

type Test = fn(&Refused) -> bool;

#[rustfmt::skip]
const REFUSED: [(Test, Names); 14] = [
    (|f| kind(f.own()) == 3, refused!("21, kind 3")),
    (|f| kind(f.own()) == 4, refused!("21, kind 4")),
    (|f| kind(f.own()) == 5, refused!("21, kind 5")),
    (|f| f.r == 1, refused!("21 at record 2")),
    (|f| f.r + 1 == f.all.len(), refused!("21 at the last record")),
    (|f| f.first_transformer(), refused!("21 at the first transformer")),
    (|f| !f.first_transformer(), refused!("21 at a later transformer")),
    (|f| f.behind(), refused!("21 behind another transformer")),
    (|f| zero(f.own(), 0..8), refused!("21, no impedance at all")),
    (|f| !zero(f.own(), 4..8), refused!("21, with z0 or zn")),
    (|f| f.sum_over(), refused!("21, and 11 too")),
    (|f| f.later(forgotten), refused!("21, and at a later record too")),
    (|f| f.later(|b| kind(b) > 5 || b[27] > 11), refused!("21, and a later record's 9")),
    (|f| f.all[..f.r].iter().any(|b| kind(b) == 2 && zero(b, 0..4)), refused!("21 after a cable with z1 = z2 = 0")),
];

/// What stands at the record before 21 does: by number.
#[rustfmt::skip]
const BEFORE: [(u32, Test, Names); 10] = [
    (9, |f| forgotten(f.own()), refused!("9, and 21 too")),
    (8, |f| forgotten(f.own()), refused!("8, and 21 too")),
    (7, |f| forgotten(f.own()), refused!("7, and 21 too")),
    (6, |f| forgotten(f.own()), refused!("6, and 21 too")),
    (10, |f| half(f, 3), refused!("10, kind 3 with z1 zero, z2 not")),
    (10, |f| half(f, 4), refused!("10, kind 4 with z1 zero, z2 not")),
    (10, |f| half(f, 5), refused!("10, kind 5 with z1 zero, z2 not")),
    (
        10,
        |f| transformer(f.own()) && zero(f.own(), 2..4) && !zero(f.own(), 0..2),
        refused!("10, a transformer with z2 zero, z1 not"),
    ),
    (
        10,
        |f| transformer(f.own()) && zero(f.own(), 0..4),
        refused!("10, z1 = z2 = 0 and wrong z0 or zn"),
    ),
    (11, |f| f.later(forgotten), refused!("11, and a later record's 21")),
];

/// A transformer of this kind with z1 zero alone, all else within its range.
fn half(f: &Refused, of: u8) -> bool {
    let b = f.own();
    let small = (0..8).all(|i| part(b, i) < 4096);
    kind(b) == of && zero(b, 0..2) && !zero(b, 2..4) && small
}

/// R zero and X not, or the other way round.
fn one_part(b: Record, of: u8, zero: usize) -> bool {
    kind(b) == of && part(b, zero) == 0 && part(b, 1 - zero) > 0
}

type Near = fn(Record) -> bool;

const TAKEN: [(Near, Names); 9] = [
    (|b| one_part(b, 3, 0), taken!("kind 3, R of z1 zero")),
    (|b| one_part(b, 3, 1), taken!("kind 3, X of z1 zero")),
    (|b| one_part(b, 4, 0), taken!("kind 4, R of z1 zero")),
    (|b| one_part(b, 4, 1), taken!("kind 4, X of z1 zero")),
    (|b| one_part(b, 5, 0), taken!("kind 5, R of z1 zero")),
    (|b| one_part(b, 5, 1), taken!("kind 5, X of z1 zero")),
    (
        |b| transformer(b) && part(b, 0) + part(b, 1) == 1,
        taken!("a transformer with z1 of one count"),
    ),
    (
        |b| kind(b) == 2 && zero(b, 0..4) && !zero(b, 4..6),
        taken!("cable with z1 = z2 = 0, z0 not"),
    ),
    (
        |b| kind(b) == 2 && zero(b, 0..8),
        taken!("cable with no impedance at all"),
    ),
];

impl Edges {
    /// `records` behind the head, or the boards given.
    pub fn look_forgotten(&mut self, entry: Entry, records: &[u8], number: u32, place: u32) {
        let all: Vec<Record> = records.chunks_exact(44).collect();
        let name = |names: &Names| names[entry as usize];
        if number == 0 {
            for (is, names) in &TAKEN {
                self.edge(all.iter().any(|b| is(b)), name(names));
            }
        }
        // 12 and up have no place, nor have 1 to 4.
        let Some(r) = (place as usize).checked_sub(1).filter(|_| number > 0) else {
            return;
        };
        let found = Refused {
            bytes: records,
            all,
            r,
        };
        for (is, names) in &REFUSED {
            self.edge(number == 21 && is(&found), name(names));
        }
        for (due, is, names) in &BEFORE {
            self.edge(number == *due && is(&found), name(names));
        }
    }
}
