//! Letter case in labels: what was equal by case alone, and what was kept apart all the same.

use super::Edges;
use crate::judge::Verdict;
use crate::make::{SolveCase, WriteCase};
use crate::write::Written;

/// Where labels meet: a board's own and an earlier one (7), a feeder and an earlier one (8), the fault
/// and a board (14). In the tables below the names stand in this order.
const SOLVE_7: usize = 0;
const SOLVE_8: usize = 1;
const SOLVE_14: usize = 2;
const WRITE_7: usize = 3;
const WRITE_8: usize = 4;

macro_rules! equal {
    ($what:literal) => {
        [
            concat!("refused: 7 by ", $what),
            concat!("taken: 8 by ", $what),
            concat!("taken: 14 by ", $what),
            concat!("unwritten: 7 by ", $what),
            concat!("written: 8 by ", $what),
        ]
    };
}

macro_rules! apart {
    ($what:literal) => {
        [
            concat!("taken: 7 keeps apart ", $what),
            concat!("refused: 8 keeps apart ", $what),
            concat!("refused: 14 keeps apart ", $what),
            concat!("written: 7 keeps apart ", $what),
            concat!("unwritten: 8 keeps apart ", $what),
        ]
    };
}

/// The bytes that one label has in another case, each with its capital.
type Recased = Vec<(usize, u8)>;

struct Equal {
    by: fn(&Recased) -> bool,
    names: [&'static str; 5],
}

const EQUAL: [Equal; 8] = [
    equal(|_| true, equal!("case alone")),
    equal(|d| d.len() > 3, equal!("case of four letters or more")),
    equal(|d| alone(d, 1), equal!("case of byte 1 alone")),
    equal(|d| alone(d, 8), equal!("case of byte 8 alone")),
    equal(|d| alone(d, 9), equal!("case of byte 9 alone")),
    equal(|d| alone(d, 12), equal!("case of byte 12 alone")),
    equal(|d| letter(d, b'A'), equal!("a for A, or A for a")),
    equal(|d| letter(d, b'Z'), equal!("z for Z, or Z for z")),
];

const fn equal(by: fn(&Recased) -> bool, names: [&'static str; 5]) -> Equal {
    Equal { by, names }
}

fn alone(recased: &Recased, byte: usize) -> bool {
    recased.len() == 1 && recased[0].0 + 1 == byte
}

fn letter(recased: &Recased, capital: u8) -> bool {
    recased.iter().any(|&(_, c)| c == capital)
}

struct Apart {
    /// The lower and the higher of two bytes.
    is: fn(u8, u8) -> bool,
    names: [&'static str; 5],
    /// Both may stand in a label, so that 7 can be asked.
    form: bool,
}

const APART: [Apart; 12] = [
    apart(|a, b| (a, b) == (b'@', b'`'), apart!("@ and `")),
    apart(|a, b| (a, b) == (b'[', b'{'), apart!("[ and {")),
    apart(|a, b| (a, b) == (b'\\', b'|'), apart!("\\ and |")),
    apart(|a, b| (a, b) == (b']', b'}'), apart!("] and }")),
    apart(|a, b| (a, b) == (b'^', b'~'), apart!("^ and ~")),
    apart(
        |a, b| (b'['..=b'_').contains(&b) && a + 0x20 == b,
        apart!("one of ; to ? and the byte 0x20 over it"),
    ),
    apart(
        |a, b| b.is_ascii_alphabetic() && a + 0x20 == b.to_ascii_uppercase(),
        apart!("a letter and the byte 0x20 under its capital"),
    ),
    malformed(|a, b| (a, b) == (b'_', 0x7f), apart!("_ and 0x7f")),
    malformed(|a, b| (a, b) == (0, b' '), apart!("0 and a space")),
    malformed(
        |a, b: u8| b.is_ascii_digit() && a + 0x20 == b,
        apart!("a digit and the byte 0x20 under it"),
    ),
    malformed(
        |a, b| a.is_ascii_alphabetic() && b == a | 0x80,
        apart!("a letter and the byte 0x80 over it"),
    ),
    malformed(
        |a, b| a.is_ascii_alphabetic() && b == (a | 0x80) ^ 0x20,
        apart!("a letter and the byte 0x80 over it in the other case"),
    ),
];

const fn apart(is: fn(u8, u8) -> bool, names: [&'static str; 5]) -> Apart {
    Apart {
        is,
        names,
        form: true,
    }
}

const fn malformed(is: fn(u8, u8) -> bool, names: [&'static str; 5]) -> Apart {
    Apart {
        form: false,
        ..apart(is, names)
    }
}

/// None where these are two labels, or one typed alike.
fn recased(a: &[u8], b: &[u8]) -> Option<Recased> {
    if a == b || !a.eq_ignore_ascii_case(b) {
        return None;
    }
    let others = (0..12).filter(|&i| a[i] != b[i]);
    Some(others.map(|i| (i, a[i].to_ascii_uppercase())).collect())
}

/// The bytes at the one place where two labels are apart, whatever the case of the rest.
fn lone(a: &[u8], b: &[u8]) -> Option<(u8, u8)> {
    let mut apart = (0..12).filter(|&i| !a[i].eq_ignore_ascii_case(&b[i]));
    match (apart.next(), apart.next()) {
        (Some(i), None) => Some((a[i].min(b[i]), a[i].max(b[i]))),
        _ => None,
    }
}

fn own(record: &[u8]) -> &[u8] {
    &record[2..14]
}

fn feeder(record: &[u8]) -> &[u8] {
    &record[14..26]
}

impl Edges {
    pub fn look_typed(&mut self, case: &SolveCase, v: &Verdict) {
        if !matches!(v.number, 0 | 7 | 8 | 14) {
            return;
        }
        let (records, f): (Vec<&[u8]>, _) = (case.net[8..].chunks(44).collect(), &case.fault);
        match v.number {
            0 => {
                self.typed_network(&records, SOLVE_7, SOLVE_8);
                let k = records[v.place as usize - 1];
                self.equal(SOLVE_14, recased(&f[2..14], own(k)));
            }
            14 => {
                let near = records.iter().filter_map(|b| lone(&f[2..14], own(b)));
                self.apart(SOLVE_14, &near.collect::<Vec<_>>());
            }
            _ => {
                self.typed_record(&records[..v.place as usize], v.number, SOLVE_7, SOLVE_8);
                self.unfed_by_case(&records, v);
            }
        }
    }

    pub fn look_typed_boards(&mut self, case: &WriteCase, v: &Written) {
        let records: Vec<&[u8]> = case.boards.chunks(44).collect();
        match v.number {
            0 => self.typed_network(&records, WRITE_7, WRITE_8),
            7 | 8 => self.typed_record(&records[..v.place as usize], v.number, WRITE_7, WRITE_8),
            _ => {}
        }
    }

    /// All labels of a network that was accepted.
    fn typed_network(&mut self, records: &[&[u8]], seven: usize, eight: usize) {
        let meant = |b: &&[u8]| records.iter().find_map(|m| recased(feeder(b), own(m)));
        self.equal(eight, records.iter().filter_map(meant));
        let mut near = Vec::new();
        for (r, b) in records.iter().enumerate() {
            let earlier = records[..r].iter();
            near.extend(earlier.filter_map(|e| lone(own(b), own(e))));
        }
        self.apart(seven, &near);
    }

    /// The last of these records was refused by 7 or 8.
    fn typed_record(&mut self, records: &[&[u8]], number: u32, seven: usize, eight: usize) {
        let Some((last, earlier)) = records.split_last() else {
            return;
        };
        if number == 7 {
            let used = earlier.iter().find_map(|e| recased(own(last), own(e)));
            self.equal(seven, used);
        } else {
            let near = earlier.iter().filter_map(|e| lone(feeder(last), own(e)));
            self.apart(eight, &near.collect::<Vec<_>>());
        }
    }

    /// A record may not be fed by itself nor by a later one, in whatever case it is typed.
    fn unfed_by_case(&mut self, records: &[&[u8]], v: &Verdict) {
        let (b, later) = (records[v.place as usize - 1], &records[v.place as usize..]);
        let refused = v.number == 8;
        let itself = refused && recased(feeder(b), own(b)).is_some();
        let ahead = refused && later.iter().any(|l| recased(feeder(b), own(l)).is_some());
        self.edge(itself, "refused: own label in another case as feeder");
        self.edge(ahead, "refused: later label in another case as feeder");
    }

    fn equal(&mut self, rule: usize, met: impl IntoIterator<Item = Recased>) {
        let met: Vec<Recased> = met.into_iter().collect();
        for kind in &EQUAL {
            self.edge(met.iter().any(kind.by), kind.names[rule]);
        }
    }

    fn apart(&mut self, rule: usize, met: &[(u8, u8)]) {
        let asked = |kind: &&Apart| kind.form || !matches!(rule, SOLVE_7 | WRITE_7);
        for kind in APART.iter().filter(asked) {
            let any = met.iter().any(|&(a, b)| (kind.is)(a, b));
            self.edge(any, kind.names[rule]);
        }
    }
}
