//! Edges that cases of `solve` have met.

use super::{capitals, part, word, Edges};
use crate::judge::{room_needed, Verdict};
use crate::make::SolveCase;
use std::collections::HashMap;

/// Depth and sums of a board, carried from its feeder.
#[derive(Clone, Copy, Default)]
pub struct Level {
    depth: u32,
    turn: u32,
    z: [u32; 4],
    z0: Option<[u32; 2]>,
}

impl Level {
    /// A sum is over 4,095.
    pub fn over(&self) -> bool {
        let mut all = self.z.iter().chain(self.z0.iter().flatten());
        all.any(|&z| z > 4095)
    }
}

/// The levels of the first `count` records.
pub fn levels(records: &[u8], count: usize) -> Vec<Level> {
    let mut by_label: HashMap<Vec<u8>, Level> = HashMap::new();
    let mut out = Vec::new();
    for b in records.chunks_exact(44).take(count) {
        let above = by_label.get(&capitals(&b[14..26])).copied();
        let above = above.unwrap_or_default();
        let own = |i: usize| u32::from(part(b, i));
        let term = [own(4) + 3 * own(6), own(5) + 3 * own(7)];
        let level = Level {
            depth: above.depth + 1,
            turn: above.turn + u32::from(b[27]),
            z: std::array::from_fn(|i| above.z[i] + own(i)),
            z0: match b[26] {
                0 | 4 => Some(term),
                2 | 3 => above.z0.map(|e| [e[0] + term[0], e[1] + term[1]]),
                _ => None,
            },
        };
        by_label.insert(capitals(&b[2..14]), level);
        out.push(level);
    }
    out
}

const KINDS: [&str; 6] = [
    "taken: kind 0 met",
    "taken: kind 1 met",
    "taken: kind 2 met",
    "taken: kind 3 met",
    "taken: kind 4 met",
    "taken: kind 5 met",
];

const CLOCKS: [&str; 12] = [
    "taken: clock 0",
    "taken: clock 1",
    "taken: clock 2",
    "taken: clock 3",
    "taken: clock 4",
    "taken: clock 5",
    "taken: clock 6",
    "taken: clock 7",
    "taken: clock 8",
    "taken: clock 9",
    "taken: clock 10",
    "taken: clock 11",
];

impl Edges {
    pub fn look_solved(&mut self, case: &SolveCase, v: &Verdict) {
        match v.number {
            0 => {
                self.taken_head(case, v);
                self.taken_room(case, v);
                self.taken_records(&case.net);
                self.taken_sums(case, v);
            }
            1..=4 => self.refused_head(&case.net, v.number),
            5..=8 => self.refused_label(case, v),
            9 => self.refused_kind(case, v),
            10 => self.refused_part(case, v),
            11 => self.refused_sum(case, v),
            // `forgotten` looks at it.
            21 => {}
            _ => self.refused_fault(case, v.number),
        }
    }

    fn taken_head(&mut self, case: &SolveCase, v: &Verdict) {
        let (net, f) = (&case.net, &case.fault);
        let (volts, unit) = (word(net, 2), word(net, 4));
        self.edge(volts == 1, "taken: volts 1");
        self.edge(volts == 1000, "taken: volts 1000");
        self.edge(unit == 10, "taken: unit 10");
        self.edge(unit == 1000, "taken: unit 1000");
        self.edge(v.boards == 1, "taken: N 1");
        self.edge(v.boards == 256, "taken: N 256");
        self.edge(v.amps > 1_000_000, "taken: over 1,000,000 amps");
        let most = word(f, 16) == 1365 || word(f, 18) == 1365;
        self.edge(most, "taken: Zf part 1365");
        self.edge(f[16..] == [0; 4], "taken: Zf 0");
        self.edge(f[13] != b' ', "taken: fault label of 12 letters");
        self.edge(f[3] == b' ', "taken: fault label of 1 letter");
    }

    fn taken_room(&mut self, case: &SolveCase, v: &Verdict) {
        let need = room_needed(v.boards as usize);
        self.edge(case.room == need, "taken: room exact");
        self.edge(case.room > need, "taken: room to spare");
        self.edge(case.room > need + 100, "taken: room far more");
        self.edge(v.place == 1, "taken: fault at the first board");
        self.edge(v.place == v.boards, "taken: fault at the last board");
    }

    fn taken_records(&mut self, net: &[u8]) {
        let mut stems = HashMap::new();
        for b in net[8..].chunks(44) {
            self.edge(true, KINDS[usize::from(b[26])]);
            self.edge(true, CLOCKS[usize::from(b[27])]);
            self.edge((0..8).any(|i| part(b, i) == 4095), "taken: part 4095");
            let neutral = b[26] == 0 && part(b, 4) == 0 && part(b, 6) == 1365;
            self.edge(neutral, "taken: kind 0, r0 0, rn 1365");
            let own = b[26] < 2 && b[28..32] != b[32..36];
            self.edge(own, "taken: source with z1 not z2");
            self.edge(b[2..14].contains(&0x21), "taken: letter 0x21");
            self.edge(b[2..14].contains(&0x7e), "taken: letter 0x7e");
            let twin = stems.insert(&b[2..13], ()).is_some();
            self.edge(twin, "taken: labels alike but for the 12th byte");
        }
    }

    fn taken_sums(&mut self, case: &SolveCase, v: &Verdict) {
        let net = &case.net;
        let all = levels(&net[8..], 256);
        let k = all[v.place as usize - 1];
        let any = |test: &dyn Fn(&Level) -> bool| all.iter().any(test);
        let deep = any(&|l| l.depth == 256);
        let full = any(&|l| l.z.contains(&4095));
        let earth = any(&|l| l.z0.is_some_and(|e| e.contains(&4095)));
        let back = any(&|l| l.turn < k.turn);
        let far = any(&|l| l.turn > k.turn + 11);
        self.edge(deep, "taken: chain 256 deep");
        self.edge(full, "taken: Z1 or Z2 part 4095");
        self.edge(earth, "taken: Z0 part 4095");
        self.edge(back, "taken: d below 0");
        self.edge(far, "taken: d over 11");
        let clear = matches!(case.fault[14], 0 | 2);
        let none = clear && k.z0.is_none();
        self.edge(none, "taken: clear of earth at a board without return");
        // Where no current flows at all nothing is cut down.
        let cut = v.amps == 0 && (clear || k.z0.is_some());
        self.edge(cut, "taken: a current of 0 amps");
        let free = net[8..].chunks(44).zip(&all).any(|(b, l)| {
            let term = u32::from(part(b, 4)) + 3 * u32::from(part(b, 6));
            l.z0.is_none() && term > 4095
        });
        self.edge(free, "taken: no return, z0 + 3zn over 4095");
    }

    fn refused_head(&mut self, net: &[u8], n: u32) {
        let l = net.len();
        let head = |i: usize, x: u16| n == 3 && word(net, i) == x;
        self.edge(n == 1 && l == 7, "refused: network of 7 bytes");
        self.edge(n == 1 && l == 0, "refused: no network");
        self.edge(head(2, 0), "refused: volts 0");
        self.edge(head(2, 1001), "refused: volts 1001");
        self.edge(head(4, 9), "refused: unit 9");
        self.edge(head(4, 1001), "refused: unit 1001");
        self.edge(head(6, 0), "refused: N 0");
        self.edge(head(6, 257), "refused: N 257");
        let full = n == 3 && l == 8 + 44 * 257;
        self.edge(full, "refused: N 257 with 257 records");
        let count = if n == 4 { word(net, 6) } else { 0 };
        let due = 8 + 44 * usize::from(count);
        self.edge(n == 4 && l + 1 == due, "refused: one byte short");
        self.edge(n == 4 && l == due + 1, "refused: one byte long");
        self.edge(n == 4 && l == 8, "refused: head alone");
        self.edge(n == 4 && l > 16_000, "refused: over 16,000 bytes");
    }

    fn refused_fault(&mut self, case: &SolveCase, n: u32) {
        let f = &case.fault;
        self.edge(n == 12 && f.len() == 19, "refused: fault of 19 bytes");
        self.edge(n == 12 && f.len() == 21, "refused: fault of 21 bytes");
        self.edge(n == 12 && f.is_empty(), "refused: no fault");
        let near = |b: &[u8]| n == 14 && b[2..13] == f[2..13];
        let twin = case.net[8..].chunks(44).any(near);
        self.edge(twin, "refused: no board but for the 12th byte");
        self.edge(n == 15 && f[14] == 4, "refused: fault kind 4");
        self.edge(n == 16 && f[15] == 3, "refused: phase 3");
        self.edge(n == 16 && f[14] == 0, "refused: kind 0, phase not 0");
        let large = |i: usize| n == 17 && word(f, i) == 1366;
        self.edge(large(16), "refused: Zf r 1366");
        self.edge(large(18), "refused: Zf x 1366");
        let need = room_needed((case.net.len() - 8) / 44);
        let short = n == 19 && case.room + 1 == need;
        self.edge(short, "refused: room one short");
        self.edge(n == 19 && case.room == 0, "refused: no room");
    }

    fn refused_label(&mut self, case: &SolveCase, v: &Verdict) {
        let (b, n) = (record(case, v), v.number);
        let own = &b[2..14];
        let bad = |c: u8| n == 6 && own.contains(&c);
        self.edge(bad(0x1f), "refused: letter 0x1f");
        self.edge(bad(0x7f), "refused: letter 0x7f");
        self.edge(bad(0xff), "refused: letter 0xff");
        self.edge(n == 6 && own == [32; 12], "refused: label of spaces");
        let gap = own[10] == 32 && own[11] > 32;
        self.edge(n == 6 && gap, "refused: space before the 12th letter");
        let feeder = &b[14..26];
        self.edge(n == 8 && feeder == own, "refused: own label as feeder");
        self.edge(n == 8 && feeder == [32; 12], "refused: feeder of spaces");
        let later = &case.net[v.start as usize + 44..];
        let ahead = later.chunks_exact(44).any(|l| &l[2..14] == feeder);
        self.edge(n == 8 && ahead, "refused: later label as feeder");
        let source = n == 8 && v.place == 1;
        self.edge(source, "refused: record 1 with a feeder");
    }

    fn refused_kind(&mut self, case: &SolveCase, v: &Verdict) {
        let b = record(case, v);
        let (kind, clock, first) = (b[26], b[27], v.place == 1);
        self.edge(kind == 6, "refused: kind 6");
        self.edge(clock == 12, "refused: clock 12");
        self.edge(kind == 5 && clock == 12, "refused: kind 5, clock 12");
        self.edge(kind == 4 && clock == 0, "refused: kind 4, clock 0");
        let even = kind == 4 && clock > 0 && clock % 2 == 0 && clock < 12;
        self.edge(even, "refused: kind 4, even clock");
        let other = first && (2..6).contains(&kind);
        self.edge(other, "refused: record 1 no source");
        self.edge(!first && kind < 2, "refused: source later on");
        self.edge(first && kind < 2, "refused: source with a clock");
        let turned = !first && (kind == 2 || kind == 3);
        self.edge(turned, "refused: kind 2 or 3 with a clock");
    }

    fn refused_part(&mut self, case: &SolveCase, v: &Verdict) {
        let b = record(case, v);
        let kind = b[26];
        let over = (0..8).any(|i| part(b, i) > 4095);
        let just = (0..8).any(|i| part(b, i) == 4096);
        let zero = |from: usize| b[from..from + 4] == [0; 4];
        self.edge(just, "refused: part 4096");
        if over {
            return;
        }
        self.edge(kind < 2 && zero(28), "refused: source with z1 zero");
        self.edge(kind < 2 && zero(32), "refused: source with z2 zero");
        self.edge(kind == 1 && !zero(36), "refused: kind 1 with z0");
        self.edge(kind == 1 && !zero(40), "refused: kind 1 with zn");
        self.edge(kind == 2 && !zero(40), "refused: kind 2 with zn");
        self.edge(kind == 5 && !zero(36), "refused: kind 5 with z0");
        self.edge(kind == 5 && !zero(40), "refused: kind 5 with zn");
        let differ = b[28..32] != b[32..36];
        self.edge(kind == 2 && differ, "refused: kind 2, z1 not z2");
        self.edge(kind == 3 && differ, "refused: kind 3, z1 not z2");
        self.edge(kind == 4 && differ, "refused: kind 4, z1 not z2");
        self.edge(kind == 5 && differ, "refused: kind 5, z1 not z2");
    }

    fn refused_sum(&mut self, case: &SolveCase, v: &Verdict) {
        let b = record(case, v);
        let all = levels(&case.net[8..], v.place as usize);
        let last = all[v.place as usize - 1];
        let fits = |list: &[u32]| list.iter().all(|&z| z <= 4095);
        let just = last.z.contains(&4096);
        self.edge(just, "refused: Z1 or Z2 just 4096");
        let z0 = last.z0.unwrap_or_default();
        let only = fits(&last.z) && z0.contains(&4096);
        self.edge(only, "refused: Z0 alone just 4096");
        let second = fits(&last.z[..2]) && fits(&z0) && !fits(&last.z[2..]);
        self.edge(second, "refused: Z2 alone over");
        let alone = b[26] == 0 && part(b, 4) == 0 && part(b, 6) == 1366;
        self.edge(alone, "refused: kind 0, r0 0, rn 1366");
        self.edge(b[26] == 4 && fits(&last.z), "refused: kind 4's own Z0 over");
    }
}

fn record<'a>(case: &'a SolveCase, v: &Verdict) -> &'a [u8] {
    let from = v.start as usize;
    &case.net[from..from + 44]
}
