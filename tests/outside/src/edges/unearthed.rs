//! Earth faults without earth return: what stands around the faulted board, and which edges
//! such cases have met.

use super::{capitals, word, Edges};
use crate::judge::{room_needed, Verdict};
use crate::make::SolveCase;
use std::collections::HashMap;

/// A board of an accepted network, carried from its feeder.
pub struct Board {
    up: Option<usize>,
    pub kind: u8,
    /// The record that its part of the network hangs on: boards are joined if it is the same one.
    part: usize,
    pub earthed: bool,
}

/// The boards, and where each label stands.
pub fn boards(net: &[u8]) -> (Vec<Board>, HashMap<Vec<u8>, usize>) {
    let mut places = HashMap::new();
    let mut out: Vec<Board> = Vec::new();
    for (r, b) in net[8..].chunks_exact(44).enumerate() {
        let up = places.get(&capitals(&b[14..26])).copied();
        let above = up.map(|u: usize| (out[u].part, out[u].earthed));
        let (part, earthed) = match (b[26], above) {
            (2 | 3, Some(above)) => above,
            (kind, _) => (r, kind == 0 || kind == 4),
        };
        let kind = b[26];
        out.push(Board {
            up,
            kind,
            part,
            earthed,
        });
        places.insert(capitals(&b[2..14]), r);
    }
    (out, places)
}

/// How many boards, or parts, stand where.
pub struct Around {
    /// Joined boards on k's chain, under k, and elsewhere.
    pub above: usize,
    pub below: usize,
    pub beside: usize,
    /// Other parts of the network without earth return.
    pub other_parts: usize,
    /// Boards with earth return.
    earthed: usize,
    /// Star/star transformers between the joined boards.
    star_star: usize,
    /// The source is one of the joined boards; otherwise the part hangs on a kind 5 record.
    source: bool,
}

/// None unless the network is sound and the fault a sound one to earth without earth return.
pub fn around(case: &SolveCase, v: &Verdict) -> Option<Around> {
    let f = &case.fault;
    let read = matches!(v.number, 0 | 17 | 19);
    if !read || !matches!(f[14], 1 | 3) {
        return None;
    }
    let (all, places) = boards(&case.net);
    let k = *places.get(&capitals(&f[2..14]))?;
    (!all[k].earthed).then(|| count(&all, k))
}

pub fn chain(all: &[Board], r: usize) -> impl Iterator<Item = usize> + '_ {
    std::iter::successors(Some(r), move |&q| all[q].up)
}

fn count(all: &[Board], k: usize) -> Around {
    let part = all[k].part;
    let joined = |r: &usize| *r != k && all[*r].part == part;
    let above = chain(all, k).filter(joined).count();
    let hangs_on_k = |r: &usize| chain(all, *r).any(|q| q == k);
    let below = (0..all.len()).filter(joined).filter(hangs_on_k).count();
    let heads = |r: &usize| all[*r].part == *r && !all[*r].earthed;
    let star = |b: &&Board| b.part == part && b.kind == 3;
    Around {
        above,
        below,
        beside: (0..all.len()).filter(joined).count() - above - below,
        other_parts: (0..all.len()).filter(heads).count() - 1,
        earthed: all.iter().filter(|b| b.earthed).count(),
        star_star: all.iter().filter(star).count(),
        source: part == 0,
    }
}

impl Edges {
    pub fn look_unearthed(&mut self, case: &SolveCase, v: &Verdict, a: &Around) {
        match v.number {
            0 => {
                self.stands(a);
                self.answered(case, v);
            }
            n => self.not_answered(case, n),
        }
    }

    fn stands(&mut self, a: &Around) {
        let joined = a.above + a.below + a.beside;
        let all = a.above > 0 && a.below > 0 && a.beside > 0;
        self.edge(joined == 0, "no return: k joined to no board");
        self.edge(all, "no return: joined above, below and beside");
        self.edge(joined > 100, "no return: over 100 joined boards");
        self.edge(a.other_parts > 1, "no return: two other parts or more");
        self.edge(a.earthed > 0, "no return: others have a return");
        self.edge(a.star_star > 0, "no return: joined by kind 3");
        self.edge(a.source, "no return: the source's own part");
        self.edge(!a.source, "no return: a part behind kind 5");
        let feeds = a.source && a.other_parts > 0;
        self.edge(feeds, "no return: source's part, and one behind kind 5");
    }

    fn answered(&mut self, case: &SolveCase, v: &Verdict) {
        let zf = [word(&case.fault, 16), word(&case.fault, 18)];
        let small = zf != [0, 0] && zf.iter().all(|&z| z < 10);
        let need = room_needed(v.boards as usize);
        self.edge(zf == [0, 0], "no return: Zf 0");
        self.edge(small, "no return: Zf under 10");
        self.edge(zf.contains(&1365), "no return: Zf part 1365");
        self.edge(case.room == need, "no return: room exact");
        self.edge(case.room > need, "no return: room to spare");
        self.edge(v.boards == 1, "no return: N 1");
        self.edge(v.boards == 256, "no return: N 256");
    }

    fn not_answered(&mut self, case: &SolveCase, n: u32) {
        let f = &case.fault;
        let just = n == 17 && (word(f, 16) == 1366 || word(f, 18) == 1366);
        let need = room_needed((case.net.len() - 8) / 44);
        let short = case.room < need;
        self.edge(just, "no return, refused: Zf part 1366");
        self.edge(n == 17 && short, "no return, refused: 17, and 19 too");
        let one = n == 19 && case.room + 1 == need;
        self.edge(one, "no return, refused: room one short");
        self.edge(n == 19 && case.room == 0, "no return, refused: no room");
    }
}
