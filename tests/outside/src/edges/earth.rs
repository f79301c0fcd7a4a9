//! Earth returns that were asked for: what stands on the chain, how far away the record named is,
//! and which labels are none.

use super::unearthed::{boards, chain};
use super::{capitals, Edges};
use crate::judge::earth::Traced;
use crate::make::{EarthCase, MOST_NET};

/// The chain of a board that was answered, cut at the record named: kinds below that one (the board's
/// own first), its own kind, kinds above.
pub struct Way {
    below: Vec<u8>,
    named: u8,
    above: Vec<u8>,
    /// Some board of the network has an earth return.
    some_earthed: bool,
}

impl Way {
    /// Records from the board to the one named.
    pub fn length(&self) -> usize {
        self.below.len()
    }
}

/// None unless the call was answered.
pub fn way(case: &EarthCase, v: &Traced) -> Option<Way> {
    if v.number != 0 {
        return None;
    }
    let (all, places) = boards(&case.net);
    let k = *places.get(&capitals(&case.label))?;
    let chain: Vec<usize> = chain(&all, k).collect();
    let at = chain.iter().position(|&r| r + 1 == v.place as usize)?;
    let kinds = |list: &[usize]| list.iter().map(|&r| all[r].kind).collect();
    Some(Way {
        below: kinds(&chain[..at]),
        named: all[chain[at]].kind,
        above: kinds(&chain[at + 1..]),
        some_earthed: all.iter().any(|b| b.earthed),
    })
}

/// A refusal of the network while the label is none as well: 14 must not come first.
const WRONG_LABEL_TOO: [(u32, &str); 12] = [
    (1, "earth, refused: 1, and 14 too"),
    (2, "earth, refused: 2, and 14 too"),
    (3, "earth, refused: 3, and 14 too"),
    (4, "earth, refused: 4, and 14 too"),
    (5, "earth, refused: 5, and 14 too"),
    (6, "earth, refused: 6, and 14 too"),
    (7, "earth, refused: 7, and 14 too"),
    (8, "earth, refused: 8, and 14 too"),
    (9, "earth, refused: 9, and 14 too"),
    (10, "earth, refused: 10, and 14 too"),
    (21, "earth, refused: 21, and 14 too"),
    (11, "earth, refused: 11, and 14 too"),
];

/// Lengths of a label that is none.
const LENGTHS: [(usize, &str); 7] = [
    (0, "earth, refused: a label of 0 bytes"),
    (1, "earth, refused: a label of 1 byte"),
    (11, "earth, refused: a label of 11 bytes"),
    (12, "earth, refused: a label of 12 bytes"),
    (13, "earth, refused: a label of 13 bytes"),
    (20, "earth, refused: a label of 20 bytes"),
    (64, "earth, refused: a label of 64 bytes"),
];

fn labels(net: &[u8]) -> impl Iterator<Item = &[u8]> {
    let records = net.get(8..).unwrap_or(&[]).chunks_exact(44);
    records.map(|b| &b[2..14])
}

impl Edges {
    pub fn look_traced(&mut self, case: &EarthCase, v: &Traced, way: Option<&Way>) {
        match way {
            Some(way) if v.earthed == 1 => self.from(way),
            Some(way) => self.stopped(way),
            None => self.no_answer(case, v),
        }
        if way.is_some() {
            self.asked(case, v);
        }
    }

    fn from(&mut self, w: &Way) {
        let (source, own) = (w.named == 0, w.below.is_empty());
        let above = |kind: u8| w.above.contains(&kind);
        self.edge(source && own, "earth: the source's own");
        self.edge(source && !own, "earth: from the source to another board");
        self.edge(!source && own, "earth: from the board's own kind 4");
        self.edge(!source && !own, "earth: from kind 4 to another board");
        self.edge(above(1), "earth: from kind 4 behind an unearthed source");
        self.edge(above(5), "earth: from kind 4, kind 5 above");
        self.edge(above(4), "earth: from kind 4, another above");
        self.edge(w.below.contains(&2), "earth: through a cable");
        self.edge(w.below.contains(&3), "earth: through kind 3");
        self.edge(w.length() > 99, "earth: from 100 records away or more");
    }

    fn stopped(&mut self, w: &Way) {
        let (source, own) = (w.named == 1, w.below.is_empty());
        let above = |kind: u8| w.above.iter().filter(|&&k| k == kind).count();
        self.edge(source && own, "no earth: the source's own");
        self.edge(source && !own, "no earth: stopped at the source");
        self.edge(
            !source && own,
            "no earth: stopped at the board's own kind 5",
        );
        self.edge(!source && !own, "no earth: stopped at another kind 5");
        self.edge(above(0) > 0, "no earth: though the source is earthed");
        self.edge(
            !source && above(1) > 0,
            "no earth: at kind 5, and at the source",
        );
        self.edge(above(5) > 0, "no earth: another kind 5 above");
        self.edge(above(5) > 1, "no earth: two other kind 5 above or more");
        self.edge(above(4) > 0, "no earth: kind 4 above kind 5");
        let both = above(4) > 0 && above(5) > 0;
        self.edge(both, "no earth: kind 4 and another kind 5 above");
        self.edge(w.below.contains(&2), "no earth: stopped before a cable");
        self.edge(w.below.contains(&3), "no earth: stopped before kind 3");
        self.edge(w.some_earthed, "no earth: another board has a return");
        let far = w.length() > 99;
        self.edge(far && source, "no earth: source 100 records away or more");
        self.edge(far && !source, "no earth: kind 5 100 records away or more");
    }

    fn asked(&mut self, case: &EarthCase, v: &Traced) {
        let (net, label) = (&case.net, &case.label);
        let count = (net.len() - 8) / 44;
        let typed = |b: &[u8]| b != label.as_slice() && capitals(b) == capitals(label);
        self.edge(count == 1, "earth asked: N 1");
        self.edge(count == 256, "earth asked: N 256");
        self.edge(
            v.place as usize == count,
            "earth asked: the last record named",
        );
        self.edge(labels(net).any(typed), "earth asked: label in another case");
        self.edge(label[11] != b' ', "earth asked: label of 12 letters");
        self.edge(label[1] == b' ', "earth asked: label of 1 letter");
    }

    fn no_answer(&mut self, case: &EarthCase, v: &Traced) {
        let (net, label) = (&case.net, &case.label);
        if v.number == 14 {
            return self.no_label(net, label);
        }
        let most = net.len() == MOST_NET;
        self.edge(most, "earth, refused: a network of 16,400 bytes");
        let none = !labels(net).any(|own| capitals(own) == capitals(label));
        for (number, name) in WRONG_LABEL_TOO {
            self.edge(v.number == number && none, name);
        }
    }

    fn no_label(&mut self, net: &[u8], label: &[u8]) {
        for (length, name) in LENGTHS {
            self.edge(label.len() == length, name);
        }
        let any = |is: &dyn Fn(&[u8]) -> bool| labels(net).any(|own| is(&capitals(own)));
        let typed = capitals(label);
        let cut = any(&|own| own[..11] == typed[..]);
        let padded = any(&|own| own[11] == b' ' && own[..11] == typed[..]);
        let bare = any(&|own| typed.len() < 11 && own.trim_ascii_end() == &typed[..]);
        let more = typed.len() == 13 && any(&|own| own == &typed[..12]);
        let space = label.last() == Some(&b' ');
        let in_fault = typed.len() == 20 && any(&|own| own == &typed[2..14]);
        self.edge(
            cut && !padded,
            "earth, refused: a label without its 12th letter",
        );
        self.edge(padded, "earth, refused: a label and a space too few");
        self.edge(bare, "earth, refused: a label without closing spaces");
        self.edge(more && space, "earth, refused: a label and a space more");
        self.edge(
            more && !space,
            "earth, refused: a label and another byte more",
        );
        self.edge(in_fault, "earth, refused: a whole fault");
        self.edge(label == [b' '; 12], "earth, refused: twelve spaces");
        let high = label.len() == 12 && label.iter().any(|c| !(0x20..0x7f).contains(c));
        self.edge(high, "earth, refused: a label of wrong form");
        let apart = |own: &[u8]| (0..12).filter(|&i| own[i] != typed[i]).count();
        let near = typed.len() == 12 && any(&|own| apart(own) == 1);
        self.edge(near, "earth, refused: a label one byte apart");
    }
}
