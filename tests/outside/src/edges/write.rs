//! Edges that cases of `write` have met.

use super::{part, Edges};
use crate::make::WriteCase;
use crate::write::{file_length, Written};

/// A refusal while the output is too short as well: 20 must not come first.
const SHORT_TOO: [(u32, &str); 8] = [
    (3, "unwritten: 3, and 20 too"),
    (6, "unwritten: 6, and 20 too"),
    (7, "unwritten: 7, and 20 too"),
    (8, "unwritten: 8, and 20 too"),
    (9, "unwritten: 9, and 20 too"),
    (10, "unwritten: 10, and 20 too"),
    (21, "unwritten: 21, and 20 too"),
    (11, "unwritten: 11, and 20 too"),
];

/// The names of a rule's refusals at record 1, one between, the last.
macro_rules! at {
    ($rule:literal) => {
        [
            concat!("unwritten: ", $rule, " at record 1"),
            concat!("unwritten: ", $rule, " between"),
            concat!("unwritten: ", $rule, " at the last record"),
        ]
    };
}

const PLACES: [(u32, [&str; 3]); 6] = [
    (6, at!("6")),
    (7, at!("7")),
    (8, at!("8")),
    (9, at!("9")),
    (10, at!("10")),
    (11, at!("11")),
];

impl Edges {
    pub fn look_written(&mut self, case: &WriteCase, v: &Written) {
        let count = case.boards.len() / 44;
        match v.number {
            0 => {
                self.written_head(case, count);
                self.written_boards(case);
            }
            3 => self.unwritten_head(case, count),
            20 => self.unwritten_room(case, count),
            _ => self.unwritten_board(case, v),
        }
        let short = case.room < file_length(count);
        for (number, name) in SHORT_TOO {
            self.edge(v.number == number && short, name);
        }
        self.places(v, count);
    }

    fn places(&mut self, v: &Written, count: usize) {
        let last = count as u32;
        for (number, [first, between, end]) in PLACES {
            let (due, r) = (v.number == number, v.place);
            // No earlier label can be used again in record 1.
            if number != 7 {
                self.edge(due && r == 1, first);
            }
            self.edge(due && r > 1 && r < last, between);
            self.edge(due && r > 1 && r == last, end);
        }
    }

    fn written_head(&mut self, case: &WriteCase, count: usize) {
        let need = file_length(count);
        self.edge(case.volts == 1, "written: volts 1");
        self.edge(case.volts == 1000, "written: volts 1000");
        self.edge(case.unit == 10, "written: unit 10");
        self.edge(case.unit == 1000, "written: unit 1000");
        self.edge(count == 1, "written: N 1");
        self.edge(count == 255, "written: N 255");
        self.edge(count == 256, "written: N 256");
        self.edge(case.room == need, "written: output exact");
        self.edge(case.room == need + 1, "written: output one longer");
        self.edge(case.room > need + 1000, "written: output much longer");
    }

    fn written_boards(&mut self, case: &WriteCase) {
        let mut other_mark = false;
        for b in case.boards.chunks(44) {
            other_mark |= &b[..2] != b"BD";
            self.edge(b[26] < 2, "written: a source");
            self.edge(b[26] >= 2, "written: a board that is fed");
            self.edge(b[13] != b' ', "written: label of 12 letters");
            self.edge(b[3] == b' ', "written: label of 1 letter");
            let full = |i: usize| part(b, i) == 4095;
            self.edge((0..6).any(full), "written: part of z1, z2, z0 4095");
            self.edge((6..8).any(full), "written: part of zn 4095");
        }
        self.edge(other_mark, "written: given with other marks");
    }

    fn unwritten_head(&mut self, case: &WriteCase, count: usize) {
        let (volts, unit) = (case.volts, case.unit);
        self.edge(volts == 0, "unwritten: volts 0");
        self.edge(volts == 1001, "unwritten: volts 1001");
        self.edge(volts == 65535, "unwritten: volts 65535");
        self.edge(unit == 9, "unwritten: unit 9");
        self.edge(unit == 1001, "unwritten: unit 1001");
        self.edge(unit == 65535, "unwritten: unit 65535");
        self.edge(count == 0, "unwritten: N 0");
        self.edge(count == 257, "unwritten: N 257");
        self.edge(count == 372, "unwritten: N 372");
        let just = (1..=1000).contains(&volts) && (10..=1000).contains(&unit);
        self.edge(just, "unwritten: the number of boards alone");
    }

    fn unwritten_room(&mut self, case: &WriteCase, count: usize) {
        let need = file_length(count);
        self.edge(case.room == 0, "unwritten: no output");
        self.edge(case.room + 1 == need, "unwritten: output one short");
        self.edge(case.room == 8, "unwritten: output of a head");
        self.edge(count == 256, "unwritten: 20 with N 256");
    }

    fn unwritten_board(&mut self, case: &WriteCase, v: &Written) {
        let (n, from) = (v.number, 44 * (v.place as usize - 1));
        let b = &case.boards[from..from + 44];
        let high = |bytes: &[u8]| !bytes.is_ascii();
        self.edge(n == 6 && high(&b[2..14]), "unwritten: label over 127");
        self.edge(n == 8 && high(&b[14..26]), "unwritten: feeder over 127");
        self.edge(n == 9 && b[26] == 6, "unwritten: kind 6");
        self.edge(n == 9 && b[26] == 255, "unwritten: kind 255");
        self.edge(n == 9 && b[27] == 12, "unwritten: clock 12");
        let any = |x: u16| n == 10 && (0..8).any(|i| part(b, i) == x);
        self.edge(any(4096), "unwritten: part 4096");
        self.edge(any(65535), "unwritten: part 65535");
        let later = case.boards[from + 44..].chunks(44);
        let wrong_later = later.filter(|l| l[26] > 5).count() > 0;
        self.edge(wrong_later, "unwritten: and a later board is wrong too");
    }
}
