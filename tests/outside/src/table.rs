//! The refusal table by hand: one byte or two of the paper's network changed, and what must come
//! out written down beside it. These do not go through the maker, and no judge made them.

use crate::judge::Verdict;

/// Bytes to change: where, and to what.
type Edits = &'static [(usize, u8)];

/// What is done to the paper's network (140 bytes, records from 8, 52 and 96), to the fault (HALL,
/// kind 1, phase 0, Zf 0) and to the buffer's room (85).
pub struct Line {
    pub name: &'static str,
    pub net: Edits,
    pub net_length: usize,
    pub fault: Edits,
    pub fault_length: usize,
    pub room: usize,
    /// Number, place, whose, start, length.
    pub due: [u32; 5],
    /// A current flows to earth: there are amps.
    pub flows: bool,
}

impl Line {
    pub fn agrees(&self, v: &Verdict) -> bool {
        let n = if self.due[0] == 0 { 3 } else { 0 };
        let amps_fit = (v.amps > 0) == self.flows;
        let got = [v.number, v.place, v.whose, v.start, v.length];
        got == self.due && v.boards == n && amps_fit
    }
}

const fn net(name: &'static str, net: Edits, due: [u32; 5]) -> Line {
    Line {
        name,
        net,
        net_length: 140,
        fault: &[],
        fault_length: 20,
        room: 85,
        due,
        flows: due[0] == 0,
    }
}

const fn cut(name: &'static str, net_length: usize, due: [u32; 5]) -> Line {
    Line {
        net_length,
        ..net(name, &[], due)
    }
}

const fn fault(name: &'static str, fault: Edits, due: [u32; 5]) -> Line {
    Line {
        fault,
        ..net(name, &[], due)
    }
}

const fn fault_cut(fault_length: usize, due: [u32; 5]) -> Line {
    Line {
        fault_length,
        ..net("12: the fault's length", &[], due)
    }
}

const fn room(name: &'static str, room: usize, due: [u32; 5]) -> Line {
    Line {
        room,
        ..net(name, &[], due)
    }
}

const HALL: [u32; 5] = [0, 3, 1, 96, 44];
/// Source unearthed: kind 1, x0 and xn zero. GEN and BOOTH-WEST-1 lose their earth return, HALL keeps
/// its own.
const UNEARTHED: Edits = &[(34, 1), (46, 0), (50, 0)];

/// The fault brought to a board without earth return: no amps.
const fn no_return(name: &'static str, fault: Edits, room: usize, due: [u32; 5]) -> Line {
    Line {
        fault,
        room,
        flows: false,
        ..net(name, UNEARTHED, due)
    }
}

const GEN: [u32; 5] = [0, 1, 1, 8, 44];
const BOOTH: Edits = &[
    (2, b'B'),
    (3, b'O'),
    (4, b'O'),
    (5, b'T'),
    (6, b'H'),
    (7, b'-'),
    (8, b'W'),
    (9, b'E'),
    (10, b'S'),
    (11, b'T'),
    (12, b'-'),
    (13, b'1'),
];

/// The fault at GEN, of a kind and phase, with the low and high byte of each of Zf's parts.
macro_rules! at_gen {
    ($kind:literal, $phase:literal, $zf:expr) => {
        &[
            (2, b'G'),
            (3, b'E'),
            (4, b'N'),
            (5, b' '),
            (14, $kind),
            (15, $phase),
            (16, $zf[0]),
            (17, $zf[1]),
            (18, $zf[2]),
            (19, $zf[3]),
        ]
    };
}

/// 1,365 and 1,366 in x.
const MOST: [u8; 4] = [0, 0, 0x55, 5];
const OVER: [u8; 4] = [0, 0, 0x56, 5];
const NONE: [u8; 4] = [0; 4];

pub const HEAD: [Line; 12] = [
    net("taken as it stands", &[], HALL),
    cut("1: no bytes", 0, [1, 0, 1, 0, 0]),
    cut("1: seven bytes", 7, [1, 0, 1, 0, 7]),
    net("2: hD", &[(0, b'h')], [2, 0, 1, 0, 8]),
    net("3: volts 0", &[(2, 0)], [3, 0, 1, 0, 8]),
    net("3: volts 1,001", &[(2, 0xe9), (3, 3)], [3, 0, 1, 0, 8]),
    net("3: unit 9", &[(4, 9), (5, 0)], [3, 0, 1, 0, 8]),
    net("3: N 0", &[(6, 0)], [3, 0, 1, 0, 8]),
    cut("4: head alone", 8, [4, 0, 1, 0, 8]),
    cut("4: a byte short", 139, [4, 0, 1, 0, 8]),
    cut("4: a byte long", 141, [4, 0, 1, 0, 8]),
    net("4: N 2", &[(6, 2)], [4, 0, 1, 0, 8]),
];

pub const RECORDS: [Line; 20] = [
    net("5: record 2", &[(52, b'X')], [5, 2, 1, 52, 44]),
    net("6: begins with a space", &[(54, 32)], [6, 2, 1, 52, 44]),
    net("6: 0x7f", &[(98, 0x7f)], [6, 3, 1, 96, 44]),
    net(
        "7: HALL called GEN",
        &[(98, b'G'), (99, b'E'), (100, b'N'), (101, 32)],
        [7, 3, 1, 96, 44],
    ),
    net("8: record 1 has a feeder", &[(22, b'X')], [8, 1, 1, 8, 44]),
    net("8: GENX", &[(69, b'X')], [8, 2, 1, 52, 44]),
    net("9: cable with clock 1", &[(79, 1)], [9, 2, 1, 52, 44]),
    net("9: kind 4, clock 10", &[(123, 10)], [9, 3, 1, 96, 44]),
    net("9: kind 4, clock 13", &[(123, 13)], [9, 3, 1, 96, 44]),
    net("9: record 1 a cable", &[(34, 2)], [9, 1, 1, 8, 44]),
    net("9: record 2 a source", &[(78, 0)], [9, 2, 1, 52, 44]),
    net("9: kind 6", &[(122, 6)], [9, 3, 1, 96, 44]),
    net("10: z1 not z2", &[(80, 31)], [10, 2, 1, 52, 44]),
    net("10: source's z2 zero", &[(42, 0)], [10, 1, 1, 8, 44]),
    net("10: cable with zn", &[(94, 1)], [10, 2, 1, 52, 44]),
    net("10: x0 4,096", &[(134, 0), (135, 16)], [10, 3, 1, 96, 44]),
    // 20 + 4,076 in Z1 and Z2, then 20 + 4,075.
    net(
        "11: Z1 and Z2 4,096",
        &[(82, 0xec), (83, 15), (86, 0xec), (87, 15)],
        [11, 2, 1, 52, 44],
    ),
    net(
        "taken: Z1 and Z2 4,095",
        &[(82, 0xeb), (83, 15), (86, 0xeb), (87, 15)],
        HALL,
    ),
    // z0 + 3 zn of HALL: 20 + 3 1,359 = 4,097, and 20 + 3 1,358 = 4,094.
    net("11: Z0 4,097", &[(138, 0x4f), (139, 5)], [11, 3, 1, 96, 44]),
    net("taken: Z0 4,094", &[(138, 0x4e), (139, 5)], HALL),
];

/// A transformer without z1. HALL's z1 and z2 are j20, in the bytes 126 and 130; BOOTH-WEST-1's are
/// 30 + j10, from 80, and its z0 90 + j30, from 88.
#[rustfmt::skip]
pub const FORGOTTEN: [Line; 26] = [
    net("21: HALL", &[(126, 0), (130, 0)], [21, 3, 1, 96, 44]),
    net("21: HALL, no impedance at all", &[(126, 0), (130, 0), (134, 0)], [21, 3, 1, 96, 44]),
    net("taken: HALL's z1 = 1", &[(124, 1), (126, 0), (128, 1), (130, 0)], HALL),
    net("taken: HALL's z1 = j1", &[(126, 1), (130, 1)], HALL),
    net("taken: HALL's z1 = j256", &[(126, 0), (127, 1), (130, 0), (131, 1)], HALL),
    net("taken: HALL's z1 = 256", &[(125, 1), (126, 0), (129, 1), (130, 0)], HALL),
    net("10, not 21: z1 zero, z2 j20", &[(126, 0)], [10, 3, 1, 96, 44]),
    net("10: z1 j20, z2 zero", &[(130, 0)], [10, 3, 1, 96, 44]),
    net("10, not 21: x0 4,096", &[(126, 0), (130, 0), (134, 0), (135, 16)], [10, 3, 1, 96, 44]),
    // z0 + 3 zn 4,097.
    net("21, not 11: Z0 4,097", &[(126, 0), (130, 0), (138, 0x4f), (139, 5)], [21, 3, 1, 96, 44]),
    net("9, not 21: clock 10", &[(126, 0), (130, 0), (123, 10)], [9, 3, 1, 96, 44]),
    net("9, not 21: kind 6", &[(126, 0), (130, 0), (122, 6)], [9, 3, 1, 96, 44]),
    net("8, not 21: XEN", &[(126, 0), (130, 0), (110, b'X')], [8, 3, 1, 96, 44]),
    net("6, not 21: begins with a space", &[(126, 0), (130, 0), (98, 32)], [6, 3, 1, 96, 44]),
    net("5, not 21: record 3", &[(126, 0), (130, 0), (97, b'X')], [5, 3, 1, 96, 44]),
    net("taken: cable, z1 = z2 = 0", &[(80, 0), (82, 0), (84, 0), (86, 0)], HALL),
    net("taken: cable of no length", &[(80, 0), (82, 0), (84, 0), (86, 0), (88, 0), (90, 0)], HALL),
    net("taken: kind 3", &[(78, 3)], HALL),
    net("21: kind 3", &[(78, 3), (80, 0), (82, 0), (84, 0), (86, 0)], [21, 2, 1, 52, 44]),
    net("taken: kind 5", &[(78, 5), (88, 0), (90, 0)], HALL),
    net("21: kind 5", &[(78, 5), (80, 0), (82, 0), (84, 0), (86, 0), (88, 0), (90, 0)], [21, 2, 1, 52, 44]),
    net("10, not 21: kind 5 with z0", &[(78, 5), (80, 0), (82, 0), (84, 0), (86, 0)], [10, 2, 1, 52, 44]),
    net("21: the first of two", &[(78, 3), (80, 0), (82, 0), (84, 0), (86, 0), (126, 0), (130, 0)], [21, 2, 1, 52, 44]),
    net("10, not 21: source's z1 zero", &[(38, 0), (126, 0), (130, 0)], [10, 1, 1, 8, 44]),
    // Z1 and Z2 of BOOTH-WEST-1: 20 + 4,076.
    net("11 at 2, not 21 at 3", &[(82, 0xec), (83, 15), (86, 0xec), (87, 15), (126, 0), (130, 0)], [11, 2, 1, 52, 44]),
    net("21 at 2, not 11 at 3", &[(78, 3), (80, 0), (82, 0), (84, 0), (86, 0), (138, 0x4f), (139, 5)], [21, 2, 1, 52, 44]),
];

pub const FAULTS: [Line; 16] = [
    fault_cut(0, [12, 0, 2, 0, 0]),
    fault_cut(19, [12, 0, 2, 0, 19]),
    fault_cut(21, [12, 0, 2, 0, 21]),
    fault("13: fT", &[(0, b'f')], [13, 0, 2, 0, 20]),
    fault("14: HALX", &[(5, b'X')], [14, 0, 2, 0, 20]),
    fault("14: a wrong form", &[(2, 0)], [14, 0, 2, 0, 20]),
    fault("15: kind 4", &[(14, 4)], [15, 0, 2, 0, 20]),
    fault("15 before 16", &[(14, 4), (15, 9)], [15, 0, 2, 0, 20]),
    fault("16: phase 3", &[(15, 3)], [16, 0, 2, 0, 20]),
    fault("16: kind 0", &[(14, 0), (15, 1)], [16, 0, 2, 0, 20]),
    fault("17: r 1,366", &[(16, 0x56), (17, 5)], [17, 0, 2, 0, 20]),
    fault("taken: x 1,365", &[(18, 0x55), (19, 5)], HALL),
    net("taken: kind 4 starts afresh", UNEARTHED, HALL),
    room("19: 84 numbers", 84, [19, 0, 2, 0, 0]),
    room("19: none", 0, [19, 0, 2, 0, 0]),
    room("taken: 86 numbers", 86, HALL),
];

/// HALL called gEn, and fed by nobody besides.
const GEN_AGAIN: Edits = &[(98, b'g'), (99, b'E'), (100, b'n'), (101, 32)];
const GEN_UNFED: Edits = &[(98, b'g'), (99, b'E'), (100, b'n'), (101, 32), (110, 0)];

/// Letter case in labels. Labels stand from 10, 54 and 98, feeders from 66 and 110.
#[rustfmt::skip]
pub const TYPED: [Line; 14] = [
    fault("taken: hALL", &[(2, b'h')], HALL),
    fault("taken: HALl", &[(5, b'l')], HALL),
    fault("taken: hall", &[(2, b'h'), (3, b'a'), (4, b'l'), (5, b'l')], HALL),
    fault("14: hall with a letter more", &[(2, b'h'), (6, b'l')], [14, 0, 2, 0, 20]),
    fault("14: H!LL", &[(3, b'!')], [14, 0, 2, 0, 20]),
    fault("14: HALL closed with a 0", &[(6, 0)], [14, 0, 2, 0, 20]),
    net("taken: HALL is Hall on its board", &[(99, b'a'), (100, b'l'), (101, b'l')], HALL),
    net("taken: HALL fed by gEN", &[(110, b'g')], HALL),
    net("taken: GEN is geN on its board", &[(10, b'g'), (11, b'e')], HALL),
    net("7: HALL called gEn", GEN_AGAIN, [7, 3, 1, 96, 44]),
    net("7: HALL called gEn, fed by nobody", GEN_UNFED, [7, 3, 1, 96, 44]),
    net("8: HALL fed by gENX", &[(110, b'g'), (113, b'X')], [8, 3, 1, 96, 44]),
    net("8: HALL fed by hall", &[(110, b'h'), (111, b'a'), (112, b'l'), (113, b'l')], [8, 3, 1, 96, 44]),
    net("8: BOOTH-WEST-1 fed by hall", &[(66, b'h'), (67, b'a'), (68, b'l'), (69, b'l')], [8, 2, 1, 52, 44]),
];

/// 18 is withdrawn: what is asked of an earth fault without earth return is 12 to 17, then 19.
#[rustfmt::skip]
pub const NO_RETURN: [Line; 18] = [
    // These two were 18.
    no_return("no return, taken: BOOTH-WEST-1", BOOTH, 85, [0, 2, 1, 52, 44]),
    no_return("no return, 19: BOOTH-WEST-1", BOOTH, 0, [19, 0, 2, 0, 0]),
    no_return("no return, taken: kind 1", at_gen!(1, 0, NONE), 85, GEN),
    no_return("no return, taken: kind 1, phase c", at_gen!(1, 2, NONE), 86, GEN),
    no_return("no return, taken: kind 3", at_gen!(3, 0, NONE), 85, GEN),
    no_return("no return, taken: kind 3, phase b", at_gen!(3, 1, NONE), 300, GEN),
    no_return("no return, taken: x 1,365", at_gen!(1, 1, MOST), 85, GEN),
    no_return("no return, taken: x 1,365, kind 3", at_gen!(3, 2, MOST), 85, GEN),
    no_return("no return, 17: x 1,366", at_gen!(1, 0, OVER), 85, [17, 0, 2, 0, 20]),
    no_return("no return, 17: x 1,366, kind 3", at_gen!(3, 0, OVER), 85, [17, 0, 2, 0, 20]),
    no_return("no return, 17 before 19", at_gen!(1, 0, OVER), 0, [17, 0, 2, 0, 20]),
    no_return("no return, 16: phase 3", at_gen!(1, 3, OVER), 0, [16, 0, 2, 0, 20]),
    no_return("no return, 15: kind 5", at_gen!(5, 0, NONE), 85, [15, 0, 2, 0, 20]),
    no_return("no return, 19: 84 numbers", at_gen!(1, 0, NONE), 84, [19, 0, 2, 0, 0]),
    no_return("no return, 19: 84 numbers, kind 3", at_gen!(3, 0, NONE), 84, [19, 0, 2, 0, 0]),
    no_return("no return, 19: none", at_gen!(1, 0, MOST), 0, [19, 0, 2, 0, 0]),
    no_return("no return, 19: 13 numbers", at_gen!(3, 1, NONE), 13, [19, 0, 2, 0, 0]),
    Line { fault_length: 19, ..no_return("no return, 12: 19 bytes", at_gen!(1, 0, NONE), 0, [12, 0, 2, 0, 19]) },
];
