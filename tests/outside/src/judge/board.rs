//! A board decoded: all that its record says but the mark, sound or not; the rules come later.

use crate::ring::Num;

/// Bytes of the head and of a board's record.
pub const HEAD: usize = 8;
pub const RECORD: usize = 44;

#[derive(Clone, Debug, PartialEq, Eq)]
pub struct Board {
    pub label: [u8; 12],
    pub feeder: [u8; 12],
    pub kind: u8,
    pub clock: u8,
    /// r and x of z1, z2, z0, zn.
    pub parts: [u16; 8],
}

pub fn word(bytes: &[u8], at: usize) -> u16 {
    u16::from_le_bytes([bytes[at], bytes[at + 1]])
}

impl Board {
    /// From the 44 bytes of a record; the mark is not looked at.
    pub fn decode(record: &[u8]) -> Board {
        Board {
            label: std::array::from_fn(|i| record[2 + i]),
            feeder: std::array::from_fn(|i| record[14 + i]),
            kind: record[26],
            clock: record[27],
            parts: std::array::from_fn(|i| word(record, 28 + 2 * i)),
        }
    }

    /// All of them, from records in a row.
    pub fn decode_all(records: &[u8]) -> Vec<Board> {
        records.chunks_exact(RECORD).map(Board::decode).collect()
    }

    /// Impedance 0 to 3: z1, z2, z0, zn.
    pub fn z(&self, which: usize) -> Num {
        let p = &self.parts[2 * which..];
        Num::ohms(p[0].into(), p[1].into())
    }
}
