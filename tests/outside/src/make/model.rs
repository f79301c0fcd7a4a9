//! What a case is made of before it becomes bytes. Fields take any value, sound or not.

#[derive(Clone)]
pub struct Rec {
    pub mark: [u8; 2],
    pub label: [u8; 12],
    pub feeder: [u8; 12],
    pub kind: u8,
    pub clock: u8,
    /// r and x of z1, z2, z0, zn.
    pub z: [u16; 8],
}

impl Rec {
    /// From the 44 bytes of a record, whatever they say.
    pub fn read(bytes: &[u8]) -> Rec {
        let word = |i: usize| u16::from_le_bytes([bytes[28 + 2 * i], bytes[29 + 2 * i]]);
        Rec {
            mark: [bytes[0], bytes[1]],
            label: std::array::from_fn(|i| bytes[2 + i]),
            feeder: std::array::from_fn(|i| bytes[14 + i]),
            kind: bytes[26],
            clock: bytes[27],
            z: std::array::from_fn(word),
        }
    }

    pub fn bytes(&self) -> Vec<u8> {
        let mut out = self.mark.to_vec();
        out.extend(self.label);
        out.extend(self.feeder);
        out.extend([self.kind, self.clock]);
        out.extend(self.z.iter().flat_map(|z| z.to_le_bytes()));
        out
    }
}

/// A network and a fault that can still be changed, and where the tree's branches are.
#[derive(Clone)]
pub struct Draft {
    pub mark: [u8; 2],
    pub volts: u16,
    pub unit: u16,
    pub count: u16,
    pub recs: Vec<Rec>,
    /// The feeder's index, as first drawn.
    pub up: Vec<Option<usize>>,
    /// Length of the network in bytes if it is not what the records give.
    pub net_length: Option<usize>,
    pub fault_mark: [u8; 2],
    pub fault_label: [u8; 12],
    pub fault_kind: u8,
    pub phase: u8,
    pub zf: [u16; 2],
    pub fault_length: Option<usize>,
    pub room: usize,
    /// Bytes that a lengthened file goes on with.
    pub filler: u8,
}

impl Draft {
    pub fn net_bytes(&self) -> Vec<u8> {
        let mut out = self.mark.to_vec();
        for w in [self.volts, self.unit, self.count] {
            out.extend(w.to_le_bytes());
        }
        for rec in &self.recs {
            out.extend(rec.bytes());
        }
        if let Some(length) = self.net_length {
            out.resize(length, self.filler);
        }
        out
    }

    pub fn fault_bytes(&self) -> Vec<u8> {
        let mut out = self.fault_mark.to_vec();
        out.extend(self.fault_label);
        out.extend([self.fault_kind, self.phase]);
        out.extend(self.zf.iter().flat_map(|z| z.to_le_bytes()));
        if let Some(length) = self.fault_length {
            out.resize(length, self.filler);
        }
        out
    }

    /// Another name for a board, by which those that it feeds mean it too.
    pub fn rename(&mut self, r: usize, name: [u8; 12]) {
        self.recs[r].label = name;
        self.refeed(r, name);
    }

    /// What those that it feeds call a board.
    pub fn refeed(&mut self, r: usize, name: [u8; 12]) {
        for (rec, up) in self.recs.iter_mut().zip(&self.up) {
            if *up == Some(r) {
                rec.feeder = name;
            }
        }
    }

    /// The records that are not on a board's chain, as first drawn.
    pub fn off_chain(&self, board: usize) -> Vec<usize> {
        let chain = std::iter::successors(Some(board), |&r| self.up[r]);
        let chain: Vec<usize> = chain.collect();
        let all = 0..self.recs.len();
        all.filter(|r| !chain.contains(r)).collect()
    }

    /// Sums of a board as the maker keeps them, to come close to the limits.
    pub fn sums(&self, r: usize) -> Sums {
        let above = self.up[r].map_or(Sums::default(), |u| self.sums(u));
        above.with(&self.recs[r])
    }
}

/// r and x of Z1 and Z2, and of Z0 where there is one.
#[derive(Clone, Copy, Default)]
pub struct Sums(pub [u32; 4], pub Option<[u32; 2]>);

impl Sums {
    /// The sums of a board fed by this record from here.
    pub fn with(&self, rec: &Rec) -> Sums {
        let z = rec.z.map(u32::from);
        let own = [z[4] + 3 * z[6], z[5] + 3 * z[7]];
        let earth = match rec.kind {
            0 | 4 => Some(own),
            2 | 3 => self.1.map(|e| [e[0] + own[0], e[1] + own[1]]),
            _ => None,
        };
        Sums(std::array::from_fn(|i| self.0[i] + z[i]), earth)
    }
}
