//! The sentences of the paper that are easy to get wrong, as values.
//!
//! `AS_WRITTEN` is what the paper says. The other values exist only so that `outside faults` can
//! put one wrong sentence in at a time and show that the test sees it.

/// What the writer tests, each before the next.
#[derive(Clone, Copy)]
pub enum WriterTest {
    /// 3: volts, unit, the number of boards.
    Head,
    /// 6 to 11 and 21, record by record.
    Boards,
    /// 20: the output is shorter than the file.
    Room,
}

/// What W0 is in a kind 3 fault without earth return.
#[derive(Clone, Copy)]
pub enum Rise {
    /// The faulted board's W1: the one that the paper means.
    FaultedW1,
    /// Each board's own.
    OwnW1,
    MinusFaultedW1,
    One,
}

/// earth faults, kinds 1 and 3, at a board without earth return.
#[derive(Clone, Copy)]
pub struct Unearthed {
    /// They are answered: 18 is withdrawn.
    pub answered: bool,
    /// Want of room is still 19; 18 is never used again.
    pub room_number: u32,
    /// Zf has no effect, and 17 asks for it all the same.
    pub zf_tested: bool,
    /// These rules hold without earth return only; otherwise at every board.
    pub no_return_only: bool,
    /// The fault kinds they are for.
    pub faults: &'static [u8],
    /// Records of these kinds join their board to its feeder ..
    pub joining: &'static [u8],
    /// .. for one who comes from below, for one who comes from above, and on from there.
    pub joins_up: bool,
    pub joins_down: bool,
    pub joins_far: bool,
    /// W0 changes at the joined boards only, not at all boards without earth return.
    pub joined_only: bool,
    /// W0 of kind 1.
    pub w0: i128,
    /// W0 of kind 3.
    pub rise: Rise,
    /// W0 is of the odd phase, as W1 and W2 are, and is turned with them where it is shown.
    pub w0_turned: bool,
    /// In kind 1 no current flows, not even through Zf.
    pub dead: bool,
    /// How often Zf counts in kind 3 (0).
    pub zf_times: i128,
    /// Kind 3's amps are those of the earth current still, not kind 2's.
    pub earth_amps: bool,
}

/// Where demand 3 is given that a board without earth return has zero-sequence voltage zero. Only
/// `laws` and `solve` ask.
#[derive(Clone, Copy)]
pub enum Premise {
    /// With an earth fault without earth return not at k and the boards joined to it.
    AsWritten,
    /// As before R-2.
    Everywhere,
    Nowhere,
    /// Left out at k, kept at the boards joined to it.
    NotAtK,
    /// Left out at k and the boards joined to it, whatever the fault.
    AnyFault,
}

/// When labels are equal: all twelve bytes agree after a to z are read as A to Z.
#[derive(Clone, Copy)]
pub struct Labels {
    /// Bytes that count, from the first on.
    pub count: usize,
    /// The rules that read them so; a rule that is not named compares them as typed.
    pub rules: &'static [u32],
    /// Bytes that are read as others: the first and the last of a row, and how much lower.
    pub lowered: &'static [(u8, u8, u8)],
    /// At which of the twelve bytes: from this one on, counted from 0, and before that one.
    pub places: (usize, usize),
    /// The label that is looked for is read so, and the earlier one that it is held against.
    pub sought: bool,
    pub held: bool,
}

impl Labels {
    /// What a rule compares of the label that it looks for.
    pub fn sought(&self, rule: u32, label: &[u8]) -> [u8; 12] {
        self.compared(label, self.sought && self.rules.contains(&rule))
    }

    /// What it compares of each label that it may find.
    pub fn held(&self, rule: u32, label: &[u8]) -> [u8; 12] {
        self.compared(label, self.held && self.rules.contains(&rule))
    }

    fn compared(&self, label: &[u8], lowered: bool) -> [u8; 12] {
        let (from, before) = self.places;
        std::array::from_fn(|i| match label[i] {
            // Those that do not count are all one.
            _ if i >= self.count => b' ',
            c if lowered && from <= i && i < before => self.read(c),
            c => c,
        })
    }

    fn read(&self, c: u8) -> u8 {
        let mut rows = self.lowered.iter();
        let row = rows.find(|(first, last, _)| (*first..=*last).contains(&c));
        row.map_or(c, |(_, _, lower)| c - lower)
    }
}

/// Which record an answer of R-4 names.
#[derive(Clone, Copy)]
pub enum Named {
    /// The one that the paper means: where the zero sequence starts, or what stops it.
    Deciding,
    /// That one's feeder; the source has none, and stays.
    ItsFeeder,
    Board,
    Source,
}

/// why there is no earth return.
#[derive(Clone, Copy)]
pub struct EarthReturn {
    /// Kinds of record where the zero sequence starts, and that stop it; the others let it on.
    pub starts: &'static [u8],
    pub stops: &'static [u8],
    /// Of several that stop it the nearest to the board counts; otherwise the nearest to the source.
    pub nearest: bool,
    pub named: Named,
    /// Only a label of twelve bytes can be a board's; otherwise a shorter one is closed with spaces,
    /// or a longer one cut.
    pub short_refused: bool,
    pub long_refused: bool,
}

/// Where 21 is tested.
#[derive(Clone, Copy)]
pub enum Turn {
    /// On each record behind this rule; the paper means 10.
    Behind(u32),
    /// On all records before any other rule of theirs, and when all of these are done with.
    BeforeAll,
    AfterAll,
}

/// Which forgotten transformers are seen.
#[derive(Clone, Copy)]
pub enum Seen {
    /// The one that the paper means: each, so that the first is named.
    Every,
    /// The last of them only.
    Last,
    /// Only one that is the first transformer of the file.
    FirstTransformer,
}

/// transformers whose z1 is forgotten.
#[derive(Clone, Copy)]
pub struct Forgotten {
    /// 21.
    pub number: u32,
    pub turn: Turn,
    /// The kinds that must have a z1.
    pub kinds: &'static [u8],
    /// Which of r and x of z1, z2, z0, zn are zero then, all of them: both of z1.
    pub zero: &'static [usize],
    pub seen: Seen,
}

#[derive(Clone, Copy)]
pub struct Paper {
    /// How often zn counts in a zero-sequence term (3).
    pub zn_times: i128,
    /// How often Zf counts in G (3).
    pub zf_times: i128,
    /// Kind 4 starts the zero sequence afresh.
    pub kind4_starts: bool,
    /// The negative sequence is turned against the positive (-1), or with it (+1).
    pub negative_turn: i64,
    /// The board side lags (+1) its feeder side.
    pub lag: i64,
    ///
    pub labels: Labels,
    /// A label used twice is refused (7); otherwise the later entry wins.
    pub labels_unique: bool,
    /// 7 asks for a label used earlier; otherwise one used anywhere else will do.
    pub looks_back: bool,
    /// No earth return is "none", not an impedance of zero.
    pub none_is_none: bool,
    /// Zero sequence is shared only under the same starting record.
    pub same_start_only: bool,
    /// Rules tested in another order than the table's: this one and the next exchanged, 21 aside (0: none).
    pub exchanged: u32,
    /// All of 5 to 11, and 21, are tried on a record before the next is looked at.
    pub record_by_record: bool,
    /// z2 of the source is its own, not z1 again.
    pub own_z2: bool,
    /// Amps are cut down.
    pub amps_cut: bool,
    /// Largest part of Zf.
    pub zf_most: u16,
    /// Largest part of a sum.
    pub sum_most: i128,
    /// Phase of a fault matters.
    pub phase_counts: bool,
    /// Most boards of a network.
    pub most_boards: usize,
    /// The writer's tests in their order.
    pub writer_tests: [WriterTest; 3],
    /// Bytes that an output must have beyond the file.
    pub spare_room: usize,
    /// Kind 5 keeps zero sequence out.
    pub kind5_blocks: bool,
    ///
    pub unearthed: Unearthed,
    ///
    pub earth: EarthReturn,
    ///
    pub forgotten: Forgotten,
}

impl Paper {
    pub const AS_WRITTEN: Paper = Paper {
        zn_times: 3,
        zf_times: 3,
        kind4_starts: true,
        negative_turn: -1,
        lag: 1,
        labels: Labels {
            count: 12,
            rules: &[7, 8, 14],
            lowered: &[(b'a', b'z', 0x20)],
            places: (0, 12),
            sought: true,
            held: true,
        },
        labels_unique: true,
        looks_back: true,
        none_is_none: true,
        same_start_only: true,
        exchanged: 0,
        record_by_record: true,
        own_z2: true,
        amps_cut: true,
        zf_most: 1365,
        sum_most: 4095,
        phase_counts: true,
        most_boards: 256,
        writer_tests: [WriterTest::Head, WriterTest::Boards, WriterTest::Room],
        spare_room: 0,
        kind5_blocks: true,
        unearthed: Unearthed {
            answered: true,
            room_number: 19,
            zf_tested: true,
            no_return_only: true,
            faults: &[1, 3],
            joining: &[2, 3],
            joins_up: true,
            joins_down: true,
            joins_far: true,
            joined_only: true,
            w0: -1,
            rise: Rise::FaultedW1,
            w0_turned: true,
            dead: true,
            zf_times: 0,
            earth_amps: true,
        },
        earth: EarthReturn {
            starts: &[0, 4],
            stops: &[1, 5],
            nearest: true,
            named: Named::Deciding,
            short_refused: true,
            long_refused: true,
        },
        forgotten: Forgotten {
            number: 21,
            turn: Turn::Behind(10),
            kinds: &[3, 4, 5],
            zero: &[0, 1],
            seen: Seen::Every,
        },
    };

    /// The rules from `first` to `last` in the order they are tested. 18 is withdrawn, so the
    /// next after 17 is 19.
    pub fn order(&self, first: u32, last: u32) -> Vec<u32> {
        let stands = |&rule: &u32| rule != 18 || !self.unearthed.answered;
        let mut rules: Vec<u32> = (first..=last).filter(stands).collect();
        let at = rules.iter().position(|&rule| rule == self.exchanged);
        if let Some(i) = at.filter(|i| i + 1 < rules.len()) {
            rules.swap(i, i + 1);
        }
        rules
    }

    /// The rules of a record, from `first` to 11 and 21 in its turn, as lists. A list is tried on all
    /// records before the next list; on a record all of it before the next record.
    pub fn passes(&self, first: u32) -> Vec<Vec<u32>> {
        let mut rules = self.order(first, 11);
        let passes = match self.forgotten.turn {
            Turn::Behind(rule) => {
                let at = rules.iter().position(|&r| r == rule);
                rules.insert(at.map_or(0, |i| i + 1), 21);
                vec![rules]
            }
            Turn::BeforeAll => vec![vec![21], rules],
            Turn::AfterAll => vec![rules, vec![21]],
        };
        if self.record_by_record {
            return passes;
        }
        passes.concat().iter().map(|&rule| vec![rule]).collect()
    }
}

#[cfg(test)]
mod tests {
    use super::Paper;

    /// The standard library's comparison, which `plan` goes by, says the same of every two bytes.
    #[test]
    fn bytes_are_equal_in_two_ways() {
        let labels = Paper::AS_WRITTEN.labels;
        for (x, y) in (0..=255u8).flat_map(|x| (0..=255u8).map(move |y| (x, y))) {
            for (rule, place) in [(7, 0), (8, 7), (14, 11)] {
                let [mut a, mut b] = [*b"Booth-WEST-1"; 2];
                (a[place], b[place]) = (x, y);
                let equal = labels.sought(rule, &a) == labels.held(rule, &b);
                assert_eq!(equal, a.eq_ignore_ascii_case(&b), "{x:#x} {y:#x}");
            }
        }
    }
}
