//! Ranjupeli for Rust: short circuits of a radial network, answered exactly or refused by the first rule broken ([`solve`]);
//! the file of a network, written from its boards or refused by the same rules ([`write()`]);
//! and the record that a board's earth return comes from, or the one that stops it ([`earth`]).
//!
//! Three safe functions over `libranjupeli.a`, whose code is proved. Links on x86-64 Linux alone. They allocate nothing, keep
//! nothing between calls and start no thread. [`solve`] and [`earth`] take less than 20 KB of stack ([`STACK`]), [`write()`] less than
//! 32 KB ([`WRITE_STACK`]): give a thread that calls them 32 KB or more, one that writes 48 KB.

/// The bytes of stack that a call of [`solve`] or [`earth`] takes less than.
pub const STACK: usize = 20 * 1024;

/// The bytes of stack that a call of [`write()`] takes less than.
pub const WRITE_STACK: usize = 32 * 1024;

/// The numbers that a buffer needs for `boards` boards.
pub const fn numbers(boards: usize) -> usize {
    13 + 24 * boards
}

/// The numbers that a buffer needs for the largest network.
pub const MOST: usize = numbers(256);

/// The bytes of a network file of `boards` boards.
pub const fn file(boards: usize) -> usize {
    8 + 44 * boards
}

/// The bytes of the longest network file.
pub const LONGEST: usize = file(256);

/// What an answer's number says: 0, or the rule that was broken first, in the order in which they are tested.
/// [`solve`] gives 0 to 17, 19 and 21, [`write()`] 0, 3, 6 to 11, 20 and 21, [`earth`] 0 to 11, 14 and 21.
/// No answer has 18 any more, and none will: it refused earth faults at boards without earth return, which are answered now.
#[non_exhaustive]
#[repr(u8)]
#[derive(Clone, Copy, Debug, PartialEq, Eq, Hash)]
pub enum Outcome {
    Accepted = 0,
    /// Network under 8 bytes.
    ShortNetwork = 1,
    /// Head mark.
    HeadMark = 2,
    /// Volts, unit or N.
    HeadValues = 3,
    /// Length not 8 + 44 N.
    NetworkLength = 4,
    /// Board mark.
    BoardMark = 5,
    /// Form of a record's own label.
    LabelForm = 6,
    /// Label used earlier, in any case: `Hall` and `HALL` are the same.
    LabelUsed = 7,
    /// Feeder: none of the source, an earlier label of others.
    Feeder = 8,
    /// Kind or clock, or kind in the wrong record.
    KindOrClock = 9,
    /// Impedance over 4,095 or against the kind's rule.
    Impedance = 10,
    /// Transformer (kinds 3 to 5) with z1 zero: tested behind 10, before 11.
    Forgotten = 21,
    /// Part of Z1, Z2 or an existing Z0 over 4,095.
    Sum = 11,
    /// Fault not 20 bytes.
    FaultLength = 12,
    /// Fault mark.
    FaultMark = 13,
    /// No board has the label, in any case; one that is not of twelve bytes is no board's.
    UnknownBoard = 14,
    /// Fault kind over 3.
    FaultKind = 15,
    /// Phase over 2, or kind 0 with phase not 0.
    FaultPhase = 16,
    /// Part of Zf over 1,365.
    FaultImpedance = 17,
    /// Buffer under 13 + 24 N numbers.
    ShortBuffer = 19,
    /// Output shorter than the file.
    ShortOutput = 20,
}

const OUTCOMES: [Outcome; 21] = [
    Outcome::Accepted,
    Outcome::ShortNetwork,
    Outcome::HeadMark,
    Outcome::HeadValues,
    Outcome::NetworkLength,
    Outcome::BoardMark,
    Outcome::LabelForm,
    Outcome::LabelUsed,
    Outcome::Feeder,
    Outcome::KindOrClock,
    Outcome::Impedance,
    Outcome::Forgotten,
    Outcome::Sum,
    Outcome::FaultLength,
    Outcome::FaultMark,
    Outcome::UnknownBoard,
    Outcome::FaultKind,
    Outcome::FaultPhase,
    Outcome::FaultImpedance,
    Outcome::ShortBuffer,
    Outcome::ShortOutput,
];

impl Outcome {
    /// None: no answer has this number.
    pub fn from_number(number: u8) -> Option<Outcome> {
        OUTCOMES.into_iter().find(|o| *o as u8 == number)
    }

    /// What it says, for a reader.
    pub const fn sentence(self) -> &'static str {
        match self {
            Outcome::Accepted => "accepted: the question is answered, or the file is written",
            Outcome::ShortNetwork => "the network has under 8 bytes",
            Outcome::HeadMark => "the head does not begin with HD",
            Outcome::HeadValues => "the volts, the unit or the number of boards is out of its range",
            Outcome::NetworkLength => "the network does not have 8 + 44 N bytes",
            Outcome::BoardMark => "a record does not begin with BD",
            Outcome::LabelForm => "a record's own label has a wrong form",
            Outcome::LabelUsed => "a label is used by an earlier record",
            Outcome::Feeder => "the source has a feeder, or a record's feeder is no earlier label",
            Outcome::KindOrClock => "a record's kind or clock is wrong, or the kind stands in the wrong record",
            Outcome::Impedance => "an impedance is over 4,095 or against the rule of the record's kind",
            Outcome::Forgotten => "a transformer has no impedance: z1 is zero",
            Outcome::Sum => "a part of an impedance summed over a board's chain is over 4,095",
            Outcome::FaultLength => "the fault does not have 20 bytes",
            Outcome::FaultMark => "the fault does not begin with FT",
            Outcome::UnknownBoard => "no board has the label",
            Outcome::FaultKind => "the fault's kind is over 3",
            Outcome::FaultPhase => "the fault's phase is over 2, or not 0 in a fault of all three phases",
            Outcome::FaultImpedance => "a part of the fault's impedance is over 1,365",
            Outcome::ShortBuffer => "the buffer has under 13 + 24 N numbers",
            Outcome::ShortOutput => "the output is shorter than the file",
        }
    }
}

/// The bytes that an answer speaks of.
#[derive(Clone, Copy, Debug, PartialEq, Eq)]
pub enum Lent {
    Network,
    Fault,
}

/// Accepted: `number` 0, the place of the faulted board (from 1), N, the amps, and that board's record.
/// Refused: the number of the rule, the place that it names (0: none), N = 0, amps = 0, and the bytes that it shows.
#[derive(Clone, Copy, Debug, PartialEq, Eq)]
pub struct Answer {
    pub number: u8,
    pub place: u16,
    pub n: u16,
    pub amps: u64,
    pub whose: Lent,
    pub start: usize,
    pub len: usize,
}

/// An impedance r + jx, in counts: a count is as many microohms as the unit says.
#[repr(C)]
#[derive(Clone, Copy, Debug, Default, PartialEq, Eq, Hash)]
pub struct Ohms {
    pub r: u16,
    pub x: u16,
}

/// What a board is, or hangs on.
pub mod kind {
    /// A set or a mains connection, star point earthed; only the first board.
    pub const SOURCE: u8 = 0;
    /// A set whose star point floats; only the first board.
    pub const FLOATING_SOURCE: u8 = 1;
    /// A cable, a busbar, a distributor lead.
    pub const CABLE: u8 = 2;
    /// A transformer star/star, both star points earthed.
    pub const STAR_STAR: u8 = 3;
    /// A transformer, delta at the feeder, earthed star at the board.
    pub const DELTA_STAR: u8 = 4;
    /// A transformer that keeps earth current out on both sides.
    pub const BLOCKING: u8 = 5;
}

/// A board, and the cable or transformer that feeds it. The source stands first, every other board after its feeder.
#[repr(C)]
#[derive(Clone, Copy, Debug, Default, PartialEq, Eq, Hash)]
pub struct Board {
    /// Of the set, cable or transformer, in positive sequence: what its data sheet gives; only a cable's may be zero.
    pub z1: Ohms,
    /// In negative sequence: as z1, but for a set.
    pub z2: Ohms,
    /// In zero sequence, with the way back through the protective conductor: often several times z1.
    pub z0: Ohms,
    /// Between star point and earth, entered once; 0 for a plain strap, and for a cable.
    pub zn: Ohms,
    /// What is written on it ([`label`]); no earlier board has the same, A and a being the same.
    pub label: [u8; 12],
    /// The label of the board that feeds it, in any case; `label("")` for the source.
    pub feeder: [u8; 12],
    /// One of [`kind`].
    pub kind: u8,
    /// The number of a transformer's vector group (Dyn11: 11); 0 for sources, cables and star/star.
    pub clock: u8,
}

// As the archive lays them out.
const _: () = assert!(std::mem::size_of::<Board>() == 42 && std::mem::align_of::<Board>() == 2);
const _: () = assert!(std::mem::offset_of!(Board, label) == 16 && std::mem::offset_of!(Board, feeder) == 28 && std::mem::offset_of!(Board, kind) == 40);

/// A text as a label: 1 to 12 visible characters, spaces behind them. One of more than twelve bytes is not cut, for that could
/// name another board: it becomes zeros, and so a label of wrong form (6), no board's feeder (8) and no board's label (14).
pub const fn label(text: &str) -> [u8; 12] {
    let text = text.as_bytes();
    if text.len() > 12 {
        return [0; 12];
    }
    let mut label = [b' '; 12];
    let mut i = 0;
    while i < text.len() {
        label[i] = text[i];
        i += 1;
    }
    label
}

/// Accepted: `number` 0, place 0 and the file's length.
/// Refused: the number of the rule, the board that breaks it (from 1; 0: none), `len` = 0.
#[repr(C)]
#[derive(Clone, Copy, Debug, PartialEq, Eq)]
pub struct Written {
    pub len: usize,
    pub place: u16,
    pub number: u8,
}

/// Whether a board has an earth return, and which record (from 1) to thank or to blame.
#[derive(Clone, Copy, Debug, PartialEq, Eq)]
pub enum EarthReturn<'a> {
    /// Earth return from this record: the board's zero sequence starts there.
    From(u16),
    /// None, stopped at this record: the nearest from the board to the source that is a floating source or a blocking transformer.
    Stopped(u16),
    /// The rule that was broken first, the place that it names (0: none), and the bytes that it shows, of the network or of the label.
    Refused { outcome: Outcome, place: u16, shown: &'a [u8] },
}

// As the archive lays it out.
#[repr(C)]
struct Reply {
    amps: u64,
    start: usize,
    len: usize,
    place: u16,
    n: u16,
    number: u8,
    owner: u8,
}

// As the archive lays it out.
#[repr(C)]
struct EarthReply {
    start: usize,
    len: usize,
    place: u16,
    number: u8,
    owner: u8,
    earthed: u8,
}

const _: () = assert!(std::mem::size_of::<EarthReply>() == 24 && std::mem::offset_of!(EarthReply, place) == 16 && std::mem::offset_of!(EarthReply, earthed) == 20);

#[link(name = "ranjupeli", kind = "static")]
extern "C" {
    fn ranjupeli_solve(network: *const u8, network_len: usize, fault: *const u8, fault_len: usize, buffer: *mut i64, buffer_len: usize) -> Reply;
    fn ranjupeli_write(volts: u16, unit: u16, boards: *const Board, boards_len: usize, out: *mut u8, out_len: usize) -> Written;
    fn ranjupeli_earth(network: *const u8, network_len: usize, label: *const u8, label_len: usize) -> EarthReply;
}

/// Answers in the buffer, which needs `numbers(N)` places, or refuses and writes nothing. Any bytes and any buffer may be lent.
pub fn solve(network: &[u8], fault: &[u8], buffer: &mut [i64]) -> Answer {
    // Safe: slices are never null, aligned and as long as they say; the buffer is lent to this call alone.
    let r = unsafe { ranjupeli_solve(network.as_ptr(), network.len(), fault.as_ptr(), fault.len(), buffer.as_mut_ptr(), buffer.len()) };
    Answer {
        number: r.number,
        place: r.place,
        n: r.n,
        amps: r.amps,
        whose: if r.owner == 0 { Lent::Network } else { Lent::Fault },
        start: r.start,
        len: r.len,
    }
}

/// Writes the file of these boards, which [`solve`] takes as a network, into the first `file(N)` bytes of the output, N being the
/// number of boards; or refuses and writes nothing. Refused are exactly the boards whose file `solve` would refuse, by the same
/// number and place; then outputs shorter than the file. Any boards and any output may be lent.
/// `volts`: phase to neutral; `unit`: microohms in a count.
pub fn write(volts: u16, unit: u16, boards: &[Board], out: &mut [u8]) -> Written {
    // Safe: as above; a board has no bytes between its fields, and the output is lent to this call alone.
    unsafe { ranjupeli_write(volts, unit, boards.as_ptr(), boards.len(), out.as_mut_ptr(), out.len()) }
}

/// Whether the board with this label has an earth return, and which record to thank or to blame: for a crew whose loop tester shows nothing.
/// The label is typed in any case and has twelve bytes, as [`label`] makes them of a text; one of more or fewer is refused.
/// A network is refused as by [`solve`], and before the label. Panics where the archive is not this crate's and gives a number that has no outcome.
pub fn earth<'a>(network: &'a [u8], label: &'a [u8]) -> EarthReturn<'a> {
    // Safe: as above.
    let r = unsafe { ranjupeli_earth(network.as_ptr(), network.len(), label.as_ptr(), label.len()) };
    let outcome = Outcome::from_number(r.number).expect("the archive gives no number that has no outcome");
    if outcome == Outcome::Accepted {
        return if r.earthed == 1 { EarthReturn::From(r.place) } else { EarthReturn::Stopped(r.place) };
    }
    let lent = if r.owner == 0 { network } else { label };
    EarthReturn::Refused { outcome, place: r.place, shown: &lent[r.start..r.start + r.len] }
}

impl Written {
    /// What the number says. The archive gives no number that has no outcome.
    pub fn outcome(&self) -> Option<Outcome> {
        Outcome::from_number(self.number)
    }
}

impl Answer {
    /// What the number says. The archive gives no number that has no outcome.
    pub fn outcome(&self) -> Option<Outcome> {
        Outcome::from_number(self.number)
    }

    /// The record, or the bytes, that the answer speaks of: a part of what was lent. Panics where other bytes than the lent ones are given and end before it.
    pub fn shown<'a>(&self, network: &'a [u8], fault: &'a [u8]) -> &'a [u8] {
        let all = match self.whose {
            Lent::Network => network,
            Lent::Fault => fault,
        };
        &all[self.start..self.start + self.len]
    }
}
