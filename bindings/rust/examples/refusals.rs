//! What `write` refuses, and what it leaves alone: a line for each try, which bindings/test holds to what must come.
use ranjupeli::{file, kind, label, Board, Ohms, LONGEST};

const MANY: usize = 70_000;
const PAINT: u8 = 0x5a;
const ALL: usize = LONGEST + 16;

// GEN, and cables from it to B00001, B00002 and so on.
fn plan(n: usize) -> Vec<Board> {
    let z = Ohms { r: 0, x: 20 };
    let source = Board { label: label("GEN"), feeder: label(""), kind: kind::SOURCE, z1: z, z2: z, ..Board::default() };
    let cable = |i: usize| Board { label: label(&format!("B{i:05}")), feeder: label("GEN"), kind: kind::CABLE, ..source };
    std::iter::once(source).chain((1..).map(cable)).take(n).collect()
}

// Written to so much room of a painted output: number, place, length, and how many bytes behind the file (after a refusal: of all) have lost their paint.
fn say(what: &str, volts: u16, unit: u16, boards: &[Board], room: usize) {
    let mut out = [PAINT; ALL];
    let w = ranjupeli::write(volts, unit, boards, &mut out[..room]);
    let changed = out[w.len..].iter().filter(|b| **b != PAINT).count();
    println!("{} {} {} {changed}: {} boards in {room} bytes{what}", w.number, w.place, w.len, boards.len());
}

fn say_head() {
    let many = plan(MANY);
    for n in [0, 1, 256, 257, 65_535, 65_536, 65_537, MANY] {
        say("", 230, 1000, &many[..n], ALL);
    }
    say(", 0 volts", 0, 1000, &many[..3], ALL);
    say(", a unit of 1,001", 230, 1001, &many[..3], ALL);
}

// Three boards, one of them spoilt.
fn say_spoilt(what: &str, room: usize, spoil: impl Fn(&mut [Board])) {
    let mut boards = plan(3);
    spoil(&mut boards);
    say(what, 230, 1000, &boards, room);
}

fn say_boards() {
    let z = Ohms { r: 0, x: 4076 };
    let far = |b: &mut [Board]| b[2] = Board { z1: z, z2: z, ..b[2] };
    say_spoilt(", a label of thirteen letters", ALL, |b| b[1].label = label("BOOTH-WEST-12"));
    say_spoilt(", a used label", ALL, |b| b[2].label = b[1].label);
    say_spoilt(", a label used in another case", ALL, |b| b[2].label = label("b00001"));
    say_spoilt(", a feeder in another case", ALL, |b| b[2].feeder = label("b00001"));
    say_spoilt(", a board that feeds itself", ALL, |b| b[2].feeder = b[2].label);
    say_spoilt(", a cable with a clock", ALL, |b| b[1].clock = 11);
    say_spoilt(", a cable with another z2", ALL, |b| b[1].z2.x = 21);
    say_spoilt(", a sum of 4,096", ALL, far);
    say_spoilt(", a sum of 4,096", 0, far);
}

// A transformer in place of the first cable, its reactances as given.
fn transformer(z1: u16, z2: u16, zn: u16) -> impl Fn(&mut [Board]) {
    let j = |x| Ohms { r: 0, x };
    move |b| b[1] = Board { kind: kind::DELTA_STAR, clock: 11, z1: j(z1), z2: j(z2), zn: j(zn), ..b[1] }
}

// z1 zero: 21 of a transformer, behind 10 and before 11, and nothing of a cable.
fn say_forgotten() {
    let (none, z) = (Ohms::default(), Ohms { r: 0, x: 4076 });
    say_spoilt(", a transformer without z1", ALL, transformer(0, 0, 0));
    say_spoilt(", a transformer without z1", 0, transformer(0, 0, 0));
    say_spoilt(", a transformer without z1, with another z2", ALL, transformer(0, 20, 0));
    say_spoilt(", a transformer without z1, with a sum of 4,098", ALL, transformer(0, 0, 1366));
    say_spoilt(", a transformer with a sum of 4,098", ALL, transformer(20, 20, 1366));
    say_spoilt(", a transformer of one count", ALL, transformer(1, 1, 0));
    say_spoilt(", a transformer without z1 before a sum of 4,096", ALL, |b| {
        transformer(0, 0, 0)(b);
        b[2] = Board { z1: z, z2: z, ..b[2] };
    });
    say_spoilt(", a transformer without z1 behind a sum of 4,096", ALL, |b| {
        b[1] = Board { z1: z, z2: z, ..b[1] };
        b[2] = Board { kind: kind::STAR_STAR, z1: none, z2: none, ..b[2] };
    });
    say_spoilt(", a cable of no length", ALL, |b| b[2] = Board { z1: none, z2: none, ..b[2] });
}

fn main() {
    say_head();
    say_boards();
    say_forgotten();
    for room in [0, file(3) - 1, file(3), file(3) + 1] {
        say_spoilt("", room, |_| ());
    }
}
