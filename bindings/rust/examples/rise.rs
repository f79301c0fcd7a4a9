//! What the crew sees when the star point of the set is lifted off earth. Somebody crushes the booth's cable, phase a to earth:
//!
//!     GEN            the set, 230 V: star point earthed, then off earth
//!      |
//!      +---- cable, 30 + j10 milliohms -------------- BOOTH-WEST-1   <- phase a to earth
//!
//! Off earth nothing flows and no breaker opens, but b and c rise to the voltage between phases.
use ranjupeli::{kind, label, Board, Ohms, Outcome};
use std::process::ExitCode;

const VOLTS: u16 = 230;
const MILLIOHM: u16 = 1000;

const fn ohms(r: u16, x: u16) -> Ohms {
    Ohms { r, x }
}

const NONE: Ohms = ohms(0, 0);
const EARTHED: Board = Board { label: label("GEN"), feeder: label(""), kind: kind::SOURCE, clock: 0, z1: ohms(0, 20), z2: ohms(0, 20), z0: ohms(0, 5), zn: ohms(0, 5) };
const FLOATING: Board = Board { kind: kind::FLOATING_SOURCE, z0: NONE, zn: NONE, ..EARTHED };
const BOOTH: Board = Board { label: label("BOOTH-WEST-1"), feeder: EARTHED.label, kind: kind::CABLE, clock: 0, z1: ohms(30, 10), z2: ohms(30, 10), z0: ohms(90, 30), zn: NONE };

// The volts of x0 + x1 t + x2 t^2 + x3 t^3 over D, t a turn of 30 degrees, cut down to a whole number.
fn volts(x: &[i64], d: i64) -> u32 {
    let h = 0.75f64.sqrt(); // the sine of 60 degrees
    let [x0, x1, x2, x3] = [0, 1, 2, 3].map(|i| x[i] as f64 / d as f64);
    ((x0 + h * x1 + 0.5 * x2).hypot(0.5 * x1 + h * x2 + x3) * f64::from(VOLTS)) as u32
}

// Plans the two boards with such a set, asks the fault, and prints the amps and the booth's three voltages.
fn ask(how: &str, set: Board) -> Result<(), &'static str> {
    let said = |number: u8| match Outcome::from_number(number) {
        Some(Outcome::Accepted) => Ok(()),
        other => Err(other.map_or("no answer has this number", Outcome::sentence)),
    };
    let mut network = [0; ranjupeli::file(2)];
    said(ranjupeli::write(VOLTS, MILLIOHM, &[set, BOOTH], &mut network).number)?;
    let fault = [&b"FT"[..], &BOOTH.label, &[1, 0], &[0, 0, 0, 0]].concat();
    let mut numbers = [0; ranjupeli::numbers(2)];
    let a = ranjupeli::solve(&network, &fault, &mut numbers);
    said(a.number)?;
    let booth = &numbers[ranjupeli::numbers(1)..];
    let [va, vb, vc] = [0, 4, 8].map(|i| volts(&booth[i..], numbers[0]));
    println!("{how}: {} A; a {va} V, b {vb} V, c {vc} V", a.amps);
    Ok(())
}

fn main() -> ExitCode {
    let asked = ask("star point earthed", EARTHED).and_then(|()| ask("star point off earth", FLOATING));
    if let Err(sentence) = asked {
        eprintln!("rise: {sentence}");
        return ExitCode::FAILURE;
    }
    ExitCode::SUCCESS
}
