//! A network planned in Rust: plan FILE writes three boards to FILE, asks a fault of them and prints the answer.
//!
//!     GEN            the set, 230 V, star point earthed
//!      |
//!      +---- cable, 30 + j10 milliohms -------------- BOOTH-WEST-1   <- somebody crushes it: phase a to earth
//!      |
//!      +---- transformer Dyn11, j20 milliohms ------- HALL
mod lines;

use ranjupeli::{kind, label, Board, Ohms, Outcome};
use std::process::ExitCode;

const fn ohms(r: u16, x: u16) -> Ohms {
    Ohms { r, x }
}

// In milliohms.
const NONE: Ohms = ohms(0, 0);
const GEN: Board = Board { label: label("GEN"), feeder: label(""), kind: kind::SOURCE, clock: 0, z1: ohms(0, 20), z2: ohms(0, 20), z0: ohms(0, 5), zn: ohms(0, 5) };
const BOOTH: Board = Board { label: label("BOOTH-WEST-1"), feeder: GEN.label, kind: kind::CABLE, clock: 0, z1: ohms(30, 10), z2: ohms(30, 10), z0: ohms(90, 30), zn: NONE };
const HALL: Board = Board { label: label("HALL"), feeder: GEN.label, kind: kind::DELTA_STAR, clock: 11, z1: ohms(0, 20), z2: ohms(0, 20), z0: ohms(0, 20), zn: NONE };

// Mark, label, kind 1: one phase to earth, phase 0: a, and no impedance of the fault itself.
fn crushed(b: &Board) -> Vec<u8> {
    [&b"FT"[..], &b.label, &[1, 0], &[0, 0, 0, 0]].concat()
}

fn main() -> ExitCode {
    let Some(path) = std::env::args().nth(1) else {
        eprintln!("plan FILE: where is the network to be written?");
        return ExitCode::from(2);
    };
    // 230 V between phase and neutral; a count is 1,000 microohms, which is a milliohm
    let mut out = [0; ranjupeli::LONGEST];
    let w = ranjupeli::write(230, 1000, &[GEN, BOOTH, HALL], &mut out);
    if w.outcome() != Some(Outcome::Accepted) {
        lines::print_refused(w.number, w.place);
        return ExitCode::FAILURE;
    }
    let network = &out[..w.len];
    if let Err(e) = std::fs::write(&path, network) {
        eprintln!("plan: {path} could not be written: {e}");
        return ExitCode::FAILURE;
    }
    let fault = crushed(&BOOTH);
    let mut numbers = [0; ranjupeli::numbers(3)];
    let a = ranjupeli::solve(network, &fault, &mut numbers);
    lines::print_answer(&a, network, &fault, &numbers);
    ExitCode::SUCCESS
}
