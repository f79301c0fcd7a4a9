//! The program `short` once more, in Rust over the archive: boards NETWORK [SHOWN] < FAULT prints the same text.
//! What a refusal's number says goes to standard error, the bytes that the answer shows to the file SHOWN.
//! Without words it prints what every number says.
mod lines;

use ranjupeli::Outcome;
use std::io::Read;

fn print_numbers() {
    // the greatest, though not the last to be tested
    for number in 0..=Outcome::Forgotten as u8 {
        println!("{number} {}", lines::sentence(number));
    }
}

fn main() -> std::io::Result<()> {
    let mut words = std::env::args().skip(1);
    let Some(file) = words.next() else {
        print_numbers();
        return Ok(());
    };
    // a missing file counts as empty
    let network = std::fs::read(file).unwrap_or_default();
    let mut fault = Vec::new();
    std::io::stdin().take(21).read_to_end(&mut fault)?;
    let mut numbers = vec![0; ranjupeli::MOST];
    let a = ranjupeli::solve(&network, &fault, &mut numbers);
    lines::print_answer(&a, &network, &fault, &numbers);
    match words.next() {
        Some(file) => std::fs::write(file, a.shown(&network, &fault)),
        None => Ok(()),
    }
}
