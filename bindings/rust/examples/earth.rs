//! A loop tester shows nothing at a board: which transformer is to blame? The program `earth` once more, in Rust over the archive:
//! earth NETWORK LABEL [SHOWN] prints the same line. The label is typed in any case; spaces are put behind it where it is short.
//! What a refusal's number says goes to standard error, the bytes that it shows to the file SHOWN.
mod lines;

use ranjupeli::EarthReturn;
use std::process::ExitCode;

// Its line, and the bytes that it shows: an answer shows none.
fn print_earth(e: EarthReturn<'_>) -> &[u8] {
    match e {
        EarthReturn::From(record) => println!("earth return from record {record}"),
        EarthReturn::Stopped(record) => println!("none, stopped at record {record}"),
        EarthReturn::Refused { outcome, place, shown } => {
            lines::print_refused(outcome as u8, place);
            return shown;
        }
    }
    &[]
}

fn main() -> ExitCode {
    let mut words = std::env::args().skip(1);
    let (Some(file), Some(text)) = (words.next(), words.next()) else {
        eprintln!("earth NETWORK LABEL [SHOWN]: which board of which network?");
        return ExitCode::from(2);
    };
    // a missing file counts as empty
    let network = std::fs::read(file).unwrap_or_default();
    // a longer label is not cut, for that could name another board: it is lent as it was typed, refused, and shown so
    let mut label = text.into_bytes();
    label.resize(label.len().max(12), b' ');
    let shown = print_earth(ranjupeli::earth(&network, &label));
    if let Some(Err(e)) = words.next().map(|file| std::fs::write(file, shown)) {
        eprintln!("earth: the bytes shown could not be written: {e}");
        return ExitCode::FAILURE;
    }
    ExitCode::SUCCESS
}
