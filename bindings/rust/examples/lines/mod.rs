//! The lines of an answer, as the program `short` prints them: for the examples.
// no example prints all of them
#![allow(dead_code)]

use ranjupeli::{Answer, Outcome};

// A label without its closing spaces.
fn name(label: &[u8]) -> String {
    String::from_utf8_lossy(label).trim_end_matches(' ').to_string()
}

fn print_phases(before: &str, what: char, x: &[i64]) {
    for (phase, t) in ['a', 'b', 'c'].iter().zip(x.chunks(4)) {
        println!("{before}{what} {phase} {} {} {} {}", t[0], t[1], t[2], t[3]);
    }
}

fn print_accepted(a: &Answer, network: &[u8], fault: &[u8], x: &[i64]) {
    // the first line's label as it was typed in the fault, the boards' as in the network
    println!("FAULT {} {} {} {}", name(&fault[2..14]), fault[14], fault[15], a.amps);
    println!("D {}", x[0]);
    print_phases("", 'I', &x[1..13]);
    for (record, x) in network[8..].chunks(44).zip(x[13..].chunks(24)) {
        let label = name(&record[2..14]) + " ";
        print_phases(&label, 'V', &x[..12]);
        print_phases(&label, 'I', &x[12..]);
    }
}

/// What a number says.
pub fn sentence(number: u8) -> &'static str {
    Outcome::from_number(number).map_or("no answer has this number", Outcome::sentence)
}

/// What a refusal's number says goes to standard error.
pub fn print_refused(number: u8, place: u16) {
    println!("REFUSED {number} {place}");
    eprintln!("{}", sentence(number));
}

pub fn print_answer(a: &Answer, network: &[u8], fault: &[u8], numbers: &[i64]) {
    if a.outcome() == Some(Outcome::Accepted) {
        print_accepted(a, network, fault, numbers);
    } else {
        print_refused(a.number, a.place);
    }
}
