//! An earth fault at the board, by the rules of `solve`: it draws a current exactly where there is an
//! earth return. That current passes every record from r to the board and no other; without it the boards
//! joined to the faulted one are lifted, and r is the first of them. A feeder is an earlier record, so in
//! both cases r is the first record that shows it.

use super::{need, to_earth, PAPER};
use crate::crew;
use crate::judge::{judge, room_needed};
use crate::laws::{self, phases};
use crate::make::EarthCase;
use crate::ring::Num;
use crate::stream::earth::EarthAnswer;

pub fn check(case: &EarthCase, got: &EarthAnswer) -> Result<(), String> {
    let v = &got.verdict;
    if v.number != 0 {
        return Ok(());
    }
    let (net, fault) = (&case.net, to_earth(&case.label));
    let boards = net.len().saturating_sub(8) / 44;
    let mut buffer = vec![0; room_needed(boards)];
    let solved = judge(&PAPER, net, &fault, &mut buffer);
    need(solved.number == 0, "an earth fault there is refused")?;
    laws::check(net, &fault, &buffer, solved.amps)?;
    let dead = crew::check(net, &fault, &buffer, solved.amps)?;
    need(u32::from(!dead) == v.earthed, "a crew sees otherwise")?;
    let still = buffer[0] == 1 && buffer[1..13].iter().all(|&x| x == 0);
    need(still == dead, "the fault's current")?;
    let from = if dead { 0 } else { 12 };
    let first = first_to_earth(&buffer, from);
    need(
        first == Some(v.place as usize),
        "an earth fault names another record",
    )
}

/// The first record whose voltages (from 0) or currents (from 12) of the three phases have a sum.
fn first_to_earth(buffer: &[i64], from: usize) -> Option<usize> {
    let sum = |b: &[i64]| phases(&b[from..from + 12]).iter().copied().sum::<Num>();
    let place = buffer[13..].chunks(24).position(|b| sum(b) != Num::ZERO);
    place.map(|r| r + 1)
}
