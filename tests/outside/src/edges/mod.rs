//! Which edges of the paper's ranges the cases have met, on either side.

pub mod earth;
pub mod forgotten;
mod solve;
mod typed;
pub mod unearthed;
mod write;

use std::collections::BTreeMap;

#[derive(Default)]
pub struct Edges(BTreeMap<&'static str, u64>);

fn word(b: &[u8], at: usize) -> u16 {
    u16::from_le_bytes([b[at], b[at + 1]])
}

/// Part 0 to 7 of a record: r and x of z1, z2, z0, zn.
fn part(b: &[u8], i: usize) -> u16 {
    word(b, 28 + 2 * i)
}

/// A label as it is compared: two are one if these are.
fn capitals(label: &[u8]) -> Vec<u8> {
    label.to_ascii_uppercase()
}

impl Edges {
    fn edge(&mut self, met: bool, name: &'static str) {
        *self.0.entry(name).or_default() += u64::from(met);
    }

    pub fn print(&self) {
        for (name, n) in &self.0 {
            println!("{n:8}  {name}");
        }
        let met = self.0.values().filter(|&&n| n > 0).count();
        println!("edges met: {met} of {}", self.0.len());
    }
}
