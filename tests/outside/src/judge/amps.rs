//! Whole amps: the greatest n not above |I| volts 1,000,000 / unit.

use super::fault::Short;
use super::network::Grid;
use crate::paper::Paper;
use crate::ring::Num;
use std::convert::TryFrom;

fn gcd(a: i128, b: i128) -> i128 {
    if b == 0 {
        a
    } else {
        gcd(b, a % b)
    }
}

/// Newton from above; stops at the greatest n with n n <= x.
fn root(x: i128) -> i128 {
    if x < 2 {
        return x;
    }
    let mut n = 1i128 << ((128 - x.leading_zeros()).div_ceil(2));
    loop {
        let next = (n + x / n) / 2;
        if next >= n {
            return n;
        }
        n = next;
    }
}

/// Taken from the phase currents as shown, not from the formulas: Ia, Ib or the earth current.
pub fn cut(paper: &Paper, grid: &Grid, short: &Short, shown: [Num; 3], d: i128) -> u64 {
    let p = if paper.phase_counts { short.phase } else { 0 };
    let current = match short.kind {
        0 | 1 => shown[p],
        2 => shown[(p + 1) % 3],
        _ => shown.iter().copied().sum(),
    };
    // Only under the fault "kind 3 with kind 2's amps": the earth current is zero without a return.
    let current = match short.kind {
        3 if current == Num::ZERO && !paper.unearthed.earth_amps => shown[(p + 1) % 3],
        _ => current,
    };
    let above = current
        .norm()
        .expect("|I| squared is a fraction of whole numbers");
    let below = d.checked_mul(d).expect("D D fits");
    // In lowest terms |I|^2 is small enough for what follows to fit 127 bits.
    let common = gcd(below, above);
    let scale = i128::from(grid.volts) * 1_000_000;
    let unit = i128::from(grid.unit);
    let above = (above / common).checked_mul(scale * scale).expect("fits");
    let below = (below / common).checked_mul(unit * unit).expect("fits");
    let n = root(above / below);
    let exact = n * n * below == above;
    let n = if paper.amps_cut || exact { n } else { n + 1 };
    u64::try_from(n).expect("amps are not negative")
}
