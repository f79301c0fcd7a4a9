//! Whole numbers modulo the prime P = 2^64 - 2^32 + 1. P - 1 is a multiple of 12, so P has four
//! numbers w with w^4 = w^2 - 1: the paper's number ring maps into it in four ways.

use crate::ring::Num;
use std::convert::TryFrom;

pub const P: u64 = 0xffff_ffff_0000_0001;

pub fn add(a: u64, b: u64) -> u64 {
    let (sum, over) = a.overflowing_add(b);
    if over || sum >= P {
        sum.wrapping_sub(P)
    } else {
        sum
    }
}

pub fn sub(a: u64, b: u64) -> u64 {
    if a >= b {
        a - b
    } else {
        a.wrapping_sub(b).wrapping_add(P)
    }
}

/// 2^64 = 2^32 - 1 and 2^96 = -1 modulo P, so no division is needed.
pub fn mul(a: u64, b: u64) -> u64 {
    let product = u128::from(a) * u128::from(b);
    let (low, high) = (product as u64, (product >> 64) as u64);
    let (top, mid) = (high >> 32, high & 0xffff_ffff);
    let low = if low >= P { low - P } else { low };
    add(sub(low, top), (mid << 32) - mid)
}

pub fn pow(mut a: u64, mut e: u64) -> u64 {
    let mut out = 1;
    while e > 0 {
        if e & 1 == 1 {
            out = mul(out, a);
        }
        a = mul(a, a);
        e >>= 1;
    }
    out
}

pub fn inverse(a: u64) -> u64 {
    // Most rows of the laws begin with 1: no power is needed for them.
    if a == 1 {
        1
    } else {
        pow(a, P - 2)
    }
}

pub fn whole(x: i128) -> u64 {
    // Nearly all numbers are short, and 128-bit division is slow.
    match i64::try_from(x) {
        Ok(short) if short < 0 => P - short.unsigned_abs(),
        Ok(short) => short.unsigned_abs(),
        Err(_) => x.rem_euclid(i128::from(P)) as u64,
    }
}

/// The four roots: a twelfth root of one (7 generates all numbers modulo P) and its powers.
pub fn roots() -> [u64; 4] {
    let w = pow(7, (P - 1) / 12);
    [w, pow(w, 5), pow(w, 7), pow(w, 11)]
}

/// The number with w in the place of t.
pub fn map(n: Num, w: u64) -> u64 {
    let coordinates = n.0.iter().rev();
    coordinates.fold(0, |sum, &x| add(mul(sum, w), whole(x)))
}

#[cfg(test)]
mod tests {
    use super::*;

    #[test]
    fn roots_keep_the_rule_and_products() {
        for w in roots() {
            assert_eq!(pow(w, 4), sub(pow(w, 2), 1));
            let (a, b) = (Num([3, -4, 5, 6]), Num([-7, 8, 9, -1]));
            assert_eq!(map(a * b, w), mul(map(a, w), map(b, w)));
        }
        for (a, b) in [(P - 1, P - 1), (P - 1, 2), (1 << 63, 1 << 63), (P - 2, 7)] {
            let right = u128::from(a) * u128::from(b) % u128::from(P);
            assert_eq!(u128::from(mul(a, b)), right);
        }
        assert_eq!(mul(inverse(12_345), 12_345), 1);
    }
}
