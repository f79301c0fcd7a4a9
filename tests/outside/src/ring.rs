//! The paper's number: x0 + x1 t + x2 t^2 + x3 t^3, where t is a turn of 30 degrees and t^4 = t^2 - 1.
//!
//! All arithmetic is checked i128: an overflow stops the program rather than giving a wrong figure.

use std::ops::{Add, Mul, Neg, Sub};

#[derive(Clone, Copy, Debug, PartialEq, Eq)]
pub struct Num(pub [i128; 4]);

const LARGE: &str = "i128 overflow";

fn add(a: i128, b: i128) -> i128 {
    a.checked_add(b).expect(LARGE)
}

fn sub(a: i128, b: i128) -> i128 {
    a.checked_sub(b).expect(LARGE)
}

fn mul(a: i128, b: i128) -> i128 {
    a.checked_mul(b).expect(LARGE)
}

impl Num {
    pub const ZERO: Num = Num([0; 4]);

    pub const fn whole(x: i128) -> Num {
        Num([x, 0, 0, 0])
    }

    /// R + jX, with j = t^3.
    pub const fn ohms(r: i128, x: i128) -> Num {
        Num([r, 0, 0, x])
    }

    /// One turn at a time: x3 t^4 = x3 t^2 - x3. No table, so that no table can be wrong.
    pub fn turn(self, steps: i64) -> Num {
        let mut n = self.0;
        for _ in 0..steps.rem_euclid(12) {
            n = [sub(0, n[3]), n[0], add(n[1], n[3]), n[2]];
        }
        Num(n)
    }

    /// The mirror image t -> t^11 = t - t^3 (and t^10 = 1 - t^2, t^9 = -t^3).
    pub fn conj(self) -> Num {
        let x = self.0;
        let last = sub(sub(0, x[1]), x[3]);
        Num([add(x[0], x[2]), x[1], sub(0, x[2]), last])
    }

    pub fn times(self, k: i128) -> Num {
        Num(self.0.map(|x| mul(x, k)))
    }

    /// The square of the absolute value, where it is a whole number (it may hold a root of 3).
    pub fn norm(self) -> Option<i128> {
        let square = (self * self.conj()).0;
        (square[1..] == [0, 0, 0]).then_some(square[0])
    }
}

impl Add for Num {
    type Output = Num;
    fn add(self, o: Num) -> Num {
        Num(std::array::from_fn(|i| add(self.0[i], o.0[i])))
    }
}

impl Sub for Num {
    type Output = Num;
    fn sub(self, o: Num) -> Num {
        Num(std::array::from_fn(|i| sub(self.0[i], o.0[i])))
    }
}

impl Neg for Num {
    type Output = Num;
    fn neg(self) -> Num {
        Num::ZERO - self
    }
}

impl Mul for Num {
    type Output = Num;
    /// Schoolbook: the sum of the turned multiples of the left side.
    fn mul(self, o: Num) -> Num {
        let turned = |i: usize| self.turn(i as i64).times(o.0[i]);
        (0..4).map(turned).sum()
    }
}

impl std::iter::Sum for Num {
    fn sum<I: Iterator<Item = Num>>(parts: I) -> Num {
        parts.fold(Num::ZERO, |a, b| a + b)
    }
}

#[cfg(test)]
mod tests {
    use super::*;

    #[test]
    fn turns_close() {
        let one = Num::whole(1);
        assert_eq!(one + one.turn(4) + one.turn(8), Num::ZERO);
        assert_eq!(one.turn(6), -one);
        assert_eq!(one.turn(11), Num([0, 1, 0, -1]));
        for n in 0..12 {
            assert_eq!(one.turn(n).conj(), one.turn(-n));
            assert_eq!(one.turn(n) * one.turn(5), one.turn(n + 5));
        }
    }
}
