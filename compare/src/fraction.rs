//! Exact fractions, always in lowest terms.

use std::ops::Add;

#[derive(Clone, Copy, Debug, PartialEq, Eq)]
pub struct Fraction {
    pub above: u128,
    pub below: u128,
}

impl Fraction {
    pub const ZERO: Fraction = Fraction { above: 0, below: 1 };

    pub fn new(above: u128, below: u128) -> Fraction {
        if below == 1 {
            return Fraction { above, below };
        }
        let common = greatest_common_divisor(above, below);
        Fraction { above: above / common, below: below / common }
    }

    /// This fraction times a whole number, where that is whole.
    pub fn times_whole(self, factor: u128) -> Option<u128> {
        let product = Fraction::new(self.above * factor, self.below);
        if product.below == 1 {
            Some(product.above)
        } else {
            None
        }
    }
}

impl Add for Fraction {
    type Output = Fraction;

    fn add(self, other: Fraction) -> Fraction {
        Fraction::new(self.above * other.below + other.above * self.below, self.below * other.below)
    }
}

pub fn greatest_common_divisor(a: u128, b: u128) -> u128 {
    let (mut a, mut b) = (a, b);
    while b != 0 {
        (a, b) = (b, a % b);
    }
    a
}

pub fn least_common_multiple(a: u128, b: u128) -> u128 {
    a / greatest_common_divisor(a, b) * b
}
