//! Exact fractions over powers of 2^22.

use super::big::Big;
use std::cmp::Ordering;

/// numerator / 2^(22 × power). Zero has the power 0.
#[derive(Clone, Debug, Default)]
pub struct Fraction {
    numerator: Big,
    power: usize,
}

impl Fraction {
    pub fn whole(number: i64) -> Fraction {
        Fraction { numerator: Big::from_i64(number), power: 0 }
    }

    pub fn is_zero(&self) -> bool {
        self.numerator.is_zero()
    }

    pub fn is_negative(&self) -> bool {
        self.numerator.is_negative()
    }

    /// The sum of coefficient × fraction over all terms.
    pub fn sum(terms: &[(i64, &Fraction)]) -> Fraction {
        let counts = terms.iter().filter(|(coefficient, _)| *coefficient != 0);
        let power = counts.clone().map(|(_, term)| term.power).max().unwrap_or(0);
        let mut numerator = Big::default();
        for (coefficient, term) in counts {
            let shift = 22 * (power - term.power);
            numerator.add_scaled(*coefficient, &term.numerator, shift);
        }
        let power = if numerator.is_zero() { 0 } else { power };
        Fraction { numerator, power }
    }

    /// Divided by 2^22.
    pub fn over_2_22(mut self) -> Fraction {
        if !self.numerator.is_zero() {
            self.power += 1;
        }
        self
    }

    /// Without the sign.
    pub fn size(&self) -> Fraction {
        Fraction { numerator: self.numerator.size(), power: self.power }
    }

    pub fn compared_with(&self, other: &Fraction) -> Ordering {
        let difference = Fraction::sum(&[(1, self), (-1, other)]);
        match (difference.is_zero(), difference.is_negative()) {
            (true, _) => Ordering::Equal,
            (_, true) => Ordering::Less,
            _ => Ordering::Greater,
        }
    }

    /// The fraction limited to low..high.
    pub fn limited(self, low: &Fraction, high: &Fraction) -> Fraction {
        if self.compared_with(low).is_lt() {
            low.clone()
        } else if self.compared_with(high).is_gt() {
            high.clone()
        } else {
            self
        }
    }

    /// About the number it stands for, which isn't negative. No sample is judged by it.
    pub fn approximately(&self) -> f64 {
        self.numerator.approximately_over(22 * self.power)
    }
}
