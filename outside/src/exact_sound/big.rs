//! Whole numbers of any size and either sign.

/// Two's complement in limbs of 64 bits, the lowest first; the top bit of the last limb is the sign. No limb at the end
/// says only what the one before it says already, and zero has no limb.
#[derive(Clone, Debug, Default, PartialEq, Eq)]
pub struct Big {
    limbs: Vec<u64>,
}

impl Big {
    pub fn from_i64(number: i64) -> Big {
        Big::from_limbs(vec![number as u64])
    }

    /// The number that these limbs stand for.
    pub fn from_limbs(limbs: Vec<u64>) -> Big {
        let mut big = Big { limbs };
        big.trim();
        big
    }

    pub fn limbs(&self) -> &[u64] {
        &self.limbs
    }

    pub fn is_zero(&self) -> bool {
        self.limbs.is_empty()
    }

    pub fn is_negative(&self) -> bool {
        self.filler() != 0
    }

    /// What every limb behind the last one would be.
    fn filler(&self) -> u64 {
        self.limbs.last().map_or(0, |&last| sign_of(last))
    }

    fn trim(&mut self) {
        while let Some((&last, before)) = self.limbs.split_last() {
            if last != before.last().map_or(0, |&limb| sign_of(limb)) {
                break;
            }
            self.limbs.pop();
        }
    }

    /// Adds coefficient × other × 2^shift. The coefficient is at most 2^62 in size, so that every product and its carry
    /// are under 2^127.
    pub fn add_scaled(&mut self, coefficient: i64, other: &Big, shift: usize) {
        assert!(coefficient.unsigned_abs() <= 1 << 62);
        if coefficient == 0 || other.is_zero() {
            return;
        }
        let (words, bits) = (shift / 64, shift % 64);
        // The product has at most 126 bits more than the other, the sum one more.
        let room = self.limbs.len().max(words + other.limbs.len() + 2) + 1;
        self.limbs.resize(room, self.filler());
        let (mut carry, mut below) = (0_i128, 0);
        let mut add = |limb: &mut u64, next: u64| {
            let pair = u128::from(next) << 64 | u128::from(below);
            below = next;
            let shifted = (pair >> (64 - bits)) as u64;
            carry += i128::from(coefficient) * i128::from(shifted) + i128::from(*limb);
            *limb = carry as u64;
            carry >>= 64;
        };
        let (beside, behind) = self.limbs[words..].split_at_mut(other.limbs.len());
        for (limb, &next) in beside.iter_mut().zip(&other.limbs) {
            add(limb, next);
        }
        for limb in behind {
            add(limb, other.filler());
        }
        self.trim();
    }

    /// The number without its sign.
    pub fn size(&self) -> Big {
        if !self.is_negative() {
            return self.clone();
        }
        let mut size = Big::default();
        size.add_scaled(-1, self, 0);
        size
    }

    /// About number / 2^places, for a number that isn't negative. No sample is judged by it.
    pub fn approximately_over(&self, places: usize) -> f64 {
        let last = self.limbs.len().saturating_sub(3);
        let top = self.limbs[last..].iter().rev();
        let leading = top.fold(0.0, |sum, &limb| sum * 2_f64.powi(64) + limb as f64);
        let exponent = 64 * last as i64 - places as i64;
        leading * 2_f64.powi(exponent.clamp(-1_000, 1_000) as i32)
    }
}

/// What the limbs behind a last limb would be: all ones for a negative number.
fn sign_of(limb: u64) -> u64 {
    ((limb as i64) >> 63) as u64
}
