//! The plain meaning of an order: a factor is worked from its bits.

use super::{refusal_by, target_by, Order, FACTOR_NOT_FINITE, FACTOR_OUTSIDE};
use crate::reference::{exact::nearest, ACCEPTED};
use crate::unit::{exact::fit, Numbers, Unit, UNFIT};

/// The parts of an f32: whether it is negative, its exponent field and its fraction field.
fn fields(f: f32) -> (bool, u32, u32) {
    let bits = f.to_bits();
    (bits >> 31 == 1, (bits >> 23) & 0xFF, bits & 0x7F_FFFF)
}

/// "3 factor not finite; 4 factor outside its range": "-1 ≤ f < 1 for a band and 0 ≤ f < 1 for the volume; minus zero
/// is zero."
fn factor_refusal(f: f32, volume: bool) -> u32 {
    let (negative, exponent, fraction) = fields(f);
    let zero = exponent == 0 && fraction == 0;
    let under_one = exponent < 127;
    let minus_one = negative && exponent == 127 && fraction == 0;
    let inside = if volume { under_one && (zero || !negative) } else { under_one || minus_one };
    match exponent {
        255 => FACTOR_NOT_FINITE,
        _ if inside => ACCEPTED,
        _ => FACTOR_OUTSIDE,
    }
}

/// "Its target is f × 2^23 rounded, limited to 8,388,607." A factor is a whole number of 24 bits over 2^(150 -
/// exponent), or one of 23 bits over 2^149 where the exponent is 0.
pub fn factor_target(f: f32) -> i32 {
    let (negative, exponent, fraction) = fields(f);
    let (size, shift) = match exponent {
        0 => (fraction, 126),
        _ => (fraction + (1 << 23), 127 - exponent),
    };
    let size = i64::from(size);
    let number = nearest(if negative { -size } else { size }, shift);
    number.min(8_388_607) as i32
}

/// The refusals of an order to a fit unit.
pub fn refusal(order: &Order) -> u32 {
    refusal_by(order, factor_refusal)
}

/// The target that an accepted order sets.
pub fn target(order: &Order) -> i32 {
    target_by(order, factor_target)
}

/// An order: "an unfit one is 14"; after a refusal "The unit comes back unchanged."
pub fn order(numbers: &mut Numbers, order: &Order) -> u32 {
    let refusal = if fit(numbers) { refusal(order) } else { UNFIT };
    if refusal != ACCEPTED {
        return refusal;
    }
    let mut unit = Unit::from_numbers(numbers);
    if order.is_volume() {
        unit.volume.target = target(order);
    } else {
        for place in (0..2).filter(|&place| order.names(place)) {
            unit.sides[place].strips[order.band as usize].gain.target = target(order);
        }
    }
    *numbers = unit.to_numbers();
    ACCEPTED
}
