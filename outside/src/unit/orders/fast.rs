//! Orders for use: a factor is worked in f64.

use super::{refusal_by, target_by, Order, FACTOR_NOT_FINITE, FACTOR_OUTSIDE};
use crate::reference::{ACCEPTED, WORD_MAX};
use crate::unit::{fast::fit, strip_at, Numbers, GAIN, LEFT, RIGHT, UNFIT, VOLUME};

fn factor_refusal(f: f32, volume: bool) -> u32 {
    let lowest = if volume { 0.0 } else { -1.0 };
    match f {
        _ if !f.is_finite() => FACTOR_NOT_FINITE,
        _ if lowest <= f && f < 1.0 => ACCEPTED,
        _ => FACTOR_OUTSIDE,
    }
}

/// The target of a factor; × 2^23 is exact in f64.
pub fn factor_target(f: f32) -> i32 {
    let number = (f64::from(f) * 8_388_608.0).round_ties_even() as i32;
    number.min(WORD_MAX)
}

/// The refusals of an order to a fit unit.
pub fn refusal(order: &Order) -> u32 {
    refusal_by(order, factor_refusal)
}

/// The target that an accepted order sets.
pub fn target(order: &Order) -> i32 {
    target_by(order, factor_target)
}

/// Carries out an order.
pub fn order(numbers: &mut Numbers, order: &Order) -> u32 {
    let refusal = if fit(numbers) { refusal(order) } else { UNFIT };
    if refusal == ACCEPTED {
        set(numbers, order, target(order));
    }
    refusal
}

/// Sets the targets that an order names.
pub fn set(numbers: &mut Numbers, order: &Order, target: i32) {
    if order.is_volume() {
        numbers[VOLUME + 1] = target;
        return;
    }
    for (side, begin) in [LEFT, RIGHT].into_iter().enumerate() {
        if order.names(side) {
            numbers[strip_at(begin, order.band as usize) + GAIN + 1] = target;
        }
    }
}
