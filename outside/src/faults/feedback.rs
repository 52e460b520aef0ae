//! What is done with remainders, spoiled: in the sections of a unit, in what a unit keeps, and in a preview.

use super::sound::{mix, output, preview_with, strips, worked_again};
use crate::reference::fast::nearest;
use crate::reference::{ACCEPTED, WORD_MAX, WORD_MIN};
use crate::unit::exact::fed_step;
use crate::unit::fast::{block, fit};
use crate::unit::{block_refusal, feeds_back, strip_at, Numbers, BANDS, LEFT, REMAINDER, REMAINDER_SIZE, RIGHT};

/// What the sections of a unit do with their remainders.
pub struct Feedback {
    /// Whether the remainder of a band is added to S.
    pub feeds: fn(usize) -> bool,
    /// What a band carries on. Shown are S, the increased S, and whether the step limits.
    pub carried: fn(usize, [i64; 2], bool) -> i64,
}

/// The rules with nothing wrong in them.
pub const FEEDBACK: Feedback = Feedback {
    feeds: feeds_back,
    carried: |band, [_, sum], limits| if feeds_back(band) && !limits { remainder_of(sum) } else { 0 },
};

/// What rounding takes from S.
fn remainder_of(sum: i64) -> i64 {
    sum - (nearest(sum, 22) << 22)
}

/// Works a section of a side again, given the unit before the frame. True where it limits.
fn step_again(before: &Numbers, unit: &mut Numbers, [side, band]: [usize; 2], rules: &Feedback) -> bool {
    let strip = strip_at(side, band);
    let [a, b, g] = [0, 1, 2].map(|n| i64::from(before[BANDS + 3 * band + n]));
    let [y1, y2, remainder] = [0, 1, REMAINDER].map(|n| i64::from(before[strip + n]));
    let sum = a * i64::from(unit[side] - before[side + 1]) + g * y1 - b * y2;
    let increased = if (rules.feeds)(band) { sum + remainder } else { sum };
    let number = nearest(increased, 22);
    let y = number.clamp(WORD_MIN.into(), WORD_MAX.into());
    unit[strip] = y as i32;
    unit[strip + REMAINDER] = (rules.carried)(band, [sum, increased], y != number) as i32;
    y != number
}

/// A block whose sections do this with their remainders.
pub fn block_fed(unit: &mut Numbers, input: &[u8], sound: &mut [u8], rules: Feedback) -> u32 {
    let refusal = block_refusal(fit(unit), input.len(), sound.len());
    if refusal != ACCEPTED {
        return refusal;
    }
    for (frame, played) in input.chunks_exact(4).zip(sound.chunks_exact_mut(4)) {
        let before = *unit;
        strips().for_each(|(_, strip)| unit[strip + REMAINDER] = 0);
        block(unit, frame, played);
        for side in [LEFT, RIGHT] {
            let limits = (0..10).fold(false, |limits, band| step_again(&before, unit, [side, band], &rules) || limits);
            unit[side + 2] = before[side + 2] | i32::from(limits);
        }
        worked_again(played, |side| output(unit, mix(unit, unit, side)));
    }
    ACCEPTED
}

/// The places of the remainders that are fed back.
pub fn remainders() -> impl Iterator<Item = usize> {
    strips().filter(|(band, _)| feeds_back(*band)).map(|(_, strip)| strip + REMAINDER)
}

pub fn clear_remainders(unit: &mut Numbers) {
    remainders().for_each(|place| unit[place] = 0);
}

/// Puts the remainders of another unit into this one.
pub fn keep_remainders(unit: &mut Numbers, given: &Numbers) {
    remainders().for_each(|place| unit[place] = given[place]);
}

/// The unit with every remainder that is one too large, brought to the end of its range.
pub fn narrowed(unit: &Numbers) -> Numbers {
    let mut other = *unit;
    remainders().for_each(|place| {
        if unit[place].unsigned_abs() == REMAINDER_SIZE as u32 + 1 {
            other[place] -= unit[place].signum();
        }
    });
    other
}

/// A preview that feeds its remainders back, as the low bands of a unit do.
pub fn preview_fed([a, b, g]: [i32; 3], words: &[i32], results: &mut [i32], remainders: &mut [i32]) -> u32 {
    preview_with([a, b, g], words, results, remainders, |results, remainders| {
        let (mut section, mut remainder) = ([a, b, g, 0, 0, 0, 0], 0);
        for ((result, left), &x) in results.iter_mut().zip(remainders).zip(words) {
            let step = fed_step(&mut section, 0, &mut remainder, x);
            (*result, *left) = (step.y, step.remainder);
        }
    })
}
