//! Steps, blocks and orders of the fast form, spoiled.

use crate::preview::fast::preview;
use crate::reference::fast::{nearest, step};
use crate::reference::{band_refusal, exact, Section, Step, ACCEPTED, REFUSED_A, REFUSED_B, WORD_MAX, WORD_MIN};
use crate::unit::fast::{block, fit};
use crate::unit::orders::{fast as orders, Order};
use crate::unit::{block_refusal, strip_at, Numbers, GAIN, GAIN_SLOPE, LEFT, RIGHT, VOLUME, VOLUME_SLOPE};

/// v / 2^k with its halves rounded upwards.
pub fn halves_up(v: i64, k: u32) -> i64 {
    match k {
        1..64 => ((i128::from(v) + (1 << (k - 1))) >> k) as i64,
        _ => nearest(v, k),
    }
}

/// The lowest 24 bits, as a word.
pub fn wrapped(v: i64) -> i64 {
    (v << 40) >> 40
}

/// 9 in place of 8 where both apply.
pub fn nine_first(b: i32, refusal: u32) -> u32 {
    match band_refusal(0, b, 0) {
        REFUSED_B if refusal == REFUSED_A => REFUSED_B,
        _ => refusal,
    }
}

/// A step whose rounded number is worked from its three products by this function; the result and the remainder come of
/// that number.
pub fn step_with(section: &mut Section, x: i32, rounded: impl Fn([i64; 3]) -> i64) -> Step {
    let [a, b, g, _, x2, y1, y2] = section.map(i64::from);
    let products = [a * (i64::from(x) - x2), g * y1, -(b * y2)];
    let right = step(section, x);
    if right.refusal != ACCEPTED {
        return right;
    }
    let number = rounded(products);
    let y = number.clamp(WORD_MIN.into(), WORD_MAX.into()) as i32;
    section[5] = y;
    let remainder = (products.iter().sum::<i64>() - (number << 22)) as i32;
    Step { y, remainder, limited: u32::from(number != i64::from(y)), ..right }
}

/// An accepted step with another remainder; S is shown.
pub fn step_leaving(section: &mut Section, x: i32, spoiled: impl Fn(i128, Step) -> i32) -> Step {
    let sum = exact::sum(section, x);
    let right = step(section, x);
    match right.refusal {
        ACCEPTED => Step { remainder: spoiled(sum, right), ..right },
        _ => right,
    }
}

/// An accepted preview that spoils the results and the remainders it leaves.
pub fn preview_with(
    band: [i32; 3],
    words: &[i32],
    results: &mut [i32],
    remainders: &mut [i32],
    spoil: impl FnOnce(&mut [i32], &mut [i32]),
) -> u32 {
    let refusal = preview(band, words, results, remainders);
    if refusal == ACCEPTED {
        spoil(&mut results[..words.len()], &mut remainders[..words.len()]);
    }
    refusal
}

/// A block that spoils the unit and the sound it leaves, where there is any.
pub fn block_with(
    unit: &mut Numbers,
    input: &[u8],
    output: &mut [u8],
    spoil: impl FnOnce(&mut Numbers, &mut [u8]),
) -> u32 {
    let refusal = block(unit, input, output);
    if refusal == ACCEPTED && !input.is_empty() {
        spoil(unit, &mut output[..input.len()]);
    }
    refusal
}

/// A block played frame by frame. Each spoils the unit and the sound it leaves; the unit before it is shown.
pub fn frames_with(
    unit: &mut Numbers,
    input: &[u8],
    output: &mut [u8],
    spoil: impl Fn(&Numbers, &mut Numbers, &mut [u8]),
) -> u32 {
    let refusal = block_refusal(fit(unit), input.len(), output.len());
    if refusal == ACCEPTED {
        for (frame, sound) in input.chunks_exact(4).zip(output.chunks_exact_mut(4)) {
            let before = *unit;
            block(unit, frame, sound);
            spoil(&before, unit, sound);
        }
    }
    refusal
}

/// The bytes of a pass of 64 frames.
pub const PASS: usize = 4 * 64;

/// A block played as whole passes, and the frames behind the last of them by this function.
pub fn passes_and(
    unit: &mut Numbers,
    input: &[u8],
    output: &mut [u8],
    rest: impl FnOnce(&mut Numbers, &[u8], &mut [u8]),
) -> u32 {
    let refusal = block_refusal(fit(unit), input.len(), output.len());
    if refusal == ACCEPTED {
        let (passes, behind) = input.split_at(input.len() / PASS * PASS);
        let (sound, room) = output.split_at_mut(passes.len());
        block(unit, passes, sound);
        rest(unit, behind, &mut room[..behind.len()]);
    }
    refusal
}

/// Replaces the sound of a frame by these samples of the left and the right.
pub fn worked_again(frame: &mut [u8], sample: impl Fn(usize) -> i16) {
    for (bytes, side) in frame.chunks_exact_mut(2).zip([LEFT, RIGHT]) {
        bytes.copy_from_slice(&sample(side).to_le_bytes());
    }
}

/// The mix of the last frame of a side, played with the gains of another unit.
pub fn mix(gains: &Numbers, unit: &Numbers, side: usize) -> i64 {
    let strips = (0..10).map(|band| strip_at(side, band));
    let products = strips.map(|y1| i64::from(gains[y1 + GAIN]) * i64::from(unit[y1]));
    nearest((i64::from(unit[side]) << 23) + products.sum::<i64>(), 23)
}

/// A mix brought to the unit's volume and limited.
pub fn output(unit: &Numbers, m: i64) -> i16 {
    nearest(i64::from(unit[VOLUME]) * m, 31).clamp(-32_768, 32_767) as i16
}

/// A mix brought to the unit's volume and left to wrap.
pub fn output_unlimited(unit: &Numbers, m: i64) -> i16 {
    nearest(i64::from(unit[VOLUME]) * m, 31) as i16
}

/// The places of the volume and the gains, with their slopes. Each target stands behind its level.
pub fn levels() -> impl Iterator<Item = (usize, u32)> {
    strips().map(|(_, strip)| (strip + GAIN, GAIN_SLOPE)).chain([(VOLUME, VOLUME_SLOPE)])
}

/// The band and the place of each section of both sides.
pub fn strips() -> impl Iterator<Item = (usize, usize)> {
    [LEFT, RIGHT].into_iter().flat_map(|side| (0..10).map(move |band| (band, strip_at(side, band))))
}

/// A level moved by the whole slope, however near its target is.
pub fn past_target(present: i32, target: i32, slope: u32) -> i32 {
    let direction = i64::from(target).cmp(&present.into()) as i64;
    (i64::from(present) + direction * i64::from(slope)) as i32
}

pub fn raise_flags(unit: &mut Numbers) {
    [LEFT, RIGHT].iter().for_each(|side| unit[side + 2] = 1);
}

/// An order that spoils the target it sets.
pub fn order_with(unit: &mut Numbers, order: &Order, spoiled: impl Fn(i32) -> i32) -> u32 {
    let refusal = orders::order(unit, order);
    if refusal == ACCEPTED {
        orders::set(unit, order, spoiled(orders::target(order)));
    }
    refusal
}
