//! The unit for use: i64, shifts, no division; the unit is held in i64 for the length of a block.

use super::{block_refusal, Numbers, BANDS, LEFT, RIGHT, SIDE_COUNT, STRIPS, STRIP_COUNT, VOLUME};
use super::{FEEDBACK_COUNT, GAIN_SLOPE, REMAINDER, REMAINDER_SIZE, VOLUME_SLOPE};
use crate::reference::{band_refusal, is_word, ACCEPTED, WORD_MAX, WORD_MIN};
use std::ops::RangeInclusive;

const WORDS: RangeInclusive<i64> = WORD_MIN as i64..=WORD_MAX as i64;

/// A section with its gain.
#[derive(Clone, Copy)]
struct Section {
    a: i64,
    b: i64,
    g: i64,
    y1: i64,
    y2: i64,
    gain: i64,
    target: i64,
}

/// A side: its two earlier inputs, whether a section has limited, its ten sections, and the remainders of those that
/// feed them back.
struct Side {
    x1: i64,
    x2: i64,
    limited: bool,
    sections: [Section; 10],
    remainders: [i64; FEEDBACK_COUNT],
}

/// A level after one move. The distance of two i32s is at most a u32.
pub fn level_moved(present: i32, target: i32, slope: u32) -> i32 {
    moved(i64::from(present), i64::from(target), i64::from(slope)) as i32
}

#[inline(always)]
fn moved(present: i64, target: i64, slope: i64) -> i64 {
    if present < target {
        target.min(present + slope)
    } else {
        target.max(present - slope)
    }
}

/// v / 2^k rounded to nearest, halves to even. Just under a half is added to an even quotient and a half to an odd one;
/// every v here is under 2^50 in size.
#[inline(always)]
fn rounded(v: i64, k: u32) -> i64 {
    let odd = (v >> k) & 1;
    (v + ((1 << (k - 1)) - 1) + odd) >> k
}

/// True where an accepted sheet could carry these numbers.
pub fn fit(numbers: &Numbers) -> bool {
    let volume = |number: &i32| (0..=WORD_MAX).contains(number);
    numbers[VOLUME..BANDS].iter().all(volume)
        && numbers[BANDS..LEFT].chunks_exact(3).all(|band| band_refusal(band[0], band[1], band[2]) == ACCEPTED)
        && numbers[LEFT..].chunks_exact(SIDE_COUNT).all(side_is_fit)
}

fn side_is_fit(side: &[i32]) -> bool {
    side[..2].iter().all(|&x| is_word(x) && x & 0xFF == 0)
        && matches!(side[2], 0 | 1)
        && side[STRIPS..].chunks_exact(STRIP_COUNT).enumerate().all(strip_is_fit)
}

fn strip_is_fit((band, strip): (usize, &[i32])) -> bool {
    let most = if band < FEEDBACK_COUNT { REMAINDER_SIZE } else { 0 };
    strip[..REMAINDER].iter().copied().all(is_word) && (-most..=most).contains(&strip[REMAINDER])
}

impl Section {
    fn read(band: &[i32], strip: &[i32]) -> Section {
        let [a, b, g] = [0, 1, 2].map(|n| band[n].into());
        let [y1, y2, gain, target] = [0, 1, 2, 3].map(|n| strip[n].into());
        Section { a, b, g, y1, y2, gain, target }
    }

    /// One step: the gain moves, the remainder is added to the sum, and gain × y is given.
    #[inline(always)]
    fn step(&mut self, difference: i64, remainder: &mut i64, limited: &mut bool) -> i64 {
        self.gain = moved(self.gain, self.target, i64::from(GAIN_SLOPE));
        let sum = self.a * difference + self.g * self.y1 - self.b * self.y2 + *remainder;
        let mut number = rounded(sum, 22);
        *remainder = sum - (number << 22);
        if !WORDS.contains(&number) {
            *limited = true;
            number = number.clamp(*WORDS.start(), *WORDS.end());
            *remainder = 0;
        }
        self.y2 = self.y1;
        self.y1 = number;
        self.gain * number
    }
}

impl Side {
    fn read(bands: &[i32], side: &[i32]) -> Side {
        let sections = std::array::from_fn(|n| Section::read(&bands[3 * n..], &side[STRIPS + STRIP_COUNT * n..]));
        let remainders = std::array::from_fn(|n| side[STRIPS + STRIP_COUNT * n + REMAINDER].into());
        Side { x1: side[0].into(), x2: side[1].into(), limited: side[2] != 0, sections, remainders }
    }

    fn write(&self, side: &mut [i32]) {
        side[..3].copy_from_slice(&[self.x1 as i32, self.x2 as i32, self.limited.into()]);
        for (section, strip) in self.sections.iter().zip(side[STRIPS..].chunks_exact_mut(STRIP_COUNT)) {
            strip[..3].copy_from_slice(&[section.y1 as i32, section.y2 as i32, section.gain as i32]);
        }
        for (remainder, strip) in self.remainders.iter().zip(side[STRIPS..].chunks_exact_mut(STRIP_COUNT)) {
            strip[REMAINDER] = *remainder as i32;
        }
    }

    /// One sample of this side: its sections step, and the mix is brought to the volume.
    #[inline(always)]
    fn play(&mut self, s: i16, volume: i64) -> i16 {
        let x = 256 * i64::from(s);
        let difference = x - self.x2;
        let mut total = x << 23;
        let (fed, plain) = self.sections.split_at_mut(FEEDBACK_COUNT);
        for (section, remainder) in fed.iter_mut().zip(&mut self.remainders) {
            total += section.step(difference, remainder, &mut self.limited);
        }
        // The others have nothing to add, and carry nothing on.
        for section in plain {
            total += section.step(difference, &mut 0, &mut self.limited);
        }
        self.x2 = self.x1;
        self.x1 = x;
        let m = rounded(total, 23);
        rounded(volume * m, 31).clamp(-32_768, 32_767) as i16
    }
}

/// Plays a block.
pub fn block(numbers: &mut Numbers, input: &[u8], output: &mut [u8]) -> u32 {
    let refusal = block_refusal(fit(numbers), input.len(), output.len());
    if refusal != ACCEPTED {
        return refusal;
    }
    let bands = &numbers[BANDS..LEFT];
    let mut left = Side::read(bands, &numbers[LEFT..RIGHT]);
    let mut right = Side::read(bands, &numbers[RIGHT..]);
    let [mut volume, target] = [VOLUME, VOLUME + 1].map(|place| i64::from(numbers[place]));
    for (frame, played) in input.chunks_exact(4).zip(output.chunks_exact_mut(4)) {
        volume = moved(volume, target, i64::from(VOLUME_SLOPE));
        let samples = [[frame[0], frame[1]], [frame[2], frame[3]]].map(i16::from_le_bytes);
        let left = left.play(samples[0], volume).to_le_bytes();
        let right = right.play(samples[1], volume).to_le_bytes();
        played.copy_from_slice(&[left[0], left[1], right[0], right[1]]);
    }
    numbers[VOLUME] = volume as i32;
    left.write(&mut numbers[LEFT..RIGHT]);
    right.write(&mut numbers[RIGHT..]);
    ACCEPTED
}
