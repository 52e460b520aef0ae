//! The two-sided unit, written from the specification: its numbers, its refusals and the loading of a band set. Quoted
//! sentences are the specification's.
//!
//! The playing of a block, the orders and the sheet have two forms, as the section has. `exact` is the plain meaning;
//! `fast` is what one would write for use.

pub mod exact;
pub mod fast;
pub mod orders;
pub mod sheet;

use crate::reference::{band_refusal, house_set, ACCEPTED};
use std::array::from_fn;

/// A unit as it crosses the C ABI: "the volume, its target; A, B, G of each band; for the left side x1, x2, flag, then
/// y1, y2, gain, target, remainder of each section; as many for the right side."
pub type Numbers = [i32; UNIT_COUNT];
pub const UNIT_COUNT: usize = 138;

/// Where the parts of a unit begin.
pub const VOLUME: usize = 0;
pub const BANDS: usize = 2;
pub const LEFT: usize = 32;
pub const RIGHT: usize = 85;

/// The numbers of a side, where its ten sections begin, and the numbers of a section.
pub const SIDE_COUNT: usize = 53;
pub const STRIPS: usize = 3;
pub const STRIP_COUNT: usize = 5;

/// Where the gain and the remainder stand among the numbers of a section; the gain's target is behind the gain.
pub const GAIN: usize = 2;
pub const REMAINDER: usize = 4;

/// How many bands, from band 0 on, feed their remainder back: "In bands 0 to 3 the remainder is added to S in the next
/// step".
pub const FEEDBACK_COUNT: usize = 4;
/// The largest size of a remainder: "from -2,097,152 to 2,097,152".
pub const REMAINDER_SIZE: i32 = 2_097_152;

/// "5 input bytes no multiple of four; 6 output shorter than input."
pub const PART_OF_A_FRAME: u32 = 5;
pub const OUTPUT_TOO_SHORT: u32 = 6;
/// "7 a set that isn't thirty numbers".
pub const NOT_THIRTY: u32 = 7;
/// "Orders and blocks test the unit ahead of all else: an unfit one is 14".
pub const UNFIT: u32 = 14;

/// "every gain moves towards its target by 839 and the volume by 419".
pub const GAIN_SLOPE: u32 = 839;
pub const VOLUME_SLOPE: u32 = 419;

/// A present number and its target.
#[derive(Clone, Copy, Default)]
pub struct Level {
    pub present: i32,
    pub target: i32,
}

/// The three words of a band.
#[derive(Clone, Copy)]
pub struct Band {
    pub a: i32,
    pub b: i32,
    pub g: i32,
}

/// What an S line carries: a section's results, its gain, and the remainder that it feeds back.
#[derive(Clone, Copy)]
pub struct Strip {
    pub y1: i32,
    pub y2: i32,
    pub gain: Level,
    pub remainder: i32,
}

/// What an L or R line and its ten S lines carry.
#[derive(Clone, Copy)]
pub struct Side {
    pub x1: i32,
    pub x2: i32,
    pub flag: i32,
    pub strips: [Strip; 10],
}

/// A unit by its names.
#[derive(Clone, Copy)]
pub struct Unit {
    pub volume: Level,
    pub bands: [Band; 10],
    pub sides: [Side; 2],
}

impl Unit {
    pub fn from_numbers(numbers: &Numbers) -> Unit {
        let level = |at: usize| Level { present: numbers[at], target: numbers[at + 1] };
        let band = |at: usize| Band { a: numbers[at], b: numbers[at + 1], g: numbers[at + 2] };
        let strip = |at: usize| Strip {
            y1: numbers[at],
            y2: numbers[at + 1],
            gain: level(at + GAIN),
            remainder: numbers[at + REMAINDER],
        };
        let side = |at: usize| Side {
            x1: numbers[at],
            x2: numbers[at + 1],
            flag: numbers[at + 2],
            strips: from_fn(|band| strip(strip_at(at, band))),
        };
        Unit { volume: level(VOLUME), bands: from_fn(|n| band(BANDS + 3 * n)), sides: [LEFT, RIGHT].map(side) }
    }

    pub fn to_numbers(&self) -> Numbers {
        let mut numbers = Vec::with_capacity(UNIT_COUNT);
        numbers.extend([self.volume.present, self.volume.target]);
        for band in &self.bands {
            numbers.extend([band.a, band.b, band.g]);
        }
        for side in &self.sides {
            numbers.extend([side.x1, side.x2, side.flag]);
            for strip in &side.strips {
                let Level { present, target } = strip.gain;
                numbers.extend([strip.y1, strip.y2, present, target, strip.remainder]);
            }
        }
        numbers.try_into().expect("as many as a unit has")
    }
}

/// Where the section of a band begins, on the side that begins here.
pub const fn strip_at(side: usize, band: usize) -> usize {
    side + STRIPS + STRIP_COUNT * band
}

/// True for a band that feeds its remainder back.
pub const fn feeds_back(band: usize) -> bool {
    band < FEEDBACK_COUNT
}

/// "A cleared unit holds a band set; all inputs, results, remainders, gains, targets, the volume and the flags are
/// zero."
pub fn cleared(set: &[i32; 30]) -> Numbers {
    let mut numbers = [0; UNIT_COUNT];
    numbers[BANDS..LEFT].copy_from_slice(set);
    numbers
}

/// "the cleared house unit".
pub fn house_unit() -> Numbers {
    cleared(&house_set())
}

/// "7 a set that isn't thirty numbers, A, B, G of each band in turn; then band by band 8 (A), 9 (B), 10 (G)."
pub fn set_refusal(set: &[i32]) -> u32 {
    if set.len() != 30 {
        return NOT_THIRTY;
    }
    set.chunks_exact(3)
        .map(|band| band_refusal(band[0], band[1], band[2]))
        .find(|&refusal| refusal != ACCEPTED)
        .unwrap_or(ACCEPTED)
}

/// "Loading a band set gives a cleared unit." For a refused one "The answer holds the cleared house unit."
pub fn load(numbers: &mut Numbers, set: &[i32]) -> u32 {
    let refusal = set_refusal(set);
    *numbers = match set.try_into() {
        Ok(thirty) if refusal == ACCEPTED => cleared(thirty),
        _ => house_unit(),
    };
    refusal
}

/// The refusals of a block once the unit is known to be fit or not: 14 ahead of all else, then 5, then 6.
pub fn block_refusal(fit: bool, input: usize, output: usize) -> u32 {
    if !fit {
        UNFIT
    } else if !input.is_multiple_of(4) {
        PART_OF_A_FRAME
    } else if output < input {
        OUTPUT_TOO_SHORT
    } else {
        ACCEPTED
    }
}
