//! The units that blocks are played on.

use super::bands::{extreme_accepted, half_accepted, random_accepted, Band};
use crate::random::Random;
use crate::reference::{house_set, WORD_MAX, WORD_MIN};
use crate::unit::{cleared, feeds_back, Numbers, BANDS, GAIN, LEFT, RIGHT, STRIPS, STRIP_COUNT};
use crate::unit::{REMAINDER, REMAINDER_SIZE};

/// What a number of a unit stands for.
#[derive(Clone, Copy, PartialEq)]
pub enum Kind {
    Volume,
    /// 0, 1, 2: A, B, G.
    Coefficient(usize),
    Input,
    Flag,
    /// y1, y2, the gain or its target.
    Strip,
    /// The remainder of a band that feeds it back, and of one that doesn't.
    Remainder,
    NoRemainder,
}

/// What the number at a place of a unit stands for.
pub fn kind(place: usize) -> Kind {
    let side = if place < RIGHT { LEFT } else { RIGHT };
    match place {
        0 | 1 => Kind::Volume,
        _ if place < LEFT => Kind::Coefficient((place - BANDS) % 3),
        _ if place < side + 2 => Kind::Input,
        _ if place < side + STRIPS => Kind::Flag,
        _ => match place - side - STRIPS {
            place if place % STRIP_COUNT != REMAINDER => Kind::Strip,
            place if feeds_back(place / STRIP_COUNT) => Kind::Remainder,
            _ => Kind::NoRemainder,
        },
    }
}

/// The band sets that units are drawn with.
pub struct Sets {
    extreme: Vec<Band>,
    half: Vec<Band>,
}

impl Sets {
    pub fn all() -> Sets {
        Sets { extreme: extreme_accepted(), half: half_accepted() }
    }

    /// By turns the house set, any accepted bands, bands at the corners of the accepted ranges, bands of many exact
    /// halves, and all of these mixed.
    pub fn draw(&self, turn: u64, random: &mut Random) -> [i32; 30] {
        let mut set = house_set();
        for band in set.chunks_exact_mut(3) {
            let which = if turn % 5 == 4 { random.below(4) } else { turn % 5 };
            let drawn = match which {
                0 => [band[0], band[1], band[2]],
                1 => random_accepted(random),
                2 => random.pick(&self.extreme),
                _ => random.pick(&self.half),
            };
            band.copy_from_slice(&drawn);
        }
        set
    }
}

/// Any word, and often one of the ends, zero or a small one.
fn word(random: &mut Random) -> i32 {
    match random.below(8) {
        0 => random.pick(&[WORD_MIN, WORD_MIN + 1, WORD_MAX - 1, WORD_MAX, 0]),
        1 => random.between(-1_000, 1_000),
        _ => random.word(),
    }
}

/// Any remainder, and often one of the ends, zero or a small one.
fn remainder(random: &mut Random) -> i32 {
    match random.below(8) {
        0 => random.pick(&[-REMAINDER_SIZE, 1 - REMAINDER_SIZE, REMAINDER_SIZE - 1, REMAINDER_SIZE, 0]),
        1 => random.between(-1_000, 1_000),
        _ => random.between(-REMAINDER_SIZE, REMAINDER_SIZE),
    }
}

/// A fit unit with this band set, every other number anywhere in its range.
pub fn random_fit(set: &[i32; 30], random: &mut Random) -> Numbers {
    let mut numbers = cleared(set);
    for (place, number) in numbers.iter_mut().enumerate() {
        *number = match kind(place) {
            Kind::Volume => word(random).max(0),
            Kind::Coefficient(_) => *number,
            Kind::Input => 256 * random.between(-32_768, 32_767),
            Kind::Flag => random.below(2) as i32,
            Kind::Strip => word(random),
            Kind::Remainder => remainder(random),
            Kind::NoRemainder => 0,
        };
    }
    numbers
}

/// The ten sections of both sides: y1, y2, gain, target, remainder.
pub fn strips(numbers: &mut Numbers) -> impl Iterator<Item = &mut [i32]> {
    let (left, right) = numbers[LEFT..].split_at_mut(RIGHT - LEFT);
    let left = left[STRIPS..].chunks_exact_mut(STRIP_COUNT);
    left.chain(right[STRIPS..].chunks_exact_mut(STRIP_COUNT))
}

/// Sets the gain of a section and its target.
pub fn set_gain(strip: &mut [i32], levels: [i32; 2]) {
    strip[GAIN..GAIN + 2].copy_from_slice(&levels);
}

/// A fit unit whose roundings often lie at a half: bands and remainders of multiples of 2^21, the volume at 2^22 or so,
/// and gains of multiples of 2^22 or zero, at rest.
pub fn half_unit(sets: &Sets, random: &mut Random) -> Numbers {
    let mut numbers = random_fit(&sets.draw(3, random), random);
    let volume = random.pick(&[1 << 21, 1 << 22, 3 << 21]);
    numbers[..2].fill(volume);
    let silent = random.below(3) == 0;
    for strip in strips(&mut numbers) {
        let gain = random.pick(&[-(1 << 23), -(1 << 22), 0, 1 << 22]);
        set_gain(strip, [if silent { 0 } else { gain }; 2]);
        strip[REMAINDER] = strip[REMAINDER].signum() * random.pick(&[0, REMAINDER_SIZE]);
    }
    numbers
}
