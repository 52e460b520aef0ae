//! The sounds that blocks are played with, sections are stepped with and previews are given.

use crate::random::Random;
use crate::reference::{WORD_MAX, WORD_MIN};

/// What a list of words or a block of samples holds. Both sides of a block hold the same kind, each its own.
#[derive(Clone, Copy)]
pub enum Sound {
    /// Any numbers.
    Noise,
    /// Words as samples enter, "x = 256 × s".
    Samples,
    /// The two ends in turn, each held for so many places; the right is a place behind the left.
    Square(usize),
    /// The two ends at random.
    Ends,
    /// Numbers from -2 to 2.
    Faint,
    /// Any samples of so many bits.
    Soft(u32),
    /// Zeros.
    Silence,
    /// Any numbers for a third of the places, then zeros.
    ThenSilence,
    /// One number, then zeros.
    Impulse(i32),
    /// Any numbers on one side (0 left, 1 right), zeros on the other.
    OneSide(usize),
}

use Sound::{Ends, Faint, Impulse, Noise, OneSide, Samples, Silence, Square, ThenSilence};

/// The sounds of blocks, and those of lists of words.
pub const SOUNDS: &[Sound] = [
    [Noise, Square(1), Square(2), Square(7), Square(50), Square(711), Ends],
    [Faint, Silence, ThenSilence, Impulse(i16::MAX as i32), Impulse(i16::MIN as i32), OneSide(0), OneSide(1)],
]
.as_flattened();
pub const WORD_SOUNDS: &[Sound] = [
    [Noise, Samples, Square(1), Square(2), Square(7), Square(50)],
    [Square(711), Ends, Faint, ThenSilence, Impulse(WORD_MAX), Impulse(WORD_MIN)],
]
.as_flattened();

impl Sound {
    /// The number at a place of a list of this length, on a side: between these ends, and drawn as `any` where it can
    /// be any.
    fn number(
        self,
        [side, place, length]: [usize; 3],
        [low, high]: [i32; 2],
        any: fn(&mut Random) -> i32,
        random: &mut Random,
    ) -> i32 {
        match self {
            Noise => any(random),
            Samples => 256 * random.between(-32_768, 32_767),
            Square(hold) if ((place + side) / hold) & 1 == 0 => high,
            Square(_) => low,
            Ends => random.pick(&[low, high]),
            Faint => random.between(-2, 2),
            Sound::Soft(bits) => any(random) >> (16 - bits),
            ThenSilence if place < length / 3 => any(random),
            Impulse(number) if place == 0 => number,
            OneSide(one) if side == one => any(random),
            _ => 0,
        }
    }

    /// The word at a place of a list of this length.
    pub fn word(self, place: usize, length: usize, random: &mut Random) -> i32 {
        self.number([0, place, length], [WORD_MIN, WORD_MAX], Random::word, random)
    }

    /// A list of so many words.
    pub fn list(self, length: usize, random: &mut Random) -> Vec<i32> {
        (0..length).map(|place| self.word(place, length, random)).collect()
    }

    /// A block: "left then right, low byte first, four a frame".
    pub fn block(self, frames: usize, random: &mut Random) -> Vec<u8> {
        let any = |random: &mut Random| i32::from(random.draw() as i16);
        let places = (0..frames).flat_map(|frame| [[0, frame, frames], [1, frame, frames]]);
        let mut sample = |place| self.number(place, [-32_768, 32_767], any, random) as i16;
        places.flat_map(|place| sample(place).to_le_bytes()).collect()
    }
}
