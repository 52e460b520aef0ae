//! The lists whose distance from the exact sound is measured.

use super::bands::{random_accepted, Band};
use super::makers::Maker;
use super::sounds::Sound;
use crate::calls::{Call, List};
use crate::reference::house_set;
use crate::unit::exact::{fed_step, increased};
use crate::unit::feeds_back;
use crate::unit::orders::{Order, VOLUME_BAND};

/// Without memory, so that H stays 1 and the numbers stay short.
const PLAIN: Band = [2_097_153, 0, 0];

/// The house set's band of 16,000 Hz.
const HIGH: Band = [1_338_847, 1_510_783, -3_720_492];

/// Bands that hold a result near 2^21 by their rounding: what they lose in a step is a half, and no more than that.
const CLINGING: [Band; 4] = [
    [2_097_152, 4_194_303, 8_388_606],
    [2_097_152, 0, 4_194_303],
    [2_097_152, -4_194_303, 0],
    [2_097_152, 0, -4_194_303],
];

/// Bands for steered lists, and the frames in which most of their response is heard: with A = 1 a sample can bring S to
/// any place between two multiples of 2^22. One has the poles of the house set's 31 Hz, and the other's response
/// changes its sign in every step.
const STEERED: [(Band, usize); 2] = [([1, 4_181_093, 8_375_315], 2_000), ([1, 0, -4_185_915], 1_500)];

/// Ten bands alike.
fn alike(band: Band) -> [i32; 30] {
    std::array::from_fn(|n| band[n % 3])
}

/// Bands alike where they feed back, and silence in the others.
fn fed_alike(band: Band) -> [i32; 30] {
    std::array::from_fn(|n| if feeds_back(n / 3) { band[n % 3] } else { 0 })
}

/// Orders that send every gain to one factor and the volume to its highest.
fn levels(gain: f32) -> Vec<Call> {
    let gains = (0..10).map(|band| Call::Order(Order::factor(2, band, gain)));
    let volume = Order::position(2, VOLUME_BAND, 31);
    gains.chain([Call::Order(volume)]).collect()
}

fn silence(frames: usize) -> Call {
    Call::block(vec![0; 4 * frames])
}

/// A first sample, then its opposite or zero, both in turn: x - x2 is zero from the third frame on.
fn held(first: i16, second: i16, frames: usize) -> Call {
    let pair = [first, first, second, second].map(i16::to_le_bytes);
    let bytes: Vec<u8> = pair.concat().repeat(frames / 2);
    Call::block(bytes)
}

/// Levels rising while a clinging band holds what the first sample gave.
fn clinging(band: Band, first: i16, frames: usize) -> List {
    let second = if band == CLINGING[0] { -first } else { 0 };
    let mut calls = levels(0.999);
    calls.push(held(first, second, frames));
    let set = alike(band);
    List { set, calls }
}

/// The signs of h(k) - h(k-1), the last first: those of the remainders that add up in the last of so many frames.
fn steering_signs([_, b, g]: Band, frames: usize) -> Vec<i64> {
    let [b, g] = [b, g].map(|word| f64::from(word) / 4_194_304.0);
    let (mut next, mut last) = (1.0, 0.0);
    let mut sign = || {
        let sign = if next < last { -1 } else { 1 };
        (next, last) = (g * next - b * last, next);
        sign
    };
    let mut signs: Vec<i64> = (0..frames).map(|_| sign()).collect();
    signs.reverse();
    signs
}

/// The samples with which each remainder of a band that feeds back is nearly a half, with these signs.
fn steered_samples([a, b, g]: Band, signs: &[i64]) -> Vec<i16> {
    let (mut section, mut remainder, mut samples) = ([a, b, g, 0, 0, 0, 0], 0, Vec::new());
    for sign in signs {
        // S with x = 0, and how many steps of 256 there are from it to just below the half.
        let sum = increased(&section, 0, remainder, 0) as i64;
        let steps = (sign * (2_097_152 - 256) - sum).div_euclid(256).rem_euclid(16_384);
        let sample = if steps < 8_192 { steps } else { steps - 16_384 } as i16;
        fed_step(&mut section, 0, &mut remainder, 256 * i32::from(sample));
        samples.push(sample);
    }
    samples
}

/// Levels risen in silence, and then samples that bring every remainder to a half, so that all of them add up in the
/// last frame; on the right with the signs turned.
fn steered(band: Band, frames: usize) -> List {
    let signs = steering_signs(band, frames);
    let left = steered_samples(band, &signs);
    let right = steered_samples(band, &signs.iter().map(|sign| -sign).collect::<Vec<i64>>());
    let bytes = left.iter().zip(&right).flat_map(|(left, right)| [*left, *right].map(i16::to_le_bytes)).flatten();
    let mut calls = levels(0.999);
    calls.extend([silence(6_000), Call::block(bytes.collect())]);
    let set = fed_alike(band);
    List { set, calls }
}

impl Maker {
    /// Noise with all levels rising, through bands too weak to limit at once.
    fn rising(&mut self, turn: u64, frames: usize) -> List {
        let mut set = match turn % 3 {
            0 => house_set(),
            1 => alike(random_accepted(&mut self.random)),
            _ => self.set(5),
        };
        let shift = self.random.below(8);
        set.chunks_exact_mut(3).for_each(|band| band[0] >>= shift);
        let gain = self.random.pick(&[-1.0, 0.5, 0.999]);
        let mut calls = levels(gain);
        for sound in [Sound::Noise, self.sound(), Sound::Soft(12)] {
            calls.push(Call::Order(self.order()));
            calls.push(self.block(sound, frames));
        }
        List { set, calls }
    }

    /// Noise after so many silent frames in which the levels rise; the volume is at its highest after 20,021.
    fn risen(&mut self, band: Band, gain: f32, rise: usize, frames: usize) -> List {
        let mut calls = levels(gain);
        calls.push(silence(rise));
        for sound in [Sound::Soft(13), Sound::Noise] {
            calls.push(Call::block(sound.block(frames, &mut self.random)));
        }
        let set = alike(band);
        List { set, calls }
    }
}

/// Every list, the short ones first.
pub fn lists(seed: u64) -> Vec<List> {
    let mut maker = Maker::new(seed);
    let mut lists = Vec::new();
    for turn in 0..1_200 {
        let set = maker.set(turn);
        lists.push(maker.list(set, turn % 2 == 0, 12, 8));
    }
    lists.extend(STEERED.map(|(band, frames)| steered(band, frames)));
    lists.push(maker.risen(HIGH, 0.999, 8_000, 100));
    for turn in 0..90 {
        let set = maker.set(turn);
        lists.push(maker.list(set, true, 10, 60));
        lists.push(maker.rising(turn, 80));
    }
    lists.push(maker.risen(PLAIN, 0.1, 20_021, 1_000));
    lists.push(maker.risen(PLAIN, -1.0, 20_021, 300));
    for band in CLINGING {
        for first in [16_384, 24_248, 16_300] {
            lists.push(clinging(band, first, 600));
        }
    }
    lists.push(clinging(CLINGING[1], 16_384, 2_500));
    for turn in 0..3 {
        lists.push(maker.rising(turn, 300));
    }
    lists
}
