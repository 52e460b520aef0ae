//! The distance of what a unit played from the exact sound. In every frame a side none of whose sections has limited is
//! at most 1/2 + V / 2^32 + V × (sum of |g| × H) / 2^55 away.

use super::fraction::Fraction;
use super::response::Responses;
use super::{ExactSound, ONE};
use crate::calls::{Call, List};
use crate::reference::Section;
use crate::unit::exact::fed_step;
use crate::unit::feeds_back;
use std::array::from_fn;

/// What the frames of lists were found to be. A frame counts once a side.
#[derive(Clone, Copy, Default)]
pub struct Distances {
    pub lists: u64,
    /// Lists in which a section limited.
    pub limited: u64,
    /// Frames held to the bound.
    pub judged: u64,
    /// Frames with a section limited up to then, and those of them that lie beyond the bound.
    pub skipped: u64,
    pub skipped_beyond: u64,
    /// Judged frames farther away than 1/2 + V / 2^32, so that the part of the sections is needed.
    pub need_sections: u64,
    /// The largest distance as a part of the bound; the largest where the part of the sections is more than the rest of
    /// the bound; and the largest where that of the sections that feed back is more than all the rest.
    pub largest: f64,
    pub largest_of_sections: f64,
    pub largest_of_fed: f64,
}

impl Distances {
    /// Takes the largest of both.
    pub fn widen(&mut self, other: &Distances) {
        self.largest = self.largest.max(other.largest);
        self.largest_of_sections = self.largest_of_sections.max(other.largest_of_sections);
        self.largest_of_fed = self.largest_of_fed.max(other.largest_of_fed);
    }
}

/// The ten sections of both sides, each with its remainder. Whether one has limited is "worked from the list by the
/// rounding and limiting under Words and the section, and not read from the flag; in bands 0 to 3 of the increased S."
struct Limiting {
    sides: [[(Section, i32); 10]; 2],
    /// Whether a section of a side has limited up to now.
    limited: [bool; 2],
}

impl Limiting {
    fn new(set: &[i32; 30]) -> Limiting {
        let side = from_fn(|n| ([set[3 * n], set[3 * n + 1], set[3 * n + 2], 0, 0, 0, 0], 0));
        Limiting { sides: [side; 2], limited: [false; 2] }
    }

    /// A frame of an accepted block.
    fn frame(&mut self, samples: [i16; 2]) {
        for (place, x) in samples.map(|sample| 256 * i32::from(sample)).into_iter().enumerate() {
            for (band, (section, remainder)) in self.sides[place].iter_mut().enumerate() {
                self.limited[place] |= fed_step(section, band, remainder, x).limited == 1;
            }
        }
    }
}

/// The reckonings of one list side by side.
struct Judge {
    sound: ExactSound,
    responses: Responses,
    limiting: Limiting,
    frames: u64,
    distances: Distances,
}

impl Judge {
    /// Counts a sample that isn't the exact output. Beyond the bound it is a fault, unless its side has limited. Twice
    /// the distance and twice the bound are reckoned, all × 2^54.
    fn sample(&mut self, side: usize, sample: i16) -> Result<(), String> {
        let distances = &mut self.distances;
        let limited = self.limiting.limited[side];
        distances.skipped += u64::from(limited);
        distances.judged += u64::from(!limited);
        let (played, exact) = (Fraction::whole(sample.into()), self.sound.output(side));
        let distance = Fraction::sum(&[(2 * ONE, &played), (-2, &exact)]).size();
        if distance.is_zero() {
            return Ok(());
        }
        let (volume, gains) = self.sound.levels(side);
        let outer = Fraction::whole(ONE + (volume << 23));
        let weights = gains.map(|gain| volume * gain.abs());
        let sections = self.responses.weighted(&weights);
        let bound = Fraction::sum(&[(1, &outer), (1, &sections)]);
        let is_beyond = distance.compared_with(&bound).is_gt();
        if limited {
            distances.skipped_beyond += u64::from(is_beyond);
            return Ok(());
        }
        let part = distance.approximately() / bound.approximately();
        if is_beyond {
            let place = format!("frame {} of a list, side {side}", self.frames);
            return Err(format!("{place}: the sample {sample} is {part} times the bound away from the exact sound"));
        }
        distances.need_sections += u64::from(distance.compared_with(&outer).is_gt());
        distances.largest = distances.largest.max(part);
        if sections.compared_with(&outer).is_gt() {
            distances.largest_of_sections = distances.largest_of_sections.max(part);
            let fed = self.responses.weighted(&from_fn(|band| if feeds_back(band) { 2 * weights[band] } else { 0 }));
            if fed.compared_with(&bound).is_gt() {
                distances.largest_of_fed = distances.largest_of_fed.max(part);
            }
        }
        Ok(())
    }

    fn frame(&mut self, samples: [i16; 2], played: [i16; 2]) -> Result<(), String> {
        self.frames += 1;
        self.sound.frame(samples);
        self.responses.grow();
        self.limiting.frame(samples);
        (0..2).try_for_each(|side| self.sample(side, played[side]))
    }
}

/// The samples of a frame.
fn samples(frame: &[u8]) -> [i16; 2] {
    [[frame[0], frame[1]], [frame[2], frame[3]]].map(i16::from_le_bytes)
}

/// Judges a list by the outputs that its blocks handed back, in turn.
pub fn judge(list: &List, outputs: &[Vec<u8>]) -> Result<Distances, String> {
    let set = &list.set;
    let (sound, responses, limiting) = (ExactSound::new(set), Responses::new(set), Limiting::new(set));
    let mut judge = Judge { sound, responses, limiting, frames: 0, distances: Distances::default() };
    let mut outputs = outputs.iter();
    for call in &list.calls {
        match call {
            Call::Order(order) if call.is_accepted() => judge.sound.order(order),
            Call::Order(_) => {}
            Call::Block { input, .. } => {
                let output = outputs.next().expect("an output for each block");
                let frames = if call.is_accepted() { input.len() / 4 } else { 0 };
                let sounds = input.chunks_exact(4).zip(output.chunks_exact(4));
                for (frame, played) in sounds.take(frames) {
                    judge.frame(samples(frame), samples(played))?;
                }
            }
        }
    }
    let limited = judge.limiting.limited.contains(&true);
    Ok(Distances { lists: 1, limited: limited.into(), ..judge.distances })
}
