//! The noise of the ten bands of the house set on a quiet reel: what rounding adds to their results.

use outside::ffi;
use outside::random::Random;
use outside::reference::{fast, house_set, Section, ACCEPTED};
use outside::unit::orders::{Order, BOTH, VOLUME_BAND};
use outside::unit::{house_unit, strip_at, Numbers, FEEDBACK_COUNT, GAIN, LEFT};

pub const SEED: u64 = 0xF0DD_0030;
/// The frames that are measured, those ahead of them, and the largest sample.
pub const FRAMES: usize = 1 << 18;
const AHEAD: usize = 1 << 13;
pub const LOUDEST: i32 = 3;
/// The frames in which the volume rises to position 31.
const RISE: usize = 20_021;

/// The bits behind the point of an exact result. What is cut off there is less than 2^-60 in a step, and adds up to
/// less than 2^-43: no band of the house set answers a step by more than 100,000 in all.
const BITS: u32 = 60;

/// A band's section, nowhere rounded but at the last of these bits.
struct Exact {
    band: [i128; 3],
    x1: i128,
    x2: i128,
    y1: i128,
    y2: i128,
}

impl Exact {
    fn cleared(band: &[i32]) -> Exact {
        Exact { band: [0, 1, 2].map(|n| band[n].into()), x1: 0, x2: 0, y1: 0, y2: 0 }
    }

    /// "y = (A × (x - x2) + G × y1 - B × y2) / 2^22".
    fn step(&mut self, x: i32) -> i128 {
        let ([a, b, g], x) = (self.band, i128::from(x));
        let y = (((a * (x - self.x2)) << BITS) + g * self.y1 - b * self.y2) >> 22;
        (self.x2, self.x1) = (self.x1, x);
        (self.y2, self.y1) = (self.y1, y);
        y
    }
}

/// The noise of each band, frame by frame, in steps of a word; and the gains of the bands that feed back, as factors.
#[derive(Clone)]
pub struct Noise {
    pub bands: [Vec<f64>; 10],
    gains: [f64; FEEDBACK_COUNT],
}

impl Noise {
    /// What the bands that feed back add to the mix.
    pub fn together(&self) -> Vec<f64> {
        let weighted = |frame: usize| self.gains.iter().zip(&self.bands).map(|(gain, band)| gain * band[frame]).sum();
        (0..FRAMES).map(weighted).collect()
    }
}

/// The unit with bands 0 to 3 and the volume at position 31, risen in silence.
fn risen() -> Numbers {
    let mut unit = house_unit();
    for band in (0..FEEDBACK_COUNT as u32).chain([VOLUME_BAND]) {
        assert_eq!(ffi::order(&mut unit, &Order::position(BOTH, band, 31)), ACCEPTED);
    }
    assert_eq!(ffi::block(&mut unit, &[0; 4 * RISE], &mut [0; 4 * RISE]), ACCEPTED);
    unit
}

/// The results of the ten bands after each frame, by this function of a sample.
fn results(mut play: impl FnMut(i16) -> [i32; 10]) -> [Vec<f64>; 10] {
    let mut random = Random::new(SEED);
    let set = house_set();
    let mut exact: [Exact; 10] = std::array::from_fn(|band| Exact::cleared(&set[3 * band..]));
    let mut noise = [(); 10].map(|()| Vec::with_capacity(FRAMES));
    for frame in 0..AHEAD + FRAMES {
        let sample = random.between(-LOUDEST, LOUDEST) as i16;
        let played = play(sample);
        for band in 0..10 {
            let added = (i128::from(played[band]) << BITS) - exact[band].step(256 * i32::from(sample));
            if frame >= AHEAD {
                noise[band].push(added as f64 / 2_f64.powi(BITS as i32));
            }
        }
    }
    noise
}

/// The noise of sections stepped alone, and that of the library's unit, a frame a block.
pub fn of_both() -> [Noise; 2] {
    let set = house_set();
    let mut sections: [Section; 10] = std::array::from_fn(|n| [set[3 * n], set[3 * n + 1], set[3 * n + 2], 0, 0, 0, 0]);
    let without = results(|sample| sections.each_mut().map(|section| fast::step(section, 256 * i32::from(sample)).y));
    let mut unit = risen();
    let gains = std::array::from_fn(|band| f64::from(unit[strip_at(LEFT, band) + GAIN]) / 8_388_608.0);
    let with = results(|sample| {
        let frame = [sample; 2].map(i16::to_le_bytes);
        assert_eq!(ffi::block(&mut unit, frame.as_flattened(), &mut [0; 4]), ACCEPTED);
        std::array::from_fn(|band| unit[strip_at(LEFT, band)])
    });
    [without, with].map(|bands| Noise { bands, gains })
}
