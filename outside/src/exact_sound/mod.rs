//! The exact sound: "It is fed the band set and each call of the list with its arguments, and takes nothing from the
//! unit." Quoted sentences are the specification's.

pub mod big;
pub mod fraction;
pub mod judge;
pub mod response;

use self::fraction::Fraction;
use crate::unit::orders::{exact, Order};
use crate::unit::{Level, GAIN_SLOPE, VOLUME_SLOPE};

/// Outputs are reckoned × 2^54.
const ONE: i64 = 1 << 54;

/// "y1 and y2 for each band of a side, these as fractions", and its gain.
#[derive(Default)]
struct Strip {
    y1: Fraction,
    y2: Fraction,
    gain: Level,
}

/// "x1 and x2 for each side".
#[derive(Default)]
struct Side {
    x1: i64,
    x2: i64,
    strips: [Strip; 10],
}

/// The reckoning between two frames.
pub struct ExactSound {
    set: [i32; 30],
    volume: Level,
    sides: [Side; 2],
}

impl Side {
    /// "each band's y = (A × (x - x2) + G × y1 - B × y2) / 2^22"; then "x1 passes to x2 and x to x1, and in each band
    /// y1 to y2 and y to y1."
    fn step(&mut self, set: &[i32; 30], x: i64) {
        let difference = Fraction::whole(x - self.x2);
        for (strip, band) in self.strips.iter_mut().zip(set.chunks_exact(3)) {
            let [a, b, g] = [0, 1, 2].map(|n| i64::from(band[n]));
            let terms = [(a, &difference), (g, &strip.y1), (-b, &strip.y2)];
            let y = Fraction::sum(&terms).over_2_22();
            strip.y2 = std::mem::replace(&mut strip.y1, y);
        }
        self.x2 = self.x1;
        self.x1 = x;
    }

    /// 2^23 × m, where "m = x + (sum of g × y) / 2^23"; y has passed to y1.
    fn mix(&self) -> Fraction {
        let x = Fraction::whole(self.x1);
        let products = self.strips.iter().map(|strip| (strip.gain.present.into(), &strip.y1));
        Fraction::sum(&products.chain([(1 << 23, &x)]).collect::<Vec<_>>())
    }
}

impl ExactSound {
    /// "All begin at zero."
    pub fn new(set: &[i32; 30]) -> ExactSound {
        ExactSound { set: *set, volume: Level::default(), sides: Default::default() }
    }

    /// "An accepted order sets targets by the rules under Levels."
    pub fn order(&mut self, order: &Order) {
        let target = exact::target(order);
        if order.is_volume() {
            self.volume.target = target;
            return;
        }
        for place in (0..2).filter(|&place| order.names(place)) {
            self.sides[place].strips[order.band as usize].gain.target = target;
        }
    }

    /// A frame of an accepted block: "every gain and V first moves as under Levels. Then on each side x = 256 × s".
    pub fn frame(&mut self, samples: [i16; 2]) {
        self.volume.move_once(VOLUME_SLOPE);
        for (side, sample) in self.sides.iter_mut().zip(samples) {
            side.strips.iter_mut().for_each(|strip| strip.gain.move_once(GAIN_SLOPE));
            side.step(&self.set, 256 * i64::from(sample));
        }
    }

    /// 2^54 × "The exact output", which "is V × m / 2^31, limited to -32,768 to 32,767", of a side in the latest frame.
    pub fn output(&self, side: usize) -> Fraction {
        let output = Fraction::sum(&[(self.volume.present.into(), &self.sides[side].mix())]);
        let [low, high] = [-32_768, 32_767].map(|end| Fraction::sum(&[(ONE, &Fraction::whole(end))]));
        output.limited(&low, &high)
    }

    /// V and a side's g in the latest frame.
    pub fn levels(&self, side: usize) -> (i64, [i64; 10]) {
        let strips = &self.sides[side].strips;
        let gains = std::array::from_fn(|band| strips[band].gain.present.into());
        (self.volume.present.into(), gains)
    }
}
