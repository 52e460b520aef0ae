//! The power of a signal by frequency: the mean of overlapping pieces, each under a Hann window.

use std::f64::consts::TAU;

/// Frames in a second.
const RATE: f64 = 44_100.0;
/// The frames of a piece; each begins half of them behind the one before.
const PIECE: usize = 1 << 15;
/// The width of a place of a spectrum, in Hz.
const WIDTH: f64 = RATE / PIECE as f64;

/// The power in 1 Hz at each multiple of WIDTH, up to half of RATE.
pub struct Spectrum {
    density: Vec<f64>,
}

/// A tone of amplitude 1.
pub fn tone(hertz: f64, frames: usize) -> Vec<f64> {
    (0..frames).map(|frame| (TAU * hertz * frame as f64 / RATE).sin()).collect()
}

fn decibels(power: f64) -> f64 {
    10.0 * power.log10()
}

/// A complex number.
type Complex = [f64; 2];

fn times([a, b]: Complex, [c, d]: Complex) -> Complex {
    [a * c - b * d, a * d + b * c]
}

/// The discrete Fourier transform of a list whose length is a power of two, by halves.
fn transformed(list: &[Complex]) -> Vec<Complex> {
    if list.len() == 1 {
        return list.to_vec();
    }
    let half = |from: usize| transformed(&list.iter().copied().skip(from).step_by(2).collect::<Vec<Complex>>());
    let (even, odd) = (half(0), half(1));
    let turned = |k: usize| {
        let (sine, cosine) = (-TAU * k as f64 / list.len() as f64).sin_cos();
        times([cosine, sine], odd[k])
    };
    let turned: Vec<Complex> = (0..odd.len()).map(turned).collect();
    let sums = even.iter().zip(&turned).map(|(e, t)| [e[0] + t[0], e[1] + t[1]]);
    let differences = even.iter().zip(&turned).map(|(e, t)| [e[0] - t[0], e[1] - t[1]]);
    sums.chain(differences).collect()
}

impl Spectrum {
    pub fn of(signal: &[f64]) -> Spectrum {
        let window: Vec<f64> = (0..PIECE).map(|n| 0.5 - 0.5 * (TAU * n as f64 / PIECE as f64).cos()).collect();
        let pieces: Vec<&[f64]> = signal.windows(PIECE).step_by(PIECE / 2).collect();
        // Each frequency stands for its negative too.
        let weight = 2.0 / (RATE * window.iter().map(|weight| weight * weight).sum::<f64>() * pieces.len() as f64);
        let mut density = vec![0.0; PIECE / 2];
        for piece in pieces {
            let windowed: Vec<Complex> =
                piece.iter().zip(&window).map(|(value, weight)| [value * weight, 0.0]).collect();
            let power = transformed(&windowed).into_iter().map(|[a, b]| a * a + b * b);
            density.iter_mut().zip(power).for_each(|(sum, power)| *sum += weight * power);
        }
        Spectrum { density }
    }

    /// The powers at the frequencies from low to below high.
    fn within(&self, [low, high]: [f64; 2]) -> &[f64] {
        let place = |hertz: f64| (hertz / WIDTH).ceil() as usize;
        &self.density[place(low)..place(high).min(self.density.len())]
    }

    /// The power from low to high, in decibels.
    pub fn level(&self, range: [f64; 2]) -> f64 {
        decibels(self.within(range).iter().sum::<f64>() * WIDTH)
    }

    /// The mean power in 1 Hz around each twelfth of an octave from 20 Hz to 20 kHz, in decibels; where a twelfth is
    /// narrower than what the pieces tell apart, that of the nearest frequency.
    pub fn lines(&self) -> Vec<(f64, f64)> {
        let mean = |hertz: f64| {
            let half = (hertz / 34.0).max(WIDTH / 2.0);
            let powers = self.within([hertz - half, hertz + half]);
            (hertz, decibels(powers.iter().sum::<f64>() / powers.len() as f64))
        };
        (0..=120)
            .map(|twelfth| mean(20.0 * 2_f64.powf(f64::from(twelfth) / 12.0)))
            .filter(|(hertz, _)| *hertz <= 20_000.0)
            .collect()
    }
}
