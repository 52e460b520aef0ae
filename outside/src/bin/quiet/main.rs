//! Measures the noise of the bands on a quiet reel, without feedback and with it: that of sections stepped alone, which
//! feed nothing back, and that of the library's unit, whose bands 0 to 3 feed their remainder back. Exit status 0 only
//! if each of these four is quieter by so many decibels, and the others are as they were.
//!
//!     quiet [--data FILE]
//!
//! Noise is what rounding adds to a band's result: the result, a word, less the exact one (`noise.rs`). It is not heard
//! in the sound, whose own rounding to 16 bits would cover it, but in y1 of the unit's numbers after each frame. Summed
//! is its power from 20 Hz to 1 kHz (`spectrum.rs`), in decibels of one step of a word; a step of a sample is 48.2. The
//! bands together are what they add to the mix with their gains. With `--data` the spectrum of this is written: Hz, and
//! decibels in 1 Hz, without feedback and with it.

mod noise;
mod spectrum;

use std::env;
use std::fs;
use std::process::ExitCode;

use outside::checks::report::report;
use outside::checks::Difference;
use outside::unit::FEEDBACK_COUNT;

use self::noise::{Noise, FRAMES, LOUDEST, SEED};
use self::spectrum::{tone, Spectrum};

/// What is summed, in Hz.
const HEARD: [f64; 2] = [20.0, 1_000.0];
/// How much quieter each band must be, in decibels.
const QUIETER: f64 = 20.0;

/// What is measured: its name, and its spectrum without feedback and with it.
struct Measured {
    name: String,
    spectra: [Spectrum; 2],
}

impl Measured {
    /// Prints the levels, and gives by how much the second is quieter.
    fn told(&self) -> f64 {
        let [without, with] = self.spectra.each_ref().map(|spectrum| spectrum.level(HEARD));
        println!("  {:<8}{without:>10.1}{with:>10.1}{:>10.1}", self.name, without - with);
        without - with
    }
}

/// The bands that feed back, each by itself and together.
fn measured([without, with]: &[Noise; 2]) -> Vec<Measured> {
    let spectra = |of: &dyn Fn(&Noise) -> Vec<f64>| [without, with].map(|noise| Spectrum::of(&of(noise)));
    let band = |band: usize| Measured { name: band.to_string(), spectra: spectra(&|noise| noise.bands[band].clone()) };
    let together = Measured { name: "together".to_string(), spectra: spectra(&Noise::together) };
    (0..FEEDBACK_COUNT).map(band).chain([together]).collect()
}

/// The first that isn't quieter by what it must be.
fn too_loud(measured: &[Measured]) -> Option<&str> {
    println!("  {:<8}{:>10}{:>10}{:>10}", "band", "without", "with", "quieter");
    let quieter: Vec<f64> = measured.iter().map(Measured::told).collect();
    measured.iter().zip(quieter).find(|(_, quieter)| *quieter < QUIETER).map(|(measured, _)| measured.name.as_str())
}

/// The spectrum of the bands together, a line for each twelfth of an octave.
fn data(measured: &[Measured]) -> String {
    let [without, with] = measured.last().expect("the bands together").spectra.each_ref().map(Spectrum::lines);
    let line = |((hertz, without), (_, with)): ((f64, f64), (f64, f64))| format!("{hertz:.1} {without:.2} {with:.2}\n");
    without.into_iter().zip(with).map(line).collect()
}

/// A tone of amplitude 1 is 3 dB below a step where it is within what is summed, and next to nothing elsewhere.
fn measure_is_right() -> bool {
    let [inside, outside] = [100.0, 5_000.0].map(|hertz| Spectrum::of(&tone(hertz, FRAMES)).level(HEARD));
    (inside + 3.01).abs() < 0.05 && outside < -60.0
}

fn everything(file: Option<&str>) -> Result<(), Difference> {
    if !measure_is_right() {
        return Err("a tone is measured wrongly".to_string());
    }
    let [low, high] = HEARD;
    println!("{FRAMES} frames of samples up to {LOUDEST} in size; dB of a word's step, from {low} to {high} Hz");
    let [without, with] = noise::of_both();
    if without.bands[FEEDBACK_COUNT..] != with.bands[FEEDBACK_COUNT..] {
        return Err("a band that doesn't feed back is not as it was".to_string());
    }
    let levels = with.bands[FEEDBACK_COUNT..].iter().map(|band| format!("{:.1}", Spectrum::of(band).level(HEARD)));
    println!("Bands 4 to 9, as they were: {}", levels.collect::<Vec<String>>().join(", "));
    println!("Without feedback and without it, which is not quieter:");
    if too_loud(&measured(&[without.clone(), without.clone()])).is_none() {
        return Err("without feedback the bands are taken as quieter".to_string());
    }
    println!("Without feedback and with it, which must be quieter by {QUIETER}:");
    let measured = measured(&[without, with]);
    if let Some(path) = file {
        fs::write(path, data(&measured)).map_err(|error| format!("{path}: {error}"))?;
    }
    too_loud(&measured).map_or(Ok(()), |name| Err(format!("{name}: not quieter by {QUIETER} dB")))
}

fn main() -> ExitCode {
    let arguments: Vec<String> = env::args().skip(1).collect();
    let words: Vec<&str> = arguments.iter().map(String::as_str).collect();
    match words[..] {
        [] => report(&[("reel", SEED)], "Quieter.", || everything(None)),
        ["--data", file] => report(&[("reel", SEED)], "Quieter.", || everything(Some(file))),
        _ => {
            eprintln!("usage: quiet [--data FILE]");
            ExitCode::FAILURE
        }
    }
}
