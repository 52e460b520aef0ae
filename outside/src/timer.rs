//! Two contenders timed in turns, and limits that are measured more than once.

use std::process::ExitCode;
use std::time::Instant;

/// A limit is measured up to so often, since other work disturbs it.
const TRIALS: usize = 3;

/// The times of a run and the checksum of its results.
pub type Run<const N: usize> = Result<([f64; N], u64), String>;

/// The nanoseconds that something takes, and what it gives.
pub fn timed<T>(run: impl FnOnce() -> T) -> (f64, T) {
    let begun = Instant::now();
    let given = run();
    (begun.elapsed().as_nanos() as f64, given)
}

/// A checksum with one number more.
pub fn fold(checksum: u64, number: i64) -> u64 {
    checksum.rotate_left(1) ^ number as u64
}

/// Both in turns, so many rounds: of each time the best. The checksums of a round must be equal.
pub fn in_turns<const N: usize>(
    rounds: usize,
    [first, second]: [&mut dyn FnMut() -> Run<N>; 2],
) -> Result<[[f64; N]; 2], String> {
    let mut best = [[f64::MAX; N]; 2];
    for _ in 0..rounds {
        let [(one, sum), (other, other_sum)] = [first()?, second()?];
        if sum != other_sum {
            return Err("the results differ".to_string());
        }
        let times = one.into_iter().chain(other);
        best.as_flattened_mut().iter_mut().zip(times).for_each(|(best, time)| *best = best.min(time));
    }
    Ok(best)
}

/// What is aimed at, and fails nothing: the ratio of two times, and the first of them in nanoseconds.
#[derive(Clone, Copy)]
pub struct Goal {
    pub ratio: f64,
    pub time: f64,
}

/// Nothing is aimed at.
pub const NO_GOAL: Goal = Goal { ratio: f64::INFINITY, time: f64::INFINITY };

impl Goal {
    /// The goal in words, and whether these times come to it.
    pub fn told(self, [one, other]: [f64; 2]) -> String {
        let time = self.time.is_finite().then(|| format!("{} ns", self.time));
        let ratio = self.ratio.is_finite().then(|| format!("ratio {:.2}", self.ratio));
        let goals: Vec<String> = time.into_iter().chain(ratio).collect();
        let reached = if one <= self.time && one / other <= self.ratio { "reached" } else { "missed" };
        if goals.is_empty() {
            String::new()
        } else {
            format!("; goal {}: {reached}", goals.join(", "))
        }
    }
}

/// True where one of the measured pairs of times has at most this ratio.
pub fn within(name: &str, most: f64, mut times: impl FnMut() -> Result<[f64; 2], String>) -> Result<bool, String> {
    kept(&format!("{name}, ratio over {most:.2}"), || times().map(|[one, other]| one / other <= most))
}

/// True where one of the measurements keeps the limit; otherwise that is told.
pub fn kept(limit: &str, mut measure: impl FnMut() -> Result<bool, String>) -> Result<bool, String> {
    for _ in 0..TRIALS {
        if measure()? {
            return Ok(true);
        }
    }
    println!("FAILED: {limit}");
    Ok(false)
}

/// Tells how it went and gives the exit status: 0 only if all limits are kept.
pub fn status(all_kept: Result<bool, String>) -> ExitCode {
    match &all_kept {
        Ok(true) => println!("All limits are kept."),
        Ok(false) => println!("Not all limits are kept."),
        Err(fault) => println!("FAILED: {fault}"),
    }
    if all_kept == Ok(true) {
        ExitCode::SUCCESS
    } else {
        ExitCode::FAILURE
    }
}
