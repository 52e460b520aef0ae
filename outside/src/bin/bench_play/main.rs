//! Times the play program on four minutes of noise, as raw frames and as a wave file, against the bare engine of the
//! static library and against sox with ten equalisers, and looks at its memory. Exit status 0 only if all limits are kept.
//!
//!     bench_play [--play PATH] [--need-sox]

mod material;
mod programs;

use std::env;
use std::fs;
use std::path::{Path, PathBuf};
use std::process::ExitCode;

use outside::timer::{in_turns, kept, status, within, Goal, NO_GOAL};

use self::material::{Material, FRAMES, RATE, SEED};
use self::programs::Times;

const PLAY: &str = concat!(env!("CARGO_MANIFEST_DIR"), "/../target/bin/play");
/// The best of so many runs counts.
const RUNS: usize = 3;

/// The most user time, in times of sox, and what is aimed at.
const MOST_OF_SOX: f64 = 0.6;
const SOX_GOAL: Goal = Goal { ratio: 0.25, ..NO_GOAL };
/// The most user and system time, in times of the engine.
const MOST_OF_ENGINE: f64 = 1.3;
/// The memory must stay below so many bytes.
const MEMORY: u64 = 4_000_000;

/// The times of a run by name; their places.
const NAMES: [&str; 3] = ["user", "user and system", "elapsed"];
const USER: usize = 0;
const USER_AND_SYSTEM: usize = 1;

/// The play program, and whether sox is needed.
fn arguments() -> Option<(PathBuf, bool)> {
    let (mut play, mut need_sox) = (PathBuf::from(PLAY), false);
    let mut given = env::args().skip(1);
    while let Some(argument) = given.next() {
        match argument.as_str() {
            "--play" => play = PathBuf::from(given.next()?),
            "--need-sox" => need_sox = true,
            _ => return None,
        }
    }
    Some((play, need_sox))
}

/// What is timed: a name and a run.
type Racer = (&'static str, fn(&Material) -> Result<Times, String>);
const RAW: Racer = ("play", programs::play);
const WAVE: Racer = ("play --wave", programs::play_wave);
const ENGINE: Racer = ("engine", programs::engine);
const SOX: Racer = ("sox", programs::sox);

/// Two in turns: this time of theirs.
fn race(material: &Material, racers: [Racer; 2], which: usize, goal: Goal) -> Result<[f64; 2], String> {
    let [first, second] = racers.map(|(_, run)| run);
    let best = in_turns(RUNS, [&mut || Ok((first(material)?, 0)), &mut || Ok((second(material)?, 0))])?;
    for ((name, _), times) in racers.iter().zip(best) {
        let times_told: Vec<String> =
            times.iter().zip(NAMES).map(|(time, what)| format!("{time:.3} s {what}")).collect();
        let real_time = (FRAMES / RATE) as f64 / times[2];
        println!("{name} {} ({real_time:.0} times real time)", times_told.join(", "));
    }
    let [play, other] = best.map(|times| times[which]);
    println!("  {} time: ratio {:.3}{}", NAMES[which], play / other, goal.told([play, other]));
    Ok([play, other])
}

fn memory_below(material: &Material, most: u64) -> Result<bool, String> {
    let memory = programs::memory_of_play(material)?;
    println!("memory of play: at most {memory} bytes, below {most}; sound and sheet the engine's");
    Ok(memory < most)
}

fn everything(play: &Path, need_sox: bool) -> Result<bool, String> {
    let play = fs::canonicalize(play).map_err(|error| format!("{}: {error}", play.display()))?;
    let material = Material::new(play).map_err(|error| format!("the noise: {error}"))?;
    println!("seed {SEED:#x}, {FRAMES} frames of noise, best of {RUNS} runs each, in turns");
    let mut all_kept = kept("the memory", || memory_below(&material, MEMORY))?;
    for player in [RAW, WAVE] {
        let engine = || race(&material, [player, ENGINE], USER_AND_SYSTEM, NO_GOAL);
        all_kept &= within(&format!("{} and the engine", player.0), MOST_OF_ENGINE, engine)?;
    }
    if programs::has_sox() {
        all_kept &= within("play and sox", MOST_OF_SOX, || race(&material, [RAW, SOX], USER, SOX_GOAL))?;
    } else if need_sox {
        return Err("sox is not installed".to_string());
    } else {
        println!("sox is not installed: its ratio is left out");
    }
    Ok(all_kept)
}

fn main() -> ExitCode {
    let Some((play, need_sox)) = arguments() else {
        println!("usage: bench_play [--play PATH] [--need-sox]");
        return ExitCode::FAILURE;
    };
    status(everything(&play, need_sox))
}
