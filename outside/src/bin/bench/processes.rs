//! The same timed in several processes: where the stack lies differs from one to the next, and an array on it may lie
//! badly. A process of its own is this program with the name of what is played.

use std::env;
use std::process::{Command, ExitCode, Stdio};

use super::blocks::{Played, PLAYED};

/// The best of so many processes counts.
pub const PROCESSES: usize = 8;

/// Times what is named, and prints both times.
pub fn one(name: &str) -> ExitCode {
    let named = PLAYED.iter().find(|played| played.name == name).ok_or("nothing has this name".to_string());
    match named.and_then(Played::time_here) {
        Ok([one, other]) => {
            println!("{one} {other}");
            ExitCode::SUCCESS
        }
        Err(fault) => {
            println!("{fault}");
            ExitCode::FAILURE
        }
    }
}

/// The two times that a process of its own prints.
fn another(played: &Played) -> Result<[f64; 2], String> {
    let program = env::current_exe().map_err(|error| format!("this program: {error}"))?;
    let ended = Command::new(program).arg(played.name).stderr(Stdio::inherit()).output();
    let output = ended.map_err(|error| format!("{} can't be started: {error}", played.name))?.stdout;
    let told = String::from_utf8_lossy(&output);
    let times: Option<Vec<f64>> = told.split_whitespace().map(|time| time.parse().ok()).collect();
    times.and_then(|times| times.try_into().ok()).ok_or(format!("{}: {told}", played.name))
}

/// Of each time the best.
pub fn best_of_all(played: &Played) -> Result<[f64; 2], String> {
    let mut best = [f64::MAX; 2];
    for _ in 0..PROCESSES {
        let times = another(played)?;
        best = [0, 1].map(|n| times[n].min(best[n]));
    }
    Ok(best)
}
