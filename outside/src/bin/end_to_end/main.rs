//! Runs the programs play, house and desk from end to end: in a folder of its own each time, with the output, the
//! errors and everything in the folder held against the independent implementation. Exit status 0 only if all is right.
//!
//!     end_to_end [PATH]              tests play there, ../target/bin/play else, and the two beside it
//!     end_to_end --self-test [PATH]  tests wrong programs made of these
//!     end_to_end --reference play    is a play of the independent implementation, with --wave for wave files
//!     end_to_end --reference noise SET  is a noise (examples/c/noise.c) of it

mod expected;
mod folder;
mod format;
mod groups;
mod reference;
mod run;
mod seen;
mod self_test;
mod session;
mod test;
mod wrong;

use std::env;
use std::fs;
use std::path::Path;
use std::process::ExitCode;
use std::time::Duration;

use outside::checks::report::report;
use outside::checks::Difference;

use self::format::{RAW, WAVE};
use self::groups::GROUPS;
use self::run::PLAY;
use self::test::{Setup, Test};

const PATH: &str = concat!(env!("CARGO_MANIFEST_DIR"), "/../target/bin/play");
/// Ten seconds at 44.1 kHz.
const FRAMES: usize = 441_000;
const SOUNDS: u64 = 5;
const PATIENCE: Duration = Duration::from_secs(20);

fn main() -> ExitCode {
    let arguments: Vec<String> = env::args().skip(1).collect();
    let words: Vec<&str> = arguments.iter().map(String::as_str).collect();
    match words[..] {
        ["--reference", PLAY] => reference::play(RAW),
        ["--reference", PLAY, "--wave"] => reference::play(WAVE),
        ["--reference", "noise", set] => reference::noise(set),
        ["--self-test"] => told(PATH, self_test::run),
        ["--self-test", path] => told(path, self_test::run),
        [] => told(PATH, test),
        [path] if !path.starts_with("--") => told(path, test),
        _ => {
            eprintln!("usage: end_to_end [[--self-test] [PATH] | --reference play [--wave] | --reference noise SET]");
            ExitCode::FAILURE
        }
    }
}

/// Runs tests of the programs beside this path, and tells how it went.
fn told(path: &str, tests: impl FnOnce(Setup) -> Result<(), Difference>) -> ExitCode {
    report(&GROUPS.map(|group| (group.name, group.seed)), "All is right.", || {
        let play = fs::canonicalize(path).map_err(|error| format!("{path}: {error}"))?;
        let home = play.parent().unwrap_or(Path::new("/")).to_path_buf();
        println!("{}:", home.display());
        tests(Setup { home, wrapper: None, sounds: SOUNDS, frames: FRAMES, patience: PATIENCE })
    })
}

/// Runs every group and prints a line for each; one that differs doesn't keep the others from being run.
fn test(setup: Setup) -> Result<(), Difference> {
    let (mut runs, mut frames, mut differing) = (0, 0, Vec::new());
    for group in GROUPS {
        let mut test = Test::new(setup.clone(), group.seed);
        let outcome = (group.run)(&mut test);
        print!("  {} ({}): ", group.name, group.what);
        match outcome {
            Ok(()) => println!("{} runs agree, {} frames", test.runs, test.frames),
            Err(difference) => {
                println!("{difference}");
                differing.push(group.name);
            }
        }
        for case in &test.left_out {
            println!("    left out, can't be tried here: {case}");
        }
        runs += test.runs;
        frames += test.frames;
    }
    println!("  in all {runs} runs, {frames} frames");
    match differing.is_empty() {
        true => Ok(()),
        false => Err(differing.join(", ")),
    }
}
