//! How a run of tests went.

use std::process::ExitCode;
use std::time::Instant;

use super::Difference;

/// Prints the seeds, runs the tests, and prints how long they took and how they went, in these words if all agree.
pub fn report(seeds: &[(&str, u64)], right: &str, run: impl FnOnce() -> Result<(), Difference>) -> ExitCode {
    let begun = Instant::now();
    let named = |&(name, seed): &(&str, u64)| format!("{name} {seed:#x}");
    let seeds: Vec<String> = seeds.iter().map(named).collect();
    println!("seeds: {}", seeds.join(", "));
    let result = run();
    println!("{:.1} seconds", begun.elapsed().as_secs_f64());
    match result {
        Ok(()) => {
            println!("{right}");
            ExitCode::SUCCESS
        }
        Err(difference) => {
            println!("DIFFERENCE: {difference}");
            ExitCode::FAILURE
        }
    }
}
