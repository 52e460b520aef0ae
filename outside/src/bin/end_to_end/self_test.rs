//! Shows that the tests can fail: they pass the programs in a wrapper that spoils nothing, and find each wrong one.

use std::time::Duration;

use outside::checks::Difference;

use super::groups::{named, GROUPS};
use super::run::{DESK, HOUSE, PLAY};
use super::test::{Setup, Test, Wrapper};
use super::wrong::{Wrong, PRELUDE, WRONG};

/// Short sounds are enough for these.
const SOUNDS: u64 = 6;
const FRAMES: usize = 20_000;
/// A wrong program is not waited for.
const SHORT: Duration = Duration::from_millis(300);

/// These programs with some of them wrapped.
fn wrapped(setup: &Setup, programs: &'static [&'static str], text: &str, patience: Duration) -> Setup {
    let wrapper = Some(Wrapper { programs, text: format!("{PRELUDE}{text}") });
    Setup { wrapper, sounds: SOUNDS, frames: FRAMES, patience, ..setup.clone() }
}

/// Every group passes what only starts the real program.
fn right(setup: &Setup) -> Result<(), Difference> {
    let setup = wrapped(setup, &[PLAY, HOUSE, DESK], r#"exec "$0" "$@""#, setup.patience);
    let mut runs = 0;
    for group in GROUPS {
        let mut test = Test::new(setup.clone(), group.seed);
        (group.run)(&mut test).map_err(|difference| format!("right, {}: {difference}", group.name))?;
        runs += test.runs;
    }
    println!("  right: passed by all {} groups, {runs} runs", GROUPS.len());
    Ok(())
}

/// Every group that ought to find this wrong program must do so.
fn unmask(setup: &Setup, (name, what, programs, found_by, text): Wrong) -> Result<(), Difference> {
    let setup = wrapped(setup, programs, text, SHORT);
    for group in found_by.split(", ") {
        let group = named(group)?;
        if (group.run)(&mut Test::new(setup.clone(), group.seed)).is_ok() {
            return Err(format!("{name}: not found by {}", group.name));
        }
    }
    println!("  {name} ({what}): found by {found_by}");
    Ok(())
}

pub fn run(setup: Setup) -> Result<(), Difference> {
    right(&setup)?;
    for wrong in WRONG {
        unmask(&setup, wrong)?;
    }
    println!("  {} wrong programs found", WRONG.len());
    Ok(())
}
