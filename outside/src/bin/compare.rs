//! Compares the library with the independent reference. Exit status 0 only if every answer agrees and every wrong
//! implementation is found out.

use std::process::ExitCode;

use outside::checks::groups::*;
use outside::checks::report::report;
use outside::checks::{Difference, Tally};
use outside::exact_sound::judge::Distances;
use outside::faults::{Wrong, RIGHT, RIGHT_FED, WRONG};
use outside::flushed::{self, CARRIED, FLUSHED};
use outside::lent;
use outside::subject::{Form, FAST, LIBRARY};

/// The least part of the bound that the largest distance must come to.
const NEAR: f64 = 0.9;

fn main() -> ExitCode {
    let groups = GROUPS.iter().chain(OTHERS).filter(|group| group.seed != 0);
    let seeds: Vec<(&str, u64)> = groups.map(|group| (group.name, group.seed)).collect();
    report(&seeds, "All agree.", everything)
}

fn everything() -> Result<(), Difference> {
    println!("The arithmetic of the exact sound:");
    println!("  {} answers agree", run(&BIG_NUMBERS, &FAST)?.answers);
    println!("The fast Rust form against the exact one:");
    every_group(&FAST, &[])?;
    println!("The library against the exact Rust form:");
    every_group(&LIBRARY, &[MANY_SHEETS])?;
    if !lent::keeps_to_its_numbers() {
        return Err("the library wrote outside what was lent to it".to_string());
    }
    println!("  numbers and bytes before and behind the lent ones kept");
    with_subnormals_flushed()?;
    println!("Wrong implementations, each to be found by the groups named:");
    every_wrong_one()
}

/// The library called with flush-to-zero and denormals-are-zero, and an implementation that is wrong only then.
fn with_subnormals_flushed() -> Result<(), Difference> {
    if !flushed::AVAILABLE {
        println!("Flush-to-zero and denormals-are-zero are set on x86-64 only: this is left out here.");
        return Ok(());
    }
    println!("The library with flush-to-zero and denormals-are-zero against the exact Rust form:");
    if !flushed::is_zero_within() {
        return Err("subnormal numbers are not flushed".to_string());
    }
    let total = each_group(flushed::GROUPS, &FLUSHED)?;
    println!("  in all {} answers", total.answers);
    flushed::GROUPS.iter().try_for_each(|group| run(group, &CARRIED).map(|_| ()))?;
    find(&flushed::WRONG)
}

/// Runs a group against one subject. A difference is told with its name.
fn run(group: &Group, subject: &Form) -> Result<Tally, Difference> {
    group.run(subject).map_err(|difference| format!("{}: {difference}", group.name))
}

/// Runs groups against one subject and prints a line for each.
fn each_group<'a>(groups: impl IntoIterator<Item = &'a Group>, subject: &Form) -> Result<Tally, Difference> {
    let mut total = Tally::default();
    for group in groups {
        let tally = run(group, subject)?;
        println!("  {} ({}): {} answers agree{}", group.name, group.what, tally.answers, sound_of(&tally));
        total.add(&tally);
    }
    Ok(total)
}

/// Runs all groups and these more against one subject, which must reach everything.
fn every_group(subject: &Form, more: &[Group]) -> Result<(), Difference> {
    let total = each_group(GROUPS.iter().chain(more), subject)?;
    println!("  in all {} answers, among them", total.answers);
    for (what, count) in total.reached() {
        println!("    {count} {what}");
        if count == 0 {
            return Err(format!("the comparison reached no {what}"));
        }
    }
    near_the_bound(&total.distances)
}

/// The frames played and the words previewed, where there are any.
fn sound_of(tally: &Tally) -> String {
    let counts = [(tally.frames, "frames"), (tally.words, "words")];
    counts.iter().filter(|(count, _)| *count > 0).map(|(count, what)| format!(", {count} {what}")).collect()
}

/// Lists that stay far within the bound would pass a wrong sound too.
fn near_the_bound(distances: &Distances) -> Result<(), Difference> {
    let Distances { largest, largest_of_sections, largest_of_fed, judged, .. } = distances;
    println!(
        "  largest distance {largest:.6} of the bound over {judged} samples, \
         {largest_of_sections:.6} where the part of the sections is most of it, \
         {largest_of_fed:.6} where that of the sections that feed back is"
    );
    if largest.min(*largest_of_sections).min(*largest_of_fed) < NEAR {
        return Err(format!("no distance came to {NEAR} of the bound"));
    }
    Ok(())
}

/// Every wrong implementation, and what they have in common: this must be right, or they would be found for something
/// else than what is wrong in them.
fn every_wrong_one() -> Result<(), Difference> {
    let units = [FITNESS, BLOCKS, FRAMES, CUTS, REFUSED_BLOCKS];
    let others = [LISTS, CORNERS, REFUSED, WAVES, WAVE_CASES, DAMAGED_WAVES, HUGE_WAVES];
    for (form, groups) in [(RIGHT, &others[..]), (RIGHT, &units), (RIGHT_FED, &[BLOCKS, FRAMES])] {
        for group in groups {
            run(group, &form).map_err(|difference| format!("nothing wrong, {difference}"))?;
        }
    }
    WRONG.iter().try_for_each(find)?;
    let found = run(&ONE_STEP, &FAST)?.answers;
    println!("  a sample one step away: found by distance at each of {found} places");
    Ok(())
}

/// Every group that ought to find this wrong implementation must do so.
fn find(wrong: &Wrong) -> Result<(), Difference> {
    if let Some(group) = wrong.found_by.iter().find(|group| group.run(&wrong.form).is_ok()) {
        return Err(format!("{}: not found by {}", wrong.name, group.name));
    }
    let groups: Vec<&str> = wrong.found_by.iter().map(|group| group.name).collect();
    println!("  {}: found by {}", wrong.name, groups.join(", "));
    Ok(())
}
