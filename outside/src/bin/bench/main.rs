//! Times the library over the C ABI against the fast Rust form, and its preview against its own section too: same
//! input, same loop, in turns. The results must be equal. Exit status 0 only if a block of the library takes at most
//! nine tenths of the time of one of the Rust form, and a sheet written or read at most half longer; no other time is
//! asserted. Where something is aimed at, that is printed beside the times.

mod blocks;
mod processes;

use std::env;
use std::hint::black_box;
use std::process::ExitCode;

use outside::checks::units::{random_fit, Sets};
use outside::ffi::raw;
use outside::random::Random;
use outside::reference::{fast, house_set, Section, Step, ACCEPTED};
use outside::subject::{Form, FAST, LIBRARY};
use outside::timer::{fold, in_turns, status, timed, within, Goal, NO_GOAL};
use outside::unit::orders::Order;
use outside::unit::sheet::SHEET;
use outside::unit::{house_unit, Numbers, UNIT_COUNT};

const SEED: u64 = 0xF0DD_00BE;
const ROUNDS: usize = 11;
/// Steps and roundings of a run.
const COUNT: usize = 2_000_000;
/// Orders of a run, and what is aimed at for one.
const ORDERS: usize = 100_000;
const ORDER_GOAL: Goal = Goal { ratio: 2.0, time: 60.0 };
/// The words of a list, and how often it is previewed in a run.
const WORDS: usize = 100_000;
const PREVIEWS: usize = 20;
/// Sheets of a run, and the most that one may take in times of the Rust form.
const SHEETS: usize = 65_536;
const MOST_SHEET: f64 = 1.50;

/// Two contenders by name.
type Pair<F> = [(&'static str, F); 2];
const WITH_RUST: Pair<Form> = [("library", LIBRARY), ("Rust", FAST)];
const WITH_SECTION: Pair<Form> = [("preview", LIBRARY), ("section", Form { preview: section_steps, ..LIBRARY })];

/// The library's section from a cleared start, a step a word, in place of its preview.
fn section_steps([a, b, g]: [i32; 3], words: &[i32], results: &mut [i32], remainders: &mut [i32]) -> u32 {
    let mut section = [a, b, g, 0, 0, 0, 0];
    for ((result, remainder), &x) in results.iter_mut().zip(remainders).zip(words) {
        // SAFETY: the section is seven numbers of this function's own.
        let step = unsafe { raw::fonddrys_section_step(&mut section, x) };
        (*result, *remainder) = (step.y, step.remainder);
    }
    ACCEPTED
}

/// The best time of each for one thing of so many, in so many rounds.
fn best<F>(pair: &Pair<F>, [rounds, count]: [usize; 2], run: impl Fn(&F) -> (f64, u64)) -> Result<[f64; 2], String> {
    let [(_, one), (_, other)] = pair;
    let measure = |form: &F| {
        let (time, checksum) = run(black_box(form));
        Ok(([time / count as f64], checksum))
    };
    in_turns(rounds, [&mut || measure(one), &mut || measure(other)]).map(|times| times.map(|[time]| time))
}

/// Prints the times of a pair, and what is aimed at.
fn told<F>(name: &str, [(first, _), (second, _)]: &Pair<F>, times: [f64; 2], goal: Goal) {
    let [one, other] = times;
    println!("{name}: {first} {one:.2} ns, {second} {other:.2} ns, ratio {:.3}{}", one / other, goal.told(times));
}

/// Prints the best time of each for one thing of so many, in so many rounds, and gives both.
fn race<F>(
    name: &str,
    pair: &Pair<F>,
    counts: [usize; 2],
    goal: Goal,
    run: impl Fn(&F) -> (f64, u64),
) -> Result<[f64; 2], String> {
    let times = best(pair, counts, run).map_err(|fault| format!("{name}: {fault}"))?;
    told(name, pair, times, goal);
    Ok(times)
}

/// A run over a list: each thing gives a number for the checksum.
fn run_each<T>(things: &[T], mut call: impl FnMut(&T) -> i64) -> (f64, u64) {
    timed(|| things.iter().fold(0, |sum, thing| fold(sum, call(thing))))
}

/// The bands that steps and previews are timed with.
fn bands() -> [(&'static str, [i32; 3]); 2] {
    let house = house_set();
    [("house band 1000 Hz", [house[15], house[16], house[17]]), ("extreme band", [8_388_607, 4_194_303, 8_388_606])]
}

/// A step as a C program calls it; the Rust form is called in that way too, and not worked into the loop.
type Stepper = unsafe extern "C" fn(*mut Section, i32) -> Step;
const STEPS: Pair<Stepper> = [("library", raw::fonddrys_section_step), ("Rust", rust_step)];

unsafe extern "C" fn rust_step(section: *mut Section, x: i32) -> Step {
    // SAFETY: the pointer is to the seven numbers of `time_steps`, which nobody else holds.
    fast::step(unsafe { &mut *section }, x)
}

fn time_steps(random: &mut Random) -> Result<(), String> {
    let words: Vec<i32> = (0..COUNT).map(|_| random.word()).collect();
    for (name, [a, b, g]) in bands() {
        race(&format!("step, {name}"), &STEPS, [ROUNDS, COUNT], NO_GOAL, |step| {
            let mut section = [a, b, g, 0, 0, 0, 0];
            run_each(&words, |&x| {
                // SAFETY: the section is seven numbers that nobody else holds.
                unsafe { step(&mut section, x) }.y.into()
            })
        })?;
    }
    Ok(())
}

fn time_nearest(random: &mut Random) -> Result<(), String> {
    let section_sums = (0..COUNT).map(|_| ((random.draw() as i64) >> 16, 22)).collect();
    let any_shift = (0..COUNT).map(|_| (random.any_size(), random.below(64) as u32)).collect();
    let rows: [(&str, Vec<(i64, u32)>); 2] =
        [("nearest, shift 22", section_sums), ("nearest, shifts 0 to 63", any_shift)];
    for (name, numbers) in rows {
        let run = |form: &Form| run_each(&numbers, |&(v, k)| (form.nearest)(v, k));
        race(name, &WITH_RUST, [ROUNDS, COUNT], NO_GOAL, run)?;
    }
    Ok(())
}

/// Orders for every side and band, a few of them refused. A unit is read from its numbers and tested for each.
fn time_orders(random: &mut Random) -> Result<(), String> {
    let mut orders = |make: fn(u32, u32, u64) -> Order| -> Vec<Order> {
        let mut draw = || make(random.below(3) as u32, random.below(10) as u32, random.draw());
        (0..ORDERS).map(|_| draw()).collect()
    };
    let positions = orders(|side, band, draw| Order::position(side, band, (draw % 33) as u8));
    let factors = orders(|side, band, draw| Order::factor(side, band, (draw % 4_096) as f32 / 2_000.0 - 1.024));
    for (name, orders) in [("order, position", positions), ("order, factor", factors)] {
        race(name, &WITH_RUST, [ROUNDS, ORDERS], ORDER_GOAL, |form| {
            let mut unit = house_unit();
            let (time, checksum) = run_each(&orders, |order| (form.order)(&mut unit, order).into());
            (time, unit.iter().fold(checksum, |sum, &n| fold(sum, n.into())))
        })?;
    }
    Ok(())
}

/// A list of any words in one call, with a house band and an extreme one; the times are for a word.
fn time_previews(random: &mut Random) -> Result<(), String> {
    let words: Vec<i32> = (0..WORDS).map(|_| random.word()).collect();
    let count = [ROUNDS, PREVIEWS * WORDS];
    for (name, band) in bands() {
        let run = |form: &Form| {
            let [mut results, mut remainders] = [(); 2].map(|()| vec![0; words.len()]);
            let calls =
                || (0..PREVIEWS).all(|_| (form.preview)(band, &words, &mut results, &mut remainders) == ACCEPTED);
            let (time, accepted) = timed(calls);
            assert!(accepted);
            (time, results.iter().chain(&remainders).fold(0, |sum, &number| fold(sum, number.into())))
        };
        race(&format!("preview and section, {name}"), &WITH_SECTION, count, NO_GOAL, run)?;
        race(&format!("preview, {name}"), &WITH_RUST, count, NO_GOAL, run)?;
    }
    Ok(())
}

/// Each unit in turn written to its own sheet.
fn run_writes(form: &Form, units: &[Numbers]) -> (f64, u64) {
    let mut sheets = vec![[0; SHEET]; units.len()];
    let mut write_all = || units.iter().zip(&mut sheets).all(|(unit, sheet)| (form.sheet_write)(unit, sheet) == SHEET);
    let (time, written) = timed(|| (0..SHEETS / units.len()).all(|_| write_all()));
    assert!(written);
    (time, sheets.iter().flatten().fold(0, |sum, &byte| fold(sum, byte.into())))
}

/// Each sheet in turn read into its own unit.
fn run_reads(form: &Form, sheets: &[[u8; SHEET]]) -> (f64, u64) {
    let mut units = vec![[0; UNIT_COUNT]; sheets.len()];
    let mut read_all = || units.iter_mut().zip(sheets).all(|(unit, sheet)| (form.sheet_read)(unit, sheet) == ACCEPTED);
    let (time, read) = timed(|| (0..SHEETS / sheets.len()).all(|_| read_all()));
    assert!(read);
    (time, units.iter().flatten().fold(0, |sum, &number| fold(sum, number.into())))
}

/// Many random units, a few of them, with which both forms are faster, and the cleared house unit. True where every
/// limit is kept.
fn time_sheets(random: &mut Random) -> Result<bool, String> {
    let sets = Sets::all();
    let units: Vec<Numbers> = (0..1_024).map(|turn| random_fit(&sets.draw(turn, random), random)).collect();
    let house = [house_unit()];
    let mut all_kept = true;
    for (name, units) in
        [("of 1,024 units", &units[..]), ("of 64 units", &units[..64]), ("of the cleared house unit", &house[..])]
    {
        let mut sheets = vec![[0; SHEET]; units.len()];
        units.iter().zip(&mut sheets).for_each(|(unit, sheet)| assert_eq!((FAST.sheet_write)(unit, sheet), SHEET));
        let time = |what: &str, run: &dyn Fn(&Form) -> (f64, u64)| {
            let name = format!("sheet {name} {what}");
            within(&name, MOST_SHEET, || race(&name, &WITH_RUST, [ROUNDS, SHEETS], NO_GOAL, run))
        };
        all_kept &= time("written", &|form| run_writes(form, units))?;
        all_kept &= time("read", &|form| run_reads(form, &sheets))?;
    }
    Ok(all_kept)
}

fn everything() -> Result<bool, String> {
    println!("seed {SEED:#x}, best of {ROUNDS} runs each, in turns");
    println!("blocks of frames: best of {} runs in each of {} processes", blocks::IN_A_PROCESS, processes::PROCESSES);
    let random = &mut Random::new(SEED);
    time_steps(random)?;
    time_nearest(random)?;
    time_orders(random)?;
    time_previews(random)?;
    let blocks = blocks::time()?;
    Ok(time_sheets(random)? && blocks)
}

fn main() -> ExitCode {
    match env::args().nth(1) {
        Some(name) => processes::one(&name),
        None => status(everything()),
    }
}
