//! Which units are fit, and blocks on unfit ones: "an unfit one is 14, and unit and output are unchanged."

use super::run::{marks, Checked, Run};
use super::steps::wrong_numbers;
use super::units::{kind, Kind};
use crate::random::Random;
use crate::unit::{exact, house_unit, Numbers, BANDS, UNFIT, UNIT_COUNT};

/// Lengths of input and output: right ones, and those that are 5, 6 or both for a fit unit.
const LENGTHS: [(usize, usize); 6] = [(0, 0), (4, 4), (8, 11), (3, 8), (8, 7), (7, 2)];

/// The B that goes with a coefficient's place.
fn b_beside(numbers: &Numbers, place: usize) -> i32 {
    numbers[BANDS + (place - BANDS) / 3 * 3 + 1]
}

/// A unit with another number at this place.
pub fn with(numbers: &Numbers, place: usize, number: i32) -> Numbers {
    let mut changed = *numbers;
    changed[place] = number;
    changed
}

/// Numbers that no accepted sheet could carry at this place.
pub fn unfit_numbers(numbers: &Numbers, place: usize) -> Vec<i32> {
    let mut unfit = match kind(place) {
        Kind::Coefficient(which) => wrong_numbers(b_beside(numbers, place), which),
        Kind::Volume => vec![-1, -2, -8_388_608, 8_388_608, 8_388_609, 16_777_216],
        Kind::Input => vec![
            -8_388_864, 8_388_608, 1, -1, 128, 255, 257, -255, 8_388_351, 8_388_353, 8_388_607, -8_388_607, -8_388_609,
        ],
        Kind::Flag => vec![-1, 2, 3, 256, 257, -256, 65_537, 8_388_607, -8_388_608],
        Kind::Strip => vec![-8_388_609, 8_388_608, 8_388_609, -16_777_216, 16_777_216],
        Kind::Remainder => vec![-2_097_153, 2_097_153, -4_194_304, 4_194_304, -8_388_608, 8_388_607],
        Kind::NoRemainder => vec![-1, 1, 256, -65_536, -2_097_152, 2_097_152],
    };
    unfit.extend([i32::MIN, i32::MIN + 1, i32::MAX - 1, i32::MAX]);
    unfit
}

/// Numbers that stand at the edges of what a sheet could carry at this place.
pub fn edge_numbers(numbers: &Numbers, place: usize) -> Vec<i32> {
    match kind(place) {
        Kind::Volume | Kind::Coefficient(0) => vec![0, 1, 8_388_606, 8_388_607],
        Kind::Coefficient(1) => {
            let lowest = numbers[place + 1].abs() - 4_194_303;
            vec![lowest, lowest.max(4_194_302), 4_194_303]
        }
        Kind::Coefficient(_) => {
            let edge = 4_194_304 + b_beside(numbers, place) - 1;
            vec![edge, -edge, 0]
        }
        Kind::Input => vec![-8_388_608, -8_388_352, -256, 0, 256, 8_388_096, 8_388_352],
        Kind::Flag => vec![0, 1],
        Kind::Strip => vec![-8_388_608, -8_388_607, -1, 0, 1, 8_388_606, 8_388_607],
        Kind::Remainder => vec![-2_097_152, -2_097_151, -1, 0, 1, 2_097_151, 2_097_152],
        Kind::NoRemainder => vec![0],
    }
}

/// A fit unit with one number unfit or several. A wrong B can make a wrong G beside it right, never itself.
pub fn spoilt(numbers: &Numbers, random: &mut Random) -> Numbers {
    let mut spoilt = *numbers;
    for _ in 0..=random.below(5) {
        let place = random.below(UNIT_COUNT as u64) as usize;
        spoilt[place] = random.pick(&unfit_numbers(numbers, place));
    }
    spoilt
}

fn fit(run: &mut Run, numbers: &Numbers, expected: bool) -> Checked {
    let got = run.subject.unit_fit(numbers);
    run.same(u32::from(expected), got, || format!("fitness of the unit {numbers:?}"))
}

/// An unfit unit: 0, and each block on it 14 with nothing changed.
fn unfit(run: &mut Run, numbers: &Numbers) -> Checked {
    fit(run, numbers, false)?;
    for (length, room) in LENGTHS {
        let input = vec![0x55; length];
        let (mut after, mut output) = (*numbers, marks(room));
        run.block(&mut after, &input, room)?;
        let answer = run.subject.block(&mut after, &input, &mut output);
        run.same((UNFIT, *numbers, marks(room)), (answer, after, output), || "block on an unfit unit".to_string())?;
    }
    Ok(())
}

/// Each number of a fit unit in turn unfit in every way, and at its edges.
fn each_number(run: &mut Run, numbers: &Numbers) -> Checked {
    for place in 0..UNIT_COUNT {
        for number in unfit_numbers(numbers, place) {
            unfit(run, &with(numbers, place, number))?;
        }
        for number in edge_numbers(numbers, place) {
            let mut edge = with(numbers, place, number);
            fit(run, &edge, true)?;
            run.block(&mut edge, &[0x7F; 8], 9)?;
        }
    }
    Ok(())
}

pub fn units(run: &mut Run) -> Checked {
    fit(run, &house_unit(), true)?;
    each_number(run, &house_unit())?;
    for turn in 0..10_000 {
        let numbers = run.fit_unit(turn);
        fit(run, &numbers, true)?;
        let several = spoilt(&numbers, &mut run.random);
        unfit(run, &several)?;
        if turn < 20 {
            each_number(run, &numbers)?;
        }
    }
    for turn in 0..50_000 {
        let numbers = run.fit_unit(turn);
        let place = run.random.below(UNIT_COUNT as u64) as usize;
        let changed = with(&numbers, place, run.random.between(-8_400_000, 8_400_000));
        fit(run, &changed, exact::fit(&changed))?;
        let anything = [(); UNIT_COUNT].map(|()| run.random.any_i32());
        fit(run, &anything, exact::fit(&anything))?;
    }
    Ok(())
}
