//! Loading a band set: the refusals 7 to 10 and the unit that comes of it, whatever the lent numbers held before.

use super::run::{Checked, Run};
use super::steps::wrong_numbers;
use crate::reference::{house_set, ACCEPTED, REFUSED_A};
use crate::unit::{self, cleared, house_unit, Numbers, NOT_THIRTY, UNIT_COUNT};

const WRONG_LENGTHS: [usize; 14] = [0, 1, 2, 3, 10, 27, 28, 29, 31, 32, 33, 60, 138, 300];

/// One loading compared with the reference: the answer and all numbers, whatever they were before. The unit that comes
/// of it is fit.
fn load(run: &mut Run, set: &[i32]) -> Checked<(u32, Numbers)> {
    let before = match run.random.below(4) {
        0 => [i32::MIN; UNIT_COUNT],
        1 => [-1; UNIT_COUNT],
        2 => cleared(&[7; 30]),
        _ => [(); UNIT_COUNT].map(|()| run.random.any_i32()),
    };
    let (mut expected, mut got) = (before, before);
    let number = unit::load(&mut expected, set);
    let answer = run.subject.load(&mut got, set);
    let inputs = || format!("loading {set:?}");
    run.same((number, expected), (answer, got), inputs)?;
    let fit = run.subject.unit_fit(&got);
    run.same(1, fit, inputs)?;
    Ok((answer, got))
}

/// One loading with the number that the specification gives for it: "a cleared unit", or "The answer holds the cleared
/// house unit."
fn stated(run: &mut Run, set: &[i32], number: u32) -> Checked {
    let loaded = load(run, set)?;
    let held = match set.try_into() {
        Ok(thirty) if number == ACCEPTED => cleared(thirty),
        _ => house_unit(),
    };
    run.same((number, held), loaded, || format!("loading {set:?}"))
}

/// Each number of this accepted set made wrong by itself.
fn one_wrong(run: &mut Run, set: &[i32; 30]) -> Checked {
    for place in 0..30 {
        for wrong in wrong_numbers(set[place / 3 * 3 + 1], place % 3) {
            let mut spoilt = *set;
            spoilt[place] = wrong;
            stated(run, &spoilt, REFUSED_A + place as u32 % 3)?;
        }
    }
    Ok(())
}

/// Each band of this accepted set put at the edges of what is accepted.
fn edges(run: &mut Run, set: &[i32; 30]) -> Checked {
    for place in (0..30).step_by(3) {
        let (a, b) = (set[place], set[place + 1]);
        let edge = 4_194_304 + b - 1;
        let ends = [[0, b, 0], [8_388_607, b, 0], [a, b, edge], [a, b, -edge]];
        let of_b = [[a, -4_194_303, 0], [a, 4_194_303, 8_388_606], [a, 4_194_303, -8_388_606]];
        for at_edge in ends.into_iter().chain(of_b) {
            let mut put = *set;
            put[place..place + 3].copy_from_slice(&at_edge);
            stated(run, &put, ACCEPTED)?;
        }
    }
    Ok(())
}

/// Several numbers wrong at once: the first gives the refusal.
fn several_wrong(run: &mut Run, set: &[i32; 30]) -> Checked {
    let places = run.random.draw() as u32 & run.random.draw() as u32 & 0x3FFF_FFFF;
    if places == 0 {
        return Ok(());
    }
    let mut spoilt = *set;
    for place in (0..30).filter(|place| places & (1 << place) != 0) {
        let wrong = wrong_numbers(set[place / 3 * 3 + 1], place % 3);
        spoilt[place] = run.random.pick(&wrong);
    }
    stated(run, &spoilt, REFUSED_A + places.trailing_zeros() % 3)
}

pub fn sets(run: &mut Run) -> Checked {
    stated(run, &house_set(), ACCEPTED)?;
    for length in WRONG_LENGTHS {
        let right: Vec<i32> = house_set().into_iter().cycle().take(length).collect();
        stated(run, &right, NOT_THIRTY)?;
        stated(run, &vec![-1; length], NOT_THIRTY)?;
    }
    for turn in 0..2_000 {
        let set = run.sets.draw(turn, &mut run.random);
        stated(run, &set, ACCEPTED)?;
        for _ in 0..20 {
            several_wrong(run, &set)?;
        }
        if turn < 25 {
            one_wrong(run, &set)?;
            edges(run, &set)?;
        }
    }
    for _ in 0..20_000 {
        let anything = [(); 30].map(|()| run.random.any_i32());
        load(run, &anything)?;
        let small = [(); 30].map(|()| run.random.between(0, 4_300_000));
        load(run, &small)?;
    }
    Ok(())
}
