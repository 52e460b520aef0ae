//! Rounding, limiting and the move of a level on their own.

use super::run::{Checked, Run};
use crate::reference::exact;
use crate::unit::exact::level_moved;

/// Shifts above 70: also those that equal a small shift modulo 32 or 64.
const LARGE_SHIFTS: [u32; 16] =
    [71, 86, 95, 96, 127, 128, 150, 191, 192, 256, 65_536, 65_558, 1 << 31, (1 << 31) + 22, u32::MAX - 41, u32::MAX];

/// Numbers at which 64-bit arithmetic is likely to go wrong.
fn number_corners() -> Vec<i64> {
    let mut corners = vec![0, i64::MIN, i64::MIN + 1, i64::MIN + 2, i64::MAX - 1, i64::MAX];
    for j in 0..=63 {
        for factor in [1, 3, 5] {
            for beside in [-1, 0, 1] {
                let size = (factor << j) + beside;
                corners.extend([size, -size].iter().filter_map(|&v: &i128| i64::try_from(v).ok()));
            }
        }
    }
    corners
}

/// One rounding, compared, and its meaning checked: the distance is at most a half, and at a half the result is even.
fn round(run: &mut Run, v: i64, k: u32) -> Checked {
    let got = run.subject.nearest(v, k);
    run.same(exact::nearest(v, k), got, || format!("nearest of v = {v}, k = {k}"))?;
    if (1..=63).contains(&k) {
        let twice_away = 2 * ((i128::from(got) << k) - i128::from(v)).abs();
        let unit = 1_i128 << k;
        if twice_away > unit || (twice_away == unit && got & 1 == 1) {
            return Err(format!("nearest of v = {v}, k = {k}: {got} isn't the nearest"));
        }
    }
    Ok(())
}

/// Exact halves q + 1/2 and the numbers beside them.
fn halves(run: &mut Run, k: u32) -> Checked {
    let (lowest, highest) = (i64::MIN >> k, i64::MAX >> k);
    let mut quotients: Vec<i64> = (0..8).flat_map(|i| [lowest.saturating_add(i), highest.saturating_sub(i)]).collect();
    quotients.extend(-8..8);
    quotients.extend((0..5_000).map(|_| run.random.any_size() >> k));
    quotients.retain(|quotient| (lowest..=highest).contains(quotient));
    for quotient in quotients {
        let half = (quotient << k) + (1 << (k - 1));
        for v in [half - 1, half, half.saturating_add(1)] {
            round(run, v, k)?;
        }
    }
    Ok(())
}

pub fn nearest(run: &mut Run) -> Checked {
    let corners = number_corners();
    for k in (0..=70).chain(LARGE_SHIFTS) {
        for &v in &corners {
            round(run, v, k)?;
        }
        for _ in 0..25_000 {
            let v = run.random.any_size();
            round(run, v, k)?;
        }
        if (1..=63).contains(&k) {
            halves(run, k)?;
        }
    }
    for _ in 0..200_000 {
        let k = run.random.draw() as u32 >> run.random.below(32);
        let v = run.random.any_size();
        round(run, v, k)?;
    }
    Ok(())
}

pub fn limit(run: &mut Run) -> Checked {
    let limited = |run: &mut Run, v, low, high| {
        let got = run.subject.limit(v, low, high);
        run.same(exact::limit(v, low, high), got, || format!("limit of v = {v}, low = {low}, high = {high}"))
    };
    let mut corners = vec![0, i64::MIN, i64::MIN + 1, i64::MAX - 1, i64::MAX];
    for size in [1, 32_768, 8_388_608, 1 << 31, 1 << 32] {
        corners.extend([-1, 0, 1].iter().flat_map(|beside| [size + beside, -size + beside]));
    }
    for &v in &corners {
        for &low in &corners {
            for &high in &corners {
                limited(run, v, low, high)?;
            }
        }
    }
    for _ in 0..500_000 {
        let [v, low, high] = [(); 3].map(|()| run.random.any_size());
        limited(run, v, low, high)?;
        let beside = run.random.below(3) as i64 - 1;
        let near = run.random.pick(&[low, high]).saturating_add(beside);
        limited(run, near, low, high)?;
    }
    Ok(())
}

const SMALL_SLOPES: [u32; 9] = [0, 1, 2, 418, 419, 420, 838, 839, 840];
const LARGE_SLOPES: [u32; 8] =
    [8_388_607, 8_388_608, 16_777_215, i32::MAX as u32, 1 << 31, (1 << 31) + 1, u32::MAX - 1, u32::MAX];

/// Ends of the ranges, zero, and the slopes themselves.
fn level_corners() -> Vec<i32> {
    let mut corners = vec![i32::MIN, i32::MIN + 1, i32::MAX - 1, i32::MAX];
    for size in [0, 419, 839, 4_194_304, 8_388_608, 1 << 30] {
        corners.extend([-1, 0, 1].iter().flat_map(|beside| [size + beside, -size + beside]));
    }
    corners
}

/// One move of a level, compared, and its meaning checked: it doesn't pass the target, is no longer than the slope, and
/// is shorter only where it arrives.
fn move_once(run: &mut Run, present: i32, target: i32, slope: u32) -> Checked {
    let got = run.subject.level_moved(present, target, slope);
    let inputs = || format!("level at {present} with target {target}, slope {slope}");
    run.same(level_moved(present, target, slope), got, inputs)?;
    let length = got.abs_diff(present);
    let between = present.min(target) <= got && got <= present.max(target);
    if !between || length > slope || (length < slope && got != target) {
        return Err(format!("{}: {got} is no right move", inputs()));
    }
    Ok(())
}

/// Targets at the slope's distance and beside it.
fn beside(run: &mut Run, present: i32, slope: u32) -> Checked {
    for beside in -2..=2 {
        let distance = i64::from(slope) + beside;
        for target in [i64::from(present) + distance, i64::from(present) - distance] {
            if let Ok(target) = i32::try_from(target) {
                move_once(run, present, target, slope)?;
            }
        }
    }
    Ok(())
}

pub fn moved(run: &mut Run) -> Checked {
    let corners = level_corners();
    for slope in SMALL_SLOPES.into_iter().chain(LARGE_SLOPES) {
        for &present in &corners {
            for &target in &corners {
                move_once(run, present, target, slope)?;
            }
            beside(run, present, slope)?;
        }
        for _ in 0..20_000 {
            let [word, target] = [(); 2].map(|()| run.random.word());
            move_once(run, word, target, slope)?;
            let [present, target] = [(); 2].map(|()| run.random.any_i32());
            move_once(run, present, target, slope)?;
            beside(run, word, slope)?;
        }
    }
    for _ in 0..200_000 {
        let [present, target] = [(); 2].map(|()| run.random.any_i32());
        let slope = run.random.draw() as u32 >> run.random.below(32);
        move_once(run, present, target, slope)?;
        beside(run, present, slope)?;
    }
    Ok(())
}
