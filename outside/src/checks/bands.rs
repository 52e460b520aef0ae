//! Which bands are refused, the house set, and the bands the section is stepped with.

use super::run::{Checked, Run};
use crate::random::Random;
use crate::reference::{band_refusal, house_set, ACCEPTED};

/// A, B, G.
pub type Band = [i32; 3];

/// The ends of the accepted ranges and of a word, and what lies beside them.
const EVERY_A: [i32; 9] = [-8_388_608, -2, -1, 0, 1, 8_388_606, 8_388_607, 8_388_608, 8_388_609];
const EVERY_B: [i32; 19] = [
    -8_388_609, -8_388_608, -8_388_607, -4_194_305, -4_194_304, -4_194_303, -4_194_302, -4_194_301, -1, 0, 1,
    4_194_301, 4_194_302, 4_194_303, 4_194_304, 4_194_305, 8_388_607, 8_388_608, 8_388_609,
];
const EVERY_G: [i32; 11] =
    [-8_388_609, -8_388_608, -8_388_607, -8_388_606, -1, 0, 1, 8_388_606, 8_388_607, 8_388_608, 8_388_609];

/// These between the ends of an i32.
fn with_the_ends(numbers: &[i32]) -> Vec<i32> {
    [&[i32::MIN, i32::MIN + 1], numbers, &[i32::MAX - 1, i32::MAX]].concat()
}

/// Every G of the list and those at the edge that goes with this B, each with every A.
fn every_band_beside(b: i32) -> Vec<Band> {
    let edge = 4_194_304 + i64::from(b);
    let beside = (-2..=2).flat_map(|d| [edge + d, -edge + d]);
    let every_g = beside.filter_map(|g| i32::try_from(g).ok()).chain(with_the_ends(&EVERY_G));
    every_g.flat_map(|g| with_the_ends(&EVERY_A).into_iter().map(move |a| [a, b, g])).collect()
}

/// Bands at the corners of the accepted ranges, and outside them.
pub fn corner_bands() -> impl Iterator<Item = Band> {
    with_the_ends(&EVERY_B).into_iter().flat_map(every_band_beside)
}

fn same_refusal(run: &mut Run, [a, b, g]: Band) -> Checked {
    let got = run.subject.band_refusal(a, b, g);
    run.same(band_refusal(a, b, g), got, || format!("band A = {a}, B = {b}, G = {g}"))
}

pub fn refusals(run: &mut Run) -> Checked {
    for band in corner_bands() {
        same_refusal(run, band)?;
    }
    for _ in 0..2_000 {
        let b = run.random.between(-4_194_303, 4_194_303);
        for band in every_band_beside(b) {
            same_refusal(run, band)?;
        }
    }
    for _ in 0..300_000 {
        let anything = [(); 3].map(|()| run.random.any_i32());
        same_refusal(run, anything)?;
        let words = [(); 3].map(|()| run.random.word());
        same_refusal(run, words)?;
        let accepted = random_accepted(&mut run.random);
        same_refusal(run, accepted)?;
    }
    Ok(())
}

pub fn house(run: &mut Run) -> Checked {
    let (expected, got) = (house_set(), run.subject.house_set());
    for place in 0..30 {
        let name = ["A", "B", "G"][place % 3];
        run.same(expected[place], got[place], || format!("house set, {name} of band {}", place / 3))?;
    }
    for band in got.chunks_exact(3) {
        let [a, b, g] = [band[0], band[1], band[2]];
        run.same(ACCEPTED, band_refusal(a, b, g), || format!("house band {band:?}"))?;
        same_refusal(run, [a, b, g])?;
    }
    Ok(())
}

/// The ten bands of the house set.
pub fn house_bands() -> Vec<Band> {
    house_set().as_chunks().0.to_vec()
}

/// The largest |G| that is accepted beside this B.
fn largest_g(b: i32) -> i32 {
    4_194_304 + b - 1
}

/// Any accepted band.
pub fn random_accepted(random: &mut Random) -> Band {
    let a = random.between(0, 8_388_607);
    let b = random.between(-4_194_303, 4_194_303);
    [a, b, random.between(-largest_g(b), largest_g(b))]
}

/// An accepted band whose poles lie close to the unit circle, with an A of any size: its results decay slowly.
pub fn slow_accepted(random: &mut Random) -> Band {
    let a = random.between(0, 8_388_607) >> random.below(23);
    let b = 4_194_303 - (random.between(0, 4_095) >> random.below(12));
    let g = match random.below(2) {
        0 => random.between(-largest_g(b), largest_g(b)),
        _ => largest_g(b) - (random.between(0, 4_095) >> random.below(12)),
    };
    [a, b, g]
}

fn accepted_of(every_a: &[i32], every_b: &[i32], every_g: impl Fn(i32) -> [i32; 7]) -> Vec<Band> {
    let mut bands = Vec::new();
    for &a in every_a {
        for &b in every_b {
            for g in every_g(b) {
                if band_refusal(a, b, g) == ACCEPTED && !bands.contains(&[a, b, g]) {
                    bands.push([a, b, g]);
                }
            }
        }
    }
    bands
}

/// Accepted bands at the corners of the accepted ranges.
pub fn extreme_accepted() -> Vec<Band> {
    accepted_of(&[0, 1, 8_388_606, 8_388_607], &[-4_194_303, -4_194_302, -1, 0, 1, 4_194_302, 4_194_303], |b| {
        let edge = largest_g(b);
        [edge, -edge, edge - 1, 1 - edge, 1, 0, -1]
    })
}

/// Accepted bands of multiples of 2^21, so that S / 2^22 is often at a half.
pub fn half_accepted() -> Vec<Band> {
    const HALF: i32 = 1 << 21;
    accepted_of(&[0, HALF, 2 * HALF, 3 * HALF], &[-HALF, 0, HALF], |_| [-3, -2, -1, 0, 1, 2, 3].map(|n| n * HALF))
}
